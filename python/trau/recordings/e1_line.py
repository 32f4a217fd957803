"""A recorded line of slots from its slot 0 on, block by block: an E1 line by its frame alignment
signal (ITU-T G.704), recorded from any bit on and in either order of bits; a line without it, or a
slot alone, as it is.

Where the recording loses or gains octets or bits in its middle, the signal is sought again from
there. Places are counted in E1 frames of the recording, whose time thus goes on.
"""

from collections import Counter
from typing import Iterable, Iterator, List, NamedTuple, Optional

from trau.rules import hunt
from trau.rules.slots import SLOTS_OF_E1, octets_from, octets_turned

# The signal: bits 2 to 8 of each other octet of slot 0; bit 2 of the octets between is 1.
SIGNAL, SIGNAL_BITS = 0x1B, 0x7F
FRAME_BITS = 8 * SLOTS_OF_E1
BOTH_FRAMES_BITS = 2 * FRAME_BITS
SIGNAL_DOUBLINGS = 5  # so 32 signals in a row are wanted, 8 ms
LOST_SIGNAL = bytes(3)  # so many wrong signals in a row end the alignment (ITU-T G.706)
IS_SIGNAL = bytes(octet & SIGNAL_BITS == SIGNAL for octet in range(256))
HEAD_OCTETS = 1 << 17  # in which the signal is sought at first
SEEK_OCTETS = 1 << 16  # in which it is sought at a time, where it was lost
SEEK_OVERLAP = 64 * (SIGNAL_DOUBLINGS + 1) << SIGNAL_DOUBLINGS  # more than the signals in a row


class LineWay(NamedTuple):
    """How a line is read: with the bits of its octets in the other order or not, from which bit of
    the recording on, in frames of how many octets, and whether slot 0 has the signal."""

    turned: bool
    bit: int
    slots: int
    has_signal: bool


class LineBlock(NamedTuple):
    """Whole frames of a line: their octets from slot 0 on, the place of the first, in frames of the
    recording, and whether they don't follow on the frames before, as where octets were lost."""

    octets: bytes
    frame: int
    is_anew: bool


def signal_marks(octets: bytes) -> List[int]:
    """The bits at which a slot 0 begins from which on the signal is in each other one, 32 times in
    a row."""
    size = 8 * len(octets)
    bits, full = int.from_bytes(octets, "big"), (1 << size) - 1
    zeros = bits ^ full
    # Marked at the signal's first bit, bit 2 of slot 0, by what follows it.
    marks = zeros & zeros << 1 & bits << 2 & bits << 3 & zeros << 4 & bits << 5 & bits << 6
    marks &= bits << FRAME_BITS & full
    for doubling in range(SIGNAL_DOUBLINGS):
        marks &= marks << (BOTH_FRAMES_BITS << doubling)
    return [place - 1 for place in hunt.places(marks & full, len(octets)) if place]


def signal_way(head: bytes) -> Optional[LineWay]:
    """How an E1 line is read that begins with these octets, if the signal is there: from the first
    slot 0 with the signal on."""
    best: Optional[LineWay] = None
    most = 0
    for turned in (False, True):
        marks = signal_marks(octets_turned(head) if turned else head)
        for rest, count in Counter(mark % BOTH_FRAMES_BITS for mark in marks).most_common(1):
            if count > most:
                best, most = LineWay(turned, rest, SLOTS_OF_E1, True), count
    return best


class LineReader:
    """Gives the frames of a line from the octets of a recording."""

    def __init__(self, way: LineWay) -> None:
        self.way = way
        self.octets_of_frame = way.slots
        self.pending = b""  # octets that weren't given yet, in the right order of bits
        self.passed = 0  # octets of the recording before them
        self.bit = way.bit  # of the pending octets, with which the next frame begins
        self.has_signal_next = True  # whether the next frame is one of those with the signal
        self.is_anew = True
        self.breaks: List[
            int
        ] = []  # frames of the recording before which octets were lost or gained

    def blocks(self, blocks: Iterable[bytes]) -> Iterator[LineBlock]:
        """The frames of all blocks of a recording."""
        for block in blocks:
            self.pending += octets_turned(block) if self.way.turned else block
            while frames := self.whole_frames():
                lost = self.frame_of_loss(frames) if self.way.has_signal else None
                if lost is None:
                    yield self.given(frames)
                    break
                yield from self.with_loss(frames, lost)

    def whole_frames(self) -> bytes:
        """The whole frames among the pending octets."""
        first, shift = divmod(self.bit, 8)
        octets = octets_from(self.pending[first:], shift)
        return octets[: len(octets) // self.octets_of_frame * self.octets_of_frame]

    def frame_of_loss(self, frames: bytes) -> Optional[int]:
        """The first frame, counted in these, that may have lost its place, if the signal is lost in
        them."""
        first = 0 if self.has_signal_next else 1
        right = frames[:: self.octets_of_frame][first::2].translate(IS_SIGNAL)
        at = right.find(LOST_SIGNAL)
        return None if at < 0 else max(0, first + 2 * at - 1)

    def given(self, frames: bytes) -> LineBlock:
        """Gives these frames, with which the pending octets begin."""
        count = len(frames) // self.octets_of_frame
        block = LineBlock(frames, self.frame(), self.is_anew)
        self.is_anew = False
        self.has_signal_next ^= bool(count % 2)
        self.drop(self.bit + 8 * len(frames))
        return block

    def frame(self) -> int:
        """The place of the next frame, in frames of the recording."""
        return (8 * self.passed + self.bit) // (8 * self.octets_of_frame)

    def drop(self, bit: int) -> None:
        """Goes on at a bit of the pending octets."""
        octets, self.bit = divmod(bit, 8)
        self.pending = self.pending[octets:]
        self.passed += octets

    def with_loss(self, frames: bytes, lost: int) -> Iterator[LineBlock]:
        """The frames before the signal was lost, and, up to where it is again, those after it as
        they were aligned before."""
        size = self.octets_of_frame
        if lost:
            yield self.given(frames[: lost * size])
        place = self.frame()
        again = self.next_signal()
        kept = self.whole_frames()
        if again is not None:
            kept = kept[: again // (8 * size) * size]
        if kept:
            yield self.given(kept)
        if again is not None:
            if again % (8 * size):
                self.breaks.append(place)
                self.is_anew = True
            self.drop(self.bit + again - 8 * len(kept))
            self.has_signal_next = True

    def next_signal(self) -> Optional[int]:
        """Where the signal begins again, in bits from the next frame on; None if it isn't in the
        pending octets."""
        first, shift = divmod(self.bit, 8)
        for start in range(first, len(self.pending), SEEK_OCTETS - SEEK_OVERLAP):
            marks = signal_marks(self.pending[start : start + SEEK_OCTETS])
            places = [8 * (start - first) + mark - shift for mark in marks]
            found = next((place for place in places if place >= 0), None)
            if found is not None:
                return found
        return None
