"""Time slots and whole lines of slots: which of their channels of 16 kbit/s have frames, and where
the octets of such a recording begin."""

from __future__ import annotations

import itertools
from fractions import Fraction
from typing import Callable, Dict, List, Mapping, NamedTuple, Optional, Sequence, Set, Tuple

from trau.recordings import bit_order, e1_line
from trau.recordings.bit_order import RIVAL_SHARE
from trau.recordings.excerpts import Excerpt, Excerpts
from trau.recordings.file_descriptions import LSB_FIRST, TURNED, FileDescription, FileKind
from trau.recordings.found_frames import (
    LEAST_COVERED,
    FoundFrames,
    frames_of,
    joined,
    line_said,
)
from trau.rules import hunt
from trau.rules.profile import CHANNELS
from trau.rules.slots import SLOTS_OF_E1, channel_octets, octets_from, octets_turned

CHANNEL_BITS = 8 // CHANNELS  # of an octet of its slot

# The frames of the channels of slots, by slot and channel.
ChannelFrames = Dict[int, FoundFrames]
SlotFrames = Dict[int, ChannelFrames]
# What a slot without frames has, of excerpts of it.
SlotLook = Callable[[Excerpts], FileDescription]
# What a recording is, if a test says it.
Test = Callable[[Excerpts], Optional[FileDescription]]


class Alignment(NamedTuple):
    """Where the octets of a recording begin, and whether their bits are in the other order."""

    turned: bool
    bit: int
    octet: int = 0

    def aligned(self, octets: bytes) -> bytes:
        """The octets of a recording from there on."""
        return octets_from(octets_turned(octets) if self.turned else octets, self.bit)[self.octet :]

    def said(self) -> str:
        """The place in words."""
        places = [
            f"{what} {place}" for what, place in (("bit", self.bit), ("octet", self.octet)) if place
        ]
        return f" from {' of '.join(places)} on" if places else ""

    def words(self) -> str:
        """The same as words of the command `slot`."""
        return (
            f" --skip {self.octet}" * bool(self.octet)
            + f" --skip-bits {self.bit}" * bool(self.bit)
            + LSB_FIRST * self.turned
        )


# A channel has two bits of an octet in a row, so those of a slot stay together if it begins an even
# number of bits later.
SLOT_ALIGNMENTS = [Alignment(turned, bit) for bit in (0, 1) for turned in (False, True)]


def busy_channels(octets: bytes, slots: int) -> Set[Tuple[int, int]]:
    """The slots and channels that have the sync bits of a frame anywhere, of a line of so many
    slots from its slot 0 on."""
    marks = hunt.marks(hunt.hits(octets, slots), len(octets))
    return {
        (place // 8 % slots, place % 8 // CHANNEL_BITS) for place in hunt.places(marks, len(octets))
    }


def frames_of_slots(of: Excerpts, aligned: Sequence[Excerpt], slots: int) -> SlotFrames:
    """The frames in the channels of a line of so many slots, of those channels that have a line of
    frames. The excerpts are aligned."""
    found: Dict[Tuple[int, int], List[Tuple[Excerpt, FoundFrames]]] = {}
    for part in aligned:
        for slot, channel in busy_channels(part.octets, slots):
            frames = frames_of(channel_octets(part.octets[slot::slots], channel))
            if frames and frames.covered >= LEAST_COVERED:
                found.setdefault((slot, channel), []).append((part, frames))
    by_slot: SlotFrames = {}
    for (slot, channel), each in sorted(found.items(), key=lambda item: item[0]):
        frames = joined(each, of, Fraction(CHANNEL_BITS, slots))
        if frames:
            by_slot.setdefault(slot, {})[channel] = frames
    return by_slot


def channels_said(channels: Mapping[int, FoundFrames]) -> str:
    """The channels of a slot that have frames, in words."""
    return "; ".join(
        f"channel {number} is {line_said(frames)[1]}" for number, frames in channels.items()
    )


def aligned_parts(of: Excerpts, way: Alignment) -> List[Excerpt]:
    """The excerpts, aligned."""
    return [Excerpt(part.place, way.aligned(part.octets)) for part in of.parts]


def ways_of_slot(of: Excerpts) -> Sequence[Alignment]:
    """The ways in which a slot may be read: one where the frames of an excerpt decide; several
    where they don't, and none where there are no frames."""
    found: Sequence[Alignment] = ()
    for part in of.parts:
        order = bit_order.decide(part.octets)
        if order.ways:
            found = [Alignment(way.turned, way.bit) for way in order.ways]
        if len(order.ways) == 1:
            break
    return found


class SlotReading(NamedTuple):
    """A way to read a slot, and the frames in its channels."""

    way: Alignment
    channels: ChannelFrames

    def said(self) -> str:
        """The reading in words."""
        order = TURNED * self.way.turned
        return f"{self.way.said()}: {channels_said(self.channels)}{order}"

    def command(self) -> str:
        """The command that takes a channel."""
        return f"lines.py slot {{}} NEW.up --channel J{self.way.words()}"


def by_channels(of: Excerpts) -> Optional[FileDescription]:
    """A time slot that carries lines of frames in its channels of 16 kbit/s. Where its frames don't
    say in which order its bits are, each order is named with its command."""
    readings = [
        SlotReading(way, frames_of_slots(of, aligned_parts(of, way), 1).get(0, {}))
        for way in ways_of_slot(of)
    ]
    found = [reading for reading in readings if reading.channels]
    if not found:
        return None
    if len(found) == 1:
        (only,) = found
        said = f"a time slot of 64 kbit/s{only.said()}"
        return FileDescription(FileKind.SLOT, said, only.command(), only.way.turned)
    each = [
        FileDescription(FileKind.SLOT, f"as it may be{reading.said()}", reading.command())
        for reading in found
    ]
    said = "a time slot of 64 kbit/s, whose frames don't say in which order its bits are"
    return FileDescription(FileKind.SLOT, said, slots=tuple(each))


def spans_said(numbers: Sequence[int]) -> str:
    """The numbers of slots in words, those in a row by the first and the last."""
    rows = [
        [number for _, number in row]
        for _, row in itertools.groupby(enumerate(numbers), lambda each: each[1] - each[0])
    ]
    said = ", ".join(f"{row[0]}-{row[-1]}" if len(row) > 1 else str(row[0]) for row in rows)
    return f"slot{'s' * (len(numbers) > 1)} {said}"


class RecordedLine(NamedTuple):
    """A whole line: what it is, in words with a place for its start, its excerpts as they are and
    aligned, where it begins, and the first slot that isn't of the line itself."""

    what: str
    of: Excerpts
    aligned: Sequence[Excerpt]
    way: Alignment
    first: int

    def slot(self, number: int) -> Excerpts:
        """The excerpts of a slot."""
        size = self.of.size // SLOTS_OF_E1
        parts = [
            Excerpt(part.place // SLOTS_OF_E1, part.octets[number::SLOTS_OF_E1])
            for part in self.aligned
        ]
        return Excerpts(size, self.of.idle // SLOTS_OF_E1, tuple(parts))

    def look(self, look_of_slot: SlotLook) -> FileDescription:
        """The line, and its slots: each with frames alone, and then the others, those that are
        alike together."""
        found: List[FileDescription] = []
        others: Dict[str, List[int]] = {}
        frames = frames_of_slots(self.of, self.aligned, SLOTS_OF_E1)
        for number in range(self.first, SLOTS_OF_E1):
            if number in frames:
                words = f"--slot {number} --of {SLOTS_OF_E1} --channel J{self.way.words()}"
                said = f"slot {number}: {channels_said(frames[number])}"
                command = f"lines.py slot {{}} NEW.up {words}"
                found.append(FileDescription(FileKind.SLOT, said, command))
            else:
                others.setdefault(look_of_slot(self.slot(number)).said, []).append(number)
        found += (
            FileDescription(FileKind.SLOT, f"{spans_said(alike)}: {said}")
            for said, alike in others.items()
        )
        said = self.what.format(self.way.said()) + TURNED * self.way.turned
        command = f"lines.py slot {{}} NEW.pcm --slot N --of {SLOTS_OF_E1}{self.way.words()}"
        return FileDescription(FileKind.E1, said, command, self.way.turned, tuple(found))


def alignment_by_signal(octets: bytes) -> Optional[Alignment]:
    """Where the first slot 0 of an E1 line begins, by the frame alignment signal."""
    way = e1_line.signal_way(octets)
    if way is None:
        return None
    octet, bit = divmod(way.bit % e1_line.FRAME_BITS, 8)
    return Alignment(way.turned, bit, octet)


def line_by_signal(of: Excerpts) -> Optional[RecordedLine]:
    """A whole E1 line, whose slot 0 begins at any bit of the first octets. Excerpts after a place
    where octets were lost begin with their own slot 0."""
    ways = [alignment_by_signal(part.octets) for part in of.parts]
    way = next(filter(None, ways), None)
    if way is None:
        return None
    aligned = [
        Excerpt(part.place, (own or way).aligned(part.octets)) for part, own in zip(of.parts, ways)
    ]
    return RecordedLine("an E1 line of 32 slots{}", of, aligned, way, 1)


def line_by_slots(of: Excerpts) -> Optional[RecordedLine]:
    """A whole line without the signal, of as many slots as an E1 line, in the alignment in which
    more of their channels have frames, and which these frames don't contradict."""
    lines = {way: aligned_parts(of, way) for way in SLOT_ALIGNMENTS}
    found = {way: frames_of_slots(of, parts, SLOTS_OF_E1) for way, parts in lines.items()}
    counts = {way: sum(map(len, slots.values())) for way, slots in found.items()}
    most = max(counts.values())
    if not most:
        return None
    best = max(counts, key=counts.__getitem__)
    slot = next(iter(found[best]))
    votes = {
        Alignment(way.turned, way.bit)
        for part in of.parts
        for way in bit_order.decide(part.octets[slot::SLOTS_OF_E1]).ways
    }
    rivals = [way for way in SLOT_ALIGNMENTS if RIVAL_SHARE * most <= counts[way] and way in votes]
    way = max(rivals or [best], key=counts.__getitem__)
    what = "a line of 32 slots{}, without the signal of an E1 line"
    return RecordedLine(what, of, lines[way], way, 0)
