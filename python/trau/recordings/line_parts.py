"""The parts of a line of frames: its frames, at any bit, and the bits between them."""

from typing import List, NamedTuple

from trau.rules.frame import Bits, bits_of, control_of, data_of
from trau.rules.lines import DOWN, UP
from trau.rules.profile import DOWN_IDLE, DOWN_SPEECH, FRAME_BITS, UP_IDLE, UP_SPEECH
from trau.rules.search import FRAME_OF_DOWNLINK

PATTERNS = {UP: (UP_SPEECH, UP_IDLE), DOWN: (DOWN_SPEECH, DOWN_IDLE)}
TIME_BITS = 4


class FramePart(NamedTuple):
    """A frame of a line: the place of its first bit, and its 320 bits, or 316 if it has no time
    bits."""

    place: int
    bits: Bits

    def control(self) -> Bits:
        """C1 to C21."""
        return control_of(self.bits)

    def data(self) -> Bits:
        """D1 to D260."""
        return data_of(self.bits)

    def time(self) -> Bits:
        """T1 to T4, or nothing."""
        return self.bits[FRAME_BITS - TIME_BITS :]

    def end(self) -> int:
        """The place after its last bit."""
        return self.place + len(self.bits)


class LineParts(NamedTuple):
    """The frames of a line in their order, and all bits before each of them and after the last
    one."""

    frames: List[FramePart]
    gaps: List[Bits]  # one more than there are frames

    def side(self) -> str:
        """Up or Down: the way of most frames by C1 to C5; Up if as many are of either."""
        count = {
            side: sum(frame.control().startswith(patterns) for frame in self.frames)
            for side, patterns in PATTERNS.items()
        }
        return DOWN if count[DOWN] > count[UP] else UP


def parts_of(octets: bytes) -> LineParts:
    """The parts of a line. A frame is found wherever all sync bits match that no frame before it
    has."""
    bits = bits_of(octets)
    frames = [FramePart(found.start(), found.group()) for found in FRAME_OF_DOWNLINK.finditer(bits)]
    ends = [0, *(frame.end() for frame in frames)]
    starts = [*(frame.place for frame in frames), len(bits)]
    return LineParts(frames, [bits[end:start] for end, start in zip(ends, starts)])
