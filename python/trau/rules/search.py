"""The search for frames on an uplink, over the bits of the whole line (docs/commands/frames.md),
and the frames of a downlink.

Places are counted in bits from the start of the line. The lock from the first place on, and its end
after three misses in a row, are this project's profile.
"""

import re
from typing import Iterator, List, NamedTuple, Optional

from trau.rules.frame import Bits, FrameKind, control_of, kind_of_control
from trau.rules.profile import FRAME_BITS, FRAME_OCTETS, MISSES_TO_HUNT

# The 35 sync bits (GSM 08.60, full rate speech frames): sixteen zeros, and nineteen ones, each
# sixteen bits after the one before.
ROWS = "0{16}" + 18 * "1.{15}"
FRAME = re.compile(ROWS + "1.{15}")
# Where the timing of a downlink advanced, its frame has no time bits.
FRAME_OF_DOWNLINK = re.compile(ROWS + "1.{11}(?:1111)?")


def period_of(place: int) -> int:
    """The period of the line that holds the last bit of a frame at a place
    (docs/commands/frames.md)."""
    return (place + FRAME_BITS - 1) // FRAME_BITS


class Yield(NamedTuple):
    """A frame that the search found at a place, or the miss of one that was due there and whose
    sync bits don't match."""

    place: int
    frame: Optional[Bits]

    def kind(self) -> FrameKind:
        """The kind of an uplink's yield (docs/commands/frames.md)."""
        return FrameKind.MISSED if self.frame is None else kind_of_control(control_of(self.frame))

    def period(self) -> int:
        """The period that holds the yield's last bit (docs/commands/frames.md)."""
        return period_of(self.place)

    def line(self) -> str:
        """The yield's line of text (docs/commands/frames.md)."""
        return f"{self.place} {self.kind().value}\n"


def search(line: Bits) -> Iterator[Yield]:
    """All yields of a line: those whose last bit it has (docs/commands/frames.md).

    The search locks on the first place at which all sync bits match, expects a frame each 320 bits
    from there, and hunts anew after the third miss in a row."""
    place, misses = 0, MISSES_TO_HUNT
    while place + FRAME_BITS <= len(line):
        is_locked = misses < MISSES_TO_HUNT
        found = FRAME.match(line, place) if is_locked else FRAME.search(line, place)
        if found:
            yield Yield(found.start(), found.group())
            place, misses = found.end(), 0
        elif is_locked:
            yield Yield(place, None)
            place, misses = place + FRAME_BITS, misses + 1
        else:
            return


def yields_by_period(line: Bits) -> List[Optional[Yield]]:
    """For each whole period of the line the yield whose last bit it holds, or None
    (docs/commands/frames.md)."""
    periods = len(line) // FRAME_BITS
    by_period: List[Optional[Yield]] = [None] * periods
    for each in search(line[: FRAME_BITS * periods]):
        by_period[each.period()] = each
    return by_period


def kind_of_period(each: Optional[Yield]) -> FrameKind:
    """The kind of what a period yields, if anything (docs/commands/frames.md)."""
    return FrameKind.NONE if each is None else each.kind()


def end_of_text(yields: int, octets: int) -> str:
    """The last line of the text of an uplink of so many octets: its yields, and the octets after
    the last whole period (docs/commands/frames.md)."""
    return f"frames {yields} left {octets % FRAME_OCTETS}\n"
