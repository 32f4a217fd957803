"""An uplink as a judge reads it: what each period brings, and what a receiver knows by then."""

import enum
from typing import List, NamedTuple, Optional

from trau.rules.frame import Bits, FrameKind, UpFrame, read_up
from trau.rules.parameters import Parameters, parameters_of_bits
from trau.rules.profile import FRAME_BITS
from trau.rules.search import search


class UpPeriod(NamedTuple):
    """A period of an uplink: the bit at which its frame begins or should begin, and the frame; where
    its sync bits are wrong, what it would be; and whether it doesn't follow on the one before."""

    place: int
    frame: Optional[UpFrame]
    missed: Optional[UpFrame] = None
    is_anew: bool = False

    def data(self) -> Optional[Bits]:
        """D1 to D260 of what is at its place, whether or not a receiver may use it."""
        what = self.frame or self.missed
        return what.data if what else None

    def number(self) -> int:
        """The period of the line in which the frame ends."""
        return (self.place + FRAME_BITS - 1) // FRAME_BITS


def up_periods(line: Bits) -> List[UpPeriod]:
    """The periods from the first frame on. Where the search hunts there is no frame."""
    found: List[UpPeriod] = []
    for each in search(line):
        there = read_up(each.frame or line[each.place : each.place + FRAME_BITS])
        frame, missed = (there, None) if each.frame else (None, there)
        is_anew = not found or found[-1].place + FRAME_BITS != each.place
        if found:
            since = each.place - found[0].place
            number = (since + FRAME_BITS // 2) // FRAME_BITS
            found = found[:number]
            while len(found) < number:
                found.append(UpPeriod(found[-1].place + FRAME_BITS, None))
        found.append(UpPeriod(each.place, frame, missed, is_anew))
    return found


class Hears(enum.Enum):
    """What a receiver should make of a period."""

    UNKNOWN = enum.auto()  # the recording begins after the last anchor
    GOOD = enum.auto()
    LOST = enum.auto()
    NOISE = enum.auto()
    QUIET = enum.auto()


class Situation(NamedTuple):
    """What a receiver knows in a period: the frame or descriptor that counts, how many periods ago
    it came, and for how many periods noise has had to mute: since the second descriptor that was
    due and didn't come."""

    hears: Hears
    anchor: Optional[Parameters] = None
    since: int = 0
    missed: int = 0
    falling: int = 0


FALL_FROM_MISSED = 2
ANCHORS = {
    FrameKind.SPEECH: Hears.GOOD,
    FrameKind.VALID_SID: Hears.NOISE,
    FrameKind.IDLE: Hears.QUIET,
}


def after(before: Situation, frame: Optional[UpFrame]) -> Situation:
    """The situation in the next period."""
    if frame is not None and frame.kind in ANCHORS:
        hears = ANCHORS[frame.kind]
        is_quiet = hears is Hears.QUIET
        return Situation(hears, None if is_quiet else parameters_of_bits(frame.data))
    hears = Hears.LOST if before.hears is Hears.GOOD else before.hears
    is_due = frame is not None and frame.kind is FrameKind.UNUSABLE and frame.taf
    missed = before.missed + is_due
    falling = before.falling + 1 if missed >= FALL_FROM_MISSED else 0
    return Situation(hears, before.anchor, before.since + 1, missed, falling)


def situations(periods: List[UpPeriod]) -> List[Situation]:
    """The situation in each period."""
    found, last = [], Situation(Hears.UNKNOWN)
    for each in periods:
        last = after(last, each.frame)
        found.append(last)
    return found
