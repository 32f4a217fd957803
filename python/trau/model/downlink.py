"""The downlink of a call: which frames are made, where they begin, and the bits of the Down line
(modelled on GSM 08.60).

Everything is counted from the call's opening, by absolute places: octets of the Pcm line, bits of
the Down line, periods, frames. The shifts, and what becomes of them in a bridge, are this project's
profile (docs/FILES.md, "Time alignment"; docs/PROFILE.md, "The downlink").
"""

from bisect import bisect_left, bisect_right
from typing import Dict, List, NamedTuple, Optional, Sequence

from trau.rules import profile
from trau.rules.frame import Bits, FrameKind, UpFrame, shift_of


class Extent(NamedTuple):
    """Members of a row that follow one another, mostly periods: the first, and the first behind
    them, which may be the same."""

    start: int
    end: int


class Item(NamedTuple):
    """A handed frame: the number of the call's bridge, and its number in that bridge, both from
    0."""

    span: int
    number: int


class MadeFrame(NamedTuple):
    """A frame that is made: where it takes its 160 octets of the Pcm line, in which period, and the
    shift that it takes."""

    start: int
    shift: int  # octets of the Pcm line
    item: Optional[Item]  # the handed frame that it carries

    @property
    def period(self) -> int:
        """The period in which it is made."""
        return period_of(self.start)


def period_of(start: int) -> int:
    """The period in which a frame is made that begins at this octet of the Pcm line: that of its
    last octet."""
    return (start + profile.PCM_OCTETS - 1) // profile.PCM_OCTETS


def asked_shifts(frames: Sequence[Optional[UpFrame]]) -> Dict[int, int]:
    """The shift that is asked for in each period in which one is: by a speech or idle frame
    (docs/FILES.md, "Time alignment")."""
    fields = {
        k: frame.field
        for k, frame in enumerate(frames)
        if frame is not None and frame.kind is not FrameKind.OTHER
    }
    shifts = {k: shift_of(field) for k, field in fields.items()}
    return {k: shift for k, shift in shifts.items() if shift}


def made_frames(periods: int, asked: Dict[int, int], spans: Sequence[Extent]) -> List[MadeFrame]:
    """The frames that are made in so many periods (docs/PROFILE.md, "The downlink").

    `spans` has the first period of each bridge and the first that it doesn't have, in order, a
    period or more between them.
    """
    starts = [start for start, _ in spans]
    made: List[MadeFrame] = []
    when: List[int] = []  # their periods
    # the period of the last frame that carried no item: what was asked up to it is done with
    taken = -1
    start = 0
    while period_of(start) < periods:
        period = period_of(start)
        item = item_of(period, when, starts, spans)
        shift = 0
        if item is None:
            shift, taken = shift_taken(asked, taken, period), period
        made.append(MadeFrame(start, shift, item))
        when.append(period)
        start += profile.PCM_OCTETS + shift
    return made


def shift_taken(asked: Dict[int, int], since: int, period: int) -> int:
    """The shift that was asked for last, after the period `since` and not after this one; 0 where
    none was."""
    asking = [k for k in range(since + 1, period + 1) if k in asked]
    return asked[asking[-1]] if asking else 0


def item_of(
    period: int, when: Sequence[int], starts: Sequence[int], spans: Sequence[Extent]
) -> Optional[Item]:
    """The handed frame that the next frame carries, where it is made in this period
    (docs/PROFILE.md, "The downlink").

    `when` has the periods of the frames before. Frames that are made from a bridge's start on carry
    its items in order, while it has any.
    """
    span = bisect_right(starts, period) - 1
    if span < 0:
        return None
    start, end = spans[span]
    number = len(when) - bisect_left(when, start)
    return Item(span, number) if number < end - start else None


def bits_between(frame: MadeFrame, bits: Bits) -> Bits:
    """What the Down line has from a frame on to the next: with the ones that a delay puts in,
    without the time bits that an advance leaves out (docs/FILES.md, "Time alignment")."""
    if frame.shift >= 0:
        return bits + "1" * (2 * frame.shift)
    return bits[: 2 * frame.shift]


def down_bits(made: Sequence[MadeFrame], bits: Sequence[Bits], periods: int) -> Bits:
    """The Down line of so many periods: ones, and then the frames (docs/FILES.md, "Time
    alignment")."""
    line = "1" * profile.LEADING_ONES + "".join(map(bits_between, made, bits))
    return line[: profile.FRAME_BITS * periods]
