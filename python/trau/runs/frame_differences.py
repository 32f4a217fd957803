"""Two lines of frames beside each other, by the parameters of each frame, once one of the lines is
shifted so that they fit."""

import enum
from collections import Counter
from itertools import groupby
from typing import Dict, List, NamedTuple, Optional, Sequence, Tuple

from trau.recordings.line_parts import FramePart, LineParts
from trau.recordings.frame_rows import BITS_A_SECOND, class_of, meanings_of
from trau.rules.frame import FrameKind
from trau.rules.parameters import BLOCK_WIDTHS, LARC_WIDTHS, parameters_of_bits, values_of
from trau.rules.profile import FRAME_BITS, LEAST_PULSE, NOISE_LAGS, PULSE_VALUES
from trau.runs.answers import Row
from trau.runs.line_verdicts import Comparison, LineLikeness, Shift, best_shift

MEANINGS = {"class": "class", "field": "alignment field", "taf": "TAF", "dtxd": "DTXd"}
# The parameters of a block by the names of GSM 06.10.
BLOCK_NAMES = ("Nc", "bc", "Mc", "xmaxc", *(f"xMc {pulse}" for pulse in range(1, 14)))
NAMES = (
    *(f"LARc {ratio}" for ratio in range(1, len(LARC_WIDTHS) + 1)),
    *(f"block {block} {name}" for block in range(1, 5) for name in BLOCK_NAMES),
)
DRAWN = [k for k, name in enumerate(NAMES) if "Mc" in name]  # Mc and xMc
GRIDS = [k for k, name in enumerate(NAMES) if name.endswith(" Mc")]
MOST_ALIKE = 8  # frames of one line that are alike; more say nothing of a shift
MOST_TRIED = 8  # shifts
LEAST_KINDS = 3  # of different frames that fit, so that a shift is more than a chance


class Unlike(enum.Enum):
    """In what two frames differ; the value is the word in the rows."""

    NOTHING = "nothing"
    DRAWS = "draws"
    CONTROL = "control"
    PARAMETERS = "parameters"


class ComparedFrame(NamedTuple):
    """A frame as it is compared: its place, its control bits and its 76 parameters."""

    place: int
    control: str
    values: Tuple[int, ...]

    def undrawn(self) -> Tuple[object, ...]:
        """What no draw decides: C1 to C5, and all parameters but grid positions and pulses."""
        values = [value for k, value in enumerate(self.values) if k not in DRAWN]
        return (self.control[:5], *values)


class FramePair(NamedTuple):
    """A frame of the first line by its number, the frame of the second that stands for it, and in
    what they differ."""

    number: int
    one: ComparedFrame
    other: ComparedFrame
    unlike: Unlike

    def delay(self) -> int:
        """By how many bits the second one comes later."""
        return self.other.place - self.one.place


def compared(frame: FramePart) -> ComparedFrame:
    """A frame of a line as it is compared."""
    values = values_of(parameters_of_bits(frame.data()))
    return ComparedFrame(frame.place, frame.control(), tuple(values))


def is_noise(values: Sequence[int]) -> bool:
    """Whether parameters may be those of comfort noise."""
    of_block = {name: [] for name in BLOCK_NAMES}  # type: Dict[str, List[int]]
    for k, value in enumerate(values[len(LARC_WIDTHS) :]):
        of_block[BLOCK_NAMES[k % len(BLOCK_WIDTHS)]].append(value)
    pulses = [value for name in BLOCK_NAMES[4:] for value in of_block[name]]
    in_range = all(LEAST_PULSE <= pulse < LEAST_PULSE + PULSE_VALUES for pulse in pulses)
    return tuple(of_block["Nc"]) == NOISE_LAGS and not any(of_block["bc"]) and in_range


def repeats(frame: ComparedFrame, before: Optional[ComparedFrame]) -> bool:
    """Whether a frame may be one that is repeated for a lost one: all but grid positions and block
    maxima are those of the frame before."""
    free = {*GRIDS, *(k for k, name in enumerate(NAMES) if name.endswith("xmaxc"))}
    return before is not None and all(
        value == old
        for k, (value, old) in enumerate(zip(frame.values, before.values))
        if k not in free
    )


def unlike(
    one: Sequence[ComparedFrame], at: int, other: Sequence[ComparedFrame], beside: int
) -> Unlike:
    """In what two frames differ: only in draws, if both may be comfort noise, or repeat the frame
    before them with another grid position."""
    a, b = one[at], other[beside]
    if a.control != b.control:
        return Unlike.CONTROL
    differ = [k for k, (old, new) in enumerate(zip(a.values, b.values)) if old != new]
    if not differ:
        return Unlike.NOTHING
    is_made = is_noise(a.values) and is_noise(b.values) and set(differ) <= set(DRAWN)
    if set(differ) <= set(GRIDS):
        is_made = is_made or (
            repeats(a, one[at - 1] if at else None)
            and repeats(b, other[beside - 1] if beside else None)
        )
    return Unlike.DRAWS if is_made else Unlike.PARAMETERS


def shifts_tried(one: Sequence[object], other: Sequence[object]) -> List[Shift]:
    """Shifts by which frames fit that are rare in the first line; and none."""
    places: Dict[object, List[int]] = {}
    for at, key in enumerate(one):
        places.setdefault(key, []).append(at)
    votes: Counter = Counter(
        beside - at
        for beside, key in enumerate(other)
        for at in places.get(key, ())
        if len(places[key]) <= MOST_ALIKE
    )
    tried = []
    for by in {0, *(by for by, _ in votes.most_common(MOST_TRIED))}:
        pairs = list(zip(one[max(0, -by) :], other[max(0, by) :]))
        tried.append(Shift(by, sum(a == b for a, b in pairs), len(pairs)))
    return tried


def shift_of_frames(one: List[ComparedFrame], other: List[ComparedFrame]) -> Optional[Shift]:
    """The shift of the second line's frames to the first's; None if none is plain."""
    keys = [[frame.undrawn() for frame in line] for line in (one, other)]
    best = best_shift(shifts_tried(*keys))
    if best is None:
        return None
    fit = {a for a, b in zip(keys[0][max(0, -best.by) :], keys[1][max(0, best.by) :]) if a == b}
    wanted = min(LEAST_KINDS, len(set(keys[0])), len(set(keys[1])))
    return best if len(fit) >= wanted else None


def pairs_of(one: List[ComparedFrame], other: List[ComparedFrame], by: int) -> List[FramePair]:
    """The frames of both lines that stand beside each other."""
    first = max(0, -by)
    count = min(len(one) - first, len(other) - max(0, by))
    return [
        FramePair(at, one[at], other[at + by], unlike(one, at, other, at + by))
        for at in range(first, first + count)
    ]


def features_of(control: str, side: str) -> List[Tuple[str, str]]:
    """What control bits say, by names."""
    found = [(MEANINGS[name], str(value)) for name, value in meanings_of(control, side).items()]
    return [*found, ("C1 to C21", control)]


def first_difference_of(pair: FramePair, side: str) -> Tuple[str, str]:
    """The first thing in which two frames differ, with what the one has; and what the other has."""
    names = [(name, str(value)) for name, value in zip(NAMES, pair.one.values)]
    others = [str(value) for value in pair.other.values]
    if pair.unlike is Unlike.CONTROL:
        names = features_of(pair.one.control, side)
        others = [value for _, value in features_of(pair.other.control, side)]
    return next(
        (f"{name} {value}", new) for (name, value), new in zip(names, others) if value != new
    )


def row_of_pairs(what: str, pairs: Sequence[FramePair], one: str, other: str) -> Row:
    """A row of frames in a row."""
    seconds = round(pairs[0].one.place / BITS_A_SECOND, 4)
    row = {"what": what, "from": pairs[0].number, "seconds": seconds, "count": len(pairs)}
    return {**row, "one": one, "other": other}


def rows_of_pairs(pairs: List[FramePair], side: str) -> List[Row]:
    """A row for each stretch of frames that differ in the same way, and for each stretch in which
    the second line is later or earlier."""
    rows = []
    for kind, group in groupby(pairs, key=lambda pair: pair.unlike):
        stretch = list(group)
        if kind is not Unlike.NOTHING:
            rows.append(row_of_pairs(kind.value, stretch, *first_difference_of(stretch[0], side)))
    for delay, group in groupby(pairs, key=FramePair.delay):
        if delay:
            rows.append(row_of_pairs("delay", list(group), "", f"{delay} bits"))
    return rows


def follows_quiet(frames: Sequence[ComparedFrame], at: int, side: str) -> bool:
    """Whether a frame follows an idle frame, or a part without frames: codecs start anew there."""
    if at == 0:
        return False
    is_after_idle = class_of(frames[at - 1].control, side) is FrameKind.IDLE
    return is_after_idle or frames[at].place - frames[at - 1].place >= 2 * FRAME_BITS


class ComparedLines(NamedTuple):
    """The frames of two lines, the shift of the second to the first, and their side."""

    one: List[ComparedFrame]
    other: List[ComparedFrame]
    by: int
    side: str

    def start_anew(self, at: int) -> bool:
        """Whether codecs may start anew in either line by a frame of the first, or by the frame
        after it."""
        pairs = [(self.one, at), (self.other, at + self.by)]
        return any(
            follows_quiet(frames, each, self.side)
            for frames, first in pairs
            for each in (first, first + 1)
            if each < len(frames)
        )


def rows_of_others(pairs: List[FramePair], lines: ComparedLines) -> List[Row]:
    """A row for each stretch of frames of one line that stand beside none of the other."""
    rows = []
    first, last = pairs[0].number, pairs[-1].number + 1
    for what, frames, by in (("only one", lines.one, 0), ("only other", lines.other, lines.by)):
        for start, end in ((0, first + by), (last + by, len(frames))):
            if start < end:
                seconds = round(frames[start].place / BITS_A_SECOND, 4)
                row = {"what": what, "from": start, "seconds": seconds, "count": end - start}
                rows.append(row)
    return rows


def likeness_of(lines: ComparedLines, pairs: List[FramePair]) -> Tuple[LineLikeness, str]:
    """How lines are alike whose frames stand beside each other, and why it is so."""
    differ = [pair for pair in pairs if pair.unlike in (Unlike.CONTROL, Unlike.PARAMETERS)]
    drawn = [pair for pair in pairs if pair.unlike is Unlike.DRAWS]
    if differ:
        first = differ[0].number
        after = [pair.unlike for pair in pairs if pair.number >= first]
        mostly = 2 * after.count(Unlike.NOTHING) <= len(after)
        if mostly and lines.start_anew(first):
            return LineLikeness.RESET, f"frame {first} is the first after a part without speech"
        return LineLikeness.DIFFERENT, f"{len(differ)} frames of {len(pairs)}, the first is {first}"
    if drawn:
        first = drawn[0].number
        return LineLikeness.DRAWS, f"{len(drawn)} frames of {len(pairs)}, the first is {first}"
    if any(pair.delay() for pair in pairs):
        return LineLikeness.DELAY, f"of {pairs[0].delay()} bits at frame {pairs[0].number}"
    if len(lines.one) != len(lines.other):
        return LineLikeness.LENGTH, f"frames {len(lines.one)} and {len(lines.other)}"
    return LineLikeness.BETWEEN, ""


def compare_frames(one: LineParts, other: LineParts) -> Comparison:
    """What differs between two lines of frames of the same side."""
    first, second = [[compared(frame) for frame in line.frames] for line in (one, other)]
    shift = shift_of_frames(first, second)
    if shift is None:
        return Comparison(LineLikeness.UNSURE, "no shift plainly makes the frames fit", None, [])
    lines = ComparedLines(first, second, shift.by, one.side())
    pairs = pairs_of(first, second, shift.by)
    likeness, why = likeness_of(lines, pairs)
    rows = rows_of_pairs(pairs, lines.side) + rows_of_others(pairs, lines)
    return Comparison(likeness, why, shift.by, rows)
