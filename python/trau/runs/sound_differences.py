"""Two lines of A-law or mu-law beside each other, octet by octet, once one of them is shifted so
that they fit."""

from collections import Counter
from itertools import groupby
from typing import Dict, List, Optional

from trau.rules.profile import PCM_OCTETS, PERIODS_A_SECOND
from trau.runs.answers import Row
from trau.runs.line_verdicts import Comparison, LineLikeness, Shift, best_shift

WINDOW = 64  # octets by which a shift is sought
LEAST_VALUES = 8  # of different octets in a window; silence says nothing of a shift
LEAST_WINDOWS = 3  # that fit
MOST_TRIED = 4  # shifts


def windows_of(line: bytes) -> Dict[bytes, int]:
    """The places of the windows of a line that aren't dull; of windows that come twice the first."""
    found: Dict[bytes, int] = {}
    for at in range(0, len(line) - WINDOW + 1, WINDOW):
        window = line[at : at + WINDOW]
        if len(set(window)) >= LEAST_VALUES:
            found.setdefault(window, at)
    return found


def alike(one: bytes, other: bytes, by: int) -> Shift:
    """How many octets fit by a shift."""
    pairs = list(zip(one[max(0, -by) :], other[max(0, by) :]))
    return Shift(by, sum(a == b for a, b in pairs), len(pairs))


def shift_of_sound(one: bytes, other: bytes) -> Optional[Shift]:
    """The shift of the second line to the first, in octets; None if none is plain."""
    windows = windows_of(one)
    votes: Counter = Counter(
        at - windows[other[at : at + WINDOW]]
        for at in range(len(other) - WINDOW + 1)
        if other[at : at + WINDOW] in windows
    )
    chosen = {by for by, count in votes.most_common(MOST_TRIED) if count >= LEAST_WINDOWS}
    unmoved = alike(one, other, 0)
    if not windows or unmoved.alike == unmoved.both:
        return unmoved if unmoved.both and unmoved.alike == unmoved.both else None
    plain = best_shift([Shift(by, votes[by], len(windows)) for by in chosen])
    return plain and alike(one, other, plain.by)


def differing_periods(one: bytes, other: bytes, by: int) -> List[int]:
    """The periods of the first line, from its start, in which octets that both have differ."""
    first, last = max(0, -by), min(len(one), len(other) - by)
    found = []
    for period in range(first // PCM_OCTETS, -(-last // PCM_OCTETS)):
        start = max(first, period * PCM_OCTETS)
        end = min(last, (period + 1) * PCM_OCTETS)
        if one[start:end] != other[start + by : end + by]:
            found.append(period)
    return found


def first_octet(one: bytes, other: bytes, by: int, period: int) -> int:
    """The first octet of the first line, from a period on, that differs."""
    start = max(0, -by, period * PCM_OCTETS)
    return next(at for at in range(start, len(one)) if one[at] != other[at + by])


def follows_quiet_sound(line: bytes, place: int) -> bool:
    """Whether a period of one octet ends at most a period before this place: a decoder starts anew
    there."""
    ends = range(max(PCM_OCTETS, place - PCM_OCTETS), place + 1)
    return any(len(set(line[end - PCM_OCTETS : end])) == 1 for end in ends)


def rows_of_sound(one: bytes, other: bytes, by: int, periods: List[int]) -> List[Row]:
    """A row for each stretch of periods that differ, with the first octet that does."""
    rows = []
    for _, group in groupby(enumerate(periods), key=lambda each: each[1] - each[0]):
        stretch = [period for _, period in group]
        at = first_octet(one, other, by, stretch[0])
        said = {"one": f"octet {at} 0x{one[at]:02x}", "other": f"0x{other[at + by]:02x}"}
        seconds = stretch[0] / PERIODS_A_SECOND
        row = {"what": "sound", "from": stretch[0], "seconds": seconds, "count": len(stretch)}
        rows.append({**row, **said})
    if by:
        rows.append({"what": "delay", "from": max(0, -by) // PCM_OCTETS, "other": f"{by} octets"})
    return rows


def compare_sound(one: bytes, other: bytes) -> Comparison:
    """What differs between two lines of a law. Sound doesn't show what was drawn."""
    shift = shift_of_sound(one, other)
    if shift is None:
        return Comparison(LineLikeness.UNSURE, "no shift plainly makes the sound fit", None, [])
    by = shift.by
    periods = differing_periods(one, other, by)
    rows = rows_of_sound(one, other, by, periods)
    if periods:
        at = first_octet(one, other, by, periods[0])
        is_reset = follows_quiet_sound(one, at) or follows_quiet_sound(other, at + by)
        last = min(len(one), len(other) - by) // PCM_OCTETS
        if is_reset and 2 * len(periods) >= last - periods[0]:
            why = f"octet {at} follows a part of one octet"
            return Comparison(LineLikeness.RESET, why, by, rows)
        why = f"{len(periods)} periods, the first is {periods[0]}"
        return Comparison(LineLikeness.DIFFERENT, why, by, rows)
    if by:
        return Comparison(LineLikeness.DELAY, f"of {by} octets", by, rows)
    return Comparison(LineLikeness.LENGTH, f"octets {len(one)} and {len(other)}", by, rows)
