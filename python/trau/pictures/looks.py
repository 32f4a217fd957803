"""How the periods of a call look in a picture: their names, and their colours, of a palette that
colour-blind people tell apart; and columns of periods, where these are narrower than can be drawn.
"""

import enum
import re
from dataclasses import replace
from typing import Dict, Iterator, List, NamedTuple, Optional, Sequence, Tuple, Type

from trau.rules.profile import FRAME_BITS, PCM_OCTETS
from trau.runs.run_lines import NOTHING_SENT, RecordedCall, sent
from trau.runs.uplink_periods import UNUSABLE, by_what_came_before


class Look(enum.Enum):
    """What is drawn of a period: its words and its colour."""

    def __init__(self, words: str, colour: str) -> None:
        self.words = words
        self.colour = colour


class UplinkLook(Look):
    """What a period of an uplink yields, in the order of the kinds, and two that say more about
    unusable frames."""

    SPEECH = ("speech", "#0072B2")
    VALID_SID = ("silence descriptor", "#56B4E9")
    INVALID_SID = ("invalid silence descriptor", "#AA3377")
    UNUSABLE = ("lost: unusable within speech", "#E66100")
    IDLE = ("idle", "#9E9E9E")
    OTHER = ("another kind of frame", "#F0E442")
    MISSED = ("missed: no frame where one is due", "#1A1A1A")
    NONE = ("nothing yielded", "url(#nothing)")
    PAUSE = ("pause: unusable after a descriptor", "#CFE9F8")
    QUIET = ("quiet: unusable with no speech before", "#E2E2E2")


class DownlinkLook(Look):
    """What begins in a period of a downlink, in the order of what is sent. What an uplink has too
    has its words and colour."""

    SPEECH = UplinkLook.SPEECH.value
    VALID_SID = UplinkLook.VALID_SID.value
    IDLE = UplinkLook.IDLE.value
    HANDED = ("handed over in a bridge", "#009E73")
    OTHER = UplinkLook.OTHER.value


# Each is drawn wherever it comes, be it for one period of thousands in a column.
LOSSES = (
    UplinkLook.UNUSABLE,
    UplinkLook.INVALID_SID,
    UplinkLook.OTHER,
    UplinkLook.MISSED,
    UplinkLook.NONE,
)
DOWN_LOSSES = (DownlinkLook.OTHER,)

# A look's code is its place in their order, which for the looks of kinds is the code of the kind.
CODES = {look: code for kind in (UplinkLook, DownlinkLook) for code, look in enumerate(kind)}
LOOKS_BEHIND = [
    bytes(code if kind == UNUSABLE else kind for kind in range(256))
    for code in (UNUSABLE, CODES[UplinkLook.PAUSE], CODES[UplinkLook.QUIET])
]


def looks(kinds: bytes) -> bytes:
    """The codes of how the periods of an uplink look. An unusable frame after a silence descriptor
    is a pause, in which none is sent. After an idle frame, and before the first usable frame, there
    is nothing to lose."""
    return by_what_came_before(kinds, *LOOKS_BEHIND)


def down_looks(call: RecordedCall, octets: bytes, first: int, last: int) -> bytes:
    """The codes of how the periods of a downlink look, from one of the call on to another, by the
    last frame that begins in each; the octets are those from the first period on."""
    periods = bytearray([NOTHING_SENT]) * (last - first)
    for made in call.made:
        start = made.place() // FRAME_BITS - first
        skipped = max(0, -start)
        if skipped < made.count and start < len(periods):
            here = replace(
                made, octet=made.octet + PCM_OCTETS * (skipped - first), count=made.count - skipped
            )
            codes = sent(here, octets)[: len(periods) - start - skipped]
            periods[start + skipped : start + skipped + len(codes)] = codes
    return bytes(periods)


class ColumnPart(NamedTuple):
    """A look, and how much of a column's height it takes, in steps."""

    look: Look
    steps: int


class DrawnStretch(NamedTuple):
    """Periods in a row that are drawn alike: their first, the one after the last, the parts of
    their height from the top, and how many have which look."""

    start: int
    end: int
    parts: Tuple[ColumnPart, ...]
    counts: Dict[Look, int]

    def said(self) -> str:
        """What the periods are, in words."""
        return ", ".join(
            f"{look.words}, {count} period{'' if count == 1 else 's'}"
            for look, count in self.counts.items()
            if count
        )


def parts_of(counts: Dict[Look, int], losses: Sequence[Look], steps: int) -> Tuple[ColumnPart, ...]:
    """The parts of a column: each loss by its share of the periods, a step at least, below what
    most of the others are."""
    total = sum(counts.values())
    others = [look for look in counts if counts[look] and look not in losses]
    left = steps
    parts: List[ColumnPart] = []
    lost = [look for look in losses if counts.get(look)]
    for number, look in enumerate(lost):
        behind = len(lost) - 1 - number  # of which each has a step at least
        last_one = not others and behind == 0
        height = (
            left
            if last_one
            else min(max(1, round(steps * counts[look] / total)), max(1, left - behind), left)
        )
        parts.append(ColumnPart(look, height))
        left -= height
    if others and left:
        parts.insert(0, ColumnPart(max(others, key=lambda look: counts[look]), left))
    return tuple(part for part in parts if part.steps)


def counted(values: bytes, kind: Type[Look], start: int, end: int) -> Dict[Look, int]:
    """How many of some periods have which look."""
    looks_of_codes: Iterator[Look] = iter(kind)
    counts = {look: values.count(code, start, end) for code, look in enumerate(looks_of_codes)}
    return {look: count for look, count in counts.items() if count}


def column_ends(values: bytes, size: int) -> Iterator[int]:
    """Where columns of this many periods each end; of single periods, those in a row that look
    alike."""
    if size == 1:
        return (found.end() for found in re.finditer(rb"(.)\1*", values, re.DOTALL))
    return iter([*range(size, len(values), size), len(values)] if values else [])


def columns(
    values: bytes, kind: Type[Look], losses: Sequence[Look], size: int, steps: int
) -> Iterator[DrawnStretch]:
    """Stretches of columns of so many periods each that show the same; nothing where no period of a
    column has a look."""
    waiting: Optional[DrawnStretch] = None
    start = 0
    for end in column_ends(values, size):
        counts = counted(values, kind, start, end)
        parts = parts_of(counts, losses, steps) if counts else ()
        if waiting and waiting.parts == parts:
            sums = {look: waiting.counts.get(look, 0) + counts.get(look, 0) for look in kind}
            waiting = DrawnStretch(waiting.start, end, parts, sums)
        else:
            if waiting and waiting.parts:
                yield waiting
            waiting = DrawnStretch(start, end, parts, counts)
        start = end
    if waiting and waiting.parts:
        yield waiting


def order_of_rows(numbers: Sequence[int], pairs: Sequence[Sequence[int]]) -> List[int]:
    """The calls in the order of their rows: each partner of a bridge, in the order of the bridges,
    next to its call if it can."""
    partners: Dict[int, List[int]] = {number: [] for number in numbers}
    for a, b in pairs:
        if a in partners and b in partners:
            partners[a].append(b)
            partners[b].append(a)
    rows: List[int] = []
    for number in sorted(numbers):
        waiting = [number]
        while waiting:
            call = waiting.pop()
            if call not in rows:
                rows.append(call)
                waiting += reversed(partners[call])
    return rows
