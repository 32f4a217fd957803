"""What a comparison of two lines finds: rows, and how the lines are alike on the whole."""

import enum
from typing import List, NamedTuple, Optional

from trau.runs.answers import Row


class LineLikeness(enum.Enum):
    """How two lines are alike; the value is the word in the answer."""

    SAME = "the same"
    LENGTH = "the same as far as both go"
    DELAY = "the same but for a delay"
    DRAWS = "the same but for draws"
    BETWEEN = "the same frames, with other bits between them"
    RESET = "different from a reset on"
    DIFFERENT = "different"
    UNSURE = "not sure"


class Comparison(NamedTuple):
    """How two lines are alike, why, by how much the other line comes later (in frames or octets;
    None if no such shift was found), and a row for each stretch that differs."""

    likeness: LineLikeness
    why: str
    shift: Optional[int]
    rows: List[Row]

    def said(self) -> str:
        """The likeness and why, in words."""
        return self.likeness.value + (f": {self.why}" if self.why else "")


class Shift(NamedTuple):
    """A shift of the second line to the first, how many members then are alike, and of how many
    that both have."""

    by: int
    alike: int
    both: int


def best_shift(tried: List[Shift]) -> Optional[Shift]:
    """The shift by which most members are alike, the least one of equals; None if it isn't 0 and
    another one fits half as well."""
    best = max(tried, key=lambda one: (one.alike, -abs(one.by)), default=None)
    if best is None or best.alike == 0:
        return None
    rivals = [one.alike for one in tried if one.by != best.by]
    is_plain = 2 * max(rivals, default=0) <= best.alike
    return best if is_plain or best.by == 0 else None
