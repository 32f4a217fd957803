"""Where the periods and the rows of a picture of a run are, and the words that it says of them."""

from typing import Dict, List, NamedTuple, Optional

from trau.rules.profile import PERIODS_A_SECOND
from trau.runs import outcomes
from trau.runs.run_lines import Answered, RecordedCall, Run

# Lengths are in pixels.
LEFT, TOP = 130, 24
TICK_ROOM = 64
LEAST_COLUMN = 1.5


class Shape(NamedTuple):
    """The heights of the parts of a row, from its top: marks of shifts, uplink, downlink, levels,
    bridges."""

    marks: int
    band: int
    down: int
    level: int
    bridge: int
    space: int

    def height(self) -> int:
        """The height of a row."""
        return sum(self)

    def is_compact(self) -> bool:
        """Whether rows are too low for words."""
        return self == COMPACT


FULL = Shape(marks=16, band=22, down=12, level=30, bridge=15, space=9)
WITHOUT_LEVELS = Shape(marks=16, band=22, down=12, level=0, bridge=15, space=5)
COMPACT = Shape(marks=9, band=10, down=7, level=0, bridge=5, space=2)


def seconds(period: int) -> str:
    """When a period begins."""
    return f"{period / PERIODS_A_SECOND:.2f} s"


def span(start: int, end: int) -> str:
    """From the start of a period to that of another, as the report says it."""
    return f"from {start} to {end} ({seconds(start)} to {seconds(end)})"


def counted(number: int, what: str) -> str:
    """A number of things."""
    return f"{number} {what}{'' if number == 1 else 's'}"


def signed(octets: int) -> str:
    """A shift, with its sign."""
    return f"{octets:+d}".replace("-", "\u2212")


class Layout:
    """The places in a picture of a run from a period on to another."""

    def __init__(
        self, run: Run, width: int, shape: Shape, first: Optional[int], last: Optional[int]
    ) -> None:
        self.run = run
        self.shape = shape
        self.first = run.start() if first is None else first
        self.last = max(self.first + 1, run.end() if last is None else last)
        self.scale = min(TICK_ROOM, width / (self.last - self.first))
        self.column = max(1, round(LEAST_COLUMN / self.scale)) if self.scale < LEAST_COLUMN else 1
        self.plot_right = self.x(self.last)
        self.outcomes = {call.number: outcomes.outcome_of(call) for call in run.calls}
        self.rows: Dict[int, float] = {}  # where each call's row begins

    def x(self, period: float) -> float:
        """Where a period begins, or the edge that is next to it."""
        return LEFT + self.scale * (min(max(period, self.first), self.last) - self.first)

    def shows(self, period: int) -> bool:
        """Whether a period is within the picture."""
        return self.first <= period < self.last

    def top(self, call: int, part: str = "band") -> float:
        """Where a part of a call's row begins: the band of its uplink, the strip of its downlink,
        its levels, or the bars of its bridges."""
        shape, band_end = self.shape, self.shape.marks + self.shape.band
        down_end = band_end + shape.down
        return (
            self.rows[call]
            + {
                "band": shape.marks,
                "down": band_end + 1,
                "level": down_end + 2,
                "bridge": down_end + shape.level + 1,
            }[part]
        )

    def end_words(self, call: RecordedCall) -> str:
        """Why a call ended, and which of its lines failed; nothing where its end isn't in the
        picture."""
        if not self.first <= call.span.end <= self.last:
            return ""
        return ", ".join([call.span.cause, *(f"{side} failed" for side in call.failed)])

    def row_words(self, call: RecordedCall) -> str:
        """The text at the end of a call's row: the part of its speech that was lost, the longest
        gap, and why it ended."""
        return ", ".join(
            words for words in (self.outcomes[call.number].short(), self.end_words(call)) if words
        )

    def shown_orders(self) -> List[Answered]:
        """The orders within the picture, those at its end included."""
        return [each for each in self.run.orders if self.first <= each.order.stamp <= self.last]

    def missing_words(self) -> str:
        """How many orders aren't in the picture, in words."""
        missing = len(self.run.orders) - len(self.shown_orders())
        return f"and {missing} at other times" if missing else ""
