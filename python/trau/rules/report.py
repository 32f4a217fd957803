"""The report of a run, line by line (docs/OPERATORS.md, "The report, line by line"; this project's
profile)."""

from dataclasses import dataclass, field
from typing import Dict, List, NamedTuple, Optional, Sequence, Tuple

from trau.rules.frame import FrameKind
from trau.rules.lines import SIDES

COUNTS = (*(kind.value for kind in FrameKind), "made")  # the words of a call's counts


def text_of(lines: Sequence[str]) -> str:
    """Lines of text, each ended by a line feed (docs/OPERATORS.md, "The report, line by line")."""
    return "".join(f"{line}\n" for line in lines)


class Reply(NamedTuple):
    """What became of an executed order: nothing where it was accepted, else the number of its
    refusal, the call that it was refused for, and where the reason has one that call's partner
    (docs/OPERATORS.md, "Refusals")."""

    refusal: Optional[int] = None
    call: Optional[int] = None
    partner: Optional[int] = None

    def line(self, order: int) -> str:
        """The report's line of this order (docs/OPERATORS.md, "Refusals")."""
        if self.refusal is None:
            return f"order {order} ok"
        partner = "" if self.partner is None else f" partner {self.partner}"
        return f"order {order} refused {int(self.refusal)} call {self.call}{partner}"


class ReportedBridge(NamedTuple):
    """A bridge of two calls, from its first period to the one after its last; of the frames of each
    how many went out on the other's downlink, and how many were lost (docs/OPERATORS.md, "The
    report, line by line")."""

    calls: Tuple[int, int]
    start: int
    end: int
    sent: Tuple[int, int]
    lost: Tuple[int, int]

    def line(self) -> str:
        """The report's line of this bridge (docs/OPERATORS.md, "The report, line by line")."""
        frames = "sent {} {} lost {} {}".format(*self.sent, *self.lost)
        return f"bridge {self.calls[0]} {self.calls[1]} from {self.start} to {self.end} {frames}"


class ReportedCall(NamedTuple):
    """A call's first period, the one after its last, why it ended there, and its counts: what was
    found on its uplink by kind and class, and how many frames were made for its downlink
    (docs/OPERATORS.md, "The report, line by line")."""

    start: int
    end: int
    cause: str
    counts: Dict[str, int]

    def lines(self, call: int) -> List[str]:
        """The report's two lines of this call (docs/OPERATORS.md, "The report, line by line")."""
        counts = " ".join(f"{word} {count}" for word, count in self.counts.items())
        return [
            f"call {call} from {self.start} to {self.end} {self.cause}",
            f"counts {call} {counts}",
        ]


class FailedLine(NamedTuple):
    """A line that failed: its call, and the index of its side among the four."""

    call: int
    side: int

    def line(self) -> str:
        """The report's line of it (docs/OPERATORS.md, "The report, line by line")."""
        return f"line {self.call} {SIDES[self.side]} failed"


@dataclass
class Report:
    """The report of a run: replies, bridges as they were accepted, calls by number, failed lines,
    and the orders that weren't executed."""

    replies: List[Reply] = field(default_factory=list)
    bridges: List[ReportedBridge] = field(default_factory=list)
    calls: Dict[int, ReportedCall] = field(default_factory=dict)
    failed: List[FailedLine] = field(default_factory=list)
    left: int = 0

    def end(self) -> int:
        """The period at which the last call ends (docs/OPERATORS.md, "The report, line by
        line")."""
        return max((call.end for call in self.calls.values()), default=0)

    def text(self) -> str:
        """The text of the report (docs/OPERATORS.md, "The report, line by line")."""
        lines = [reply.line(order) for order, reply in enumerate(self.replies, 1)]
        lines += [bridge.line() for bridge in self.bridges]
        lines += [line for call, span in self.calls.items() for line in span.lines(call)]
        lines += [failed.line() for failed in self.failed]
        return text_of(
            [*lines, f"end period {self.end()} calls {len(self.calls)} left {self.left}"]
        )

    def status(self) -> int:
        """The status with which a run ends that has this report (docs/COMMANDS.md, "Statuses")."""
        return 6 if self.failed else 0
