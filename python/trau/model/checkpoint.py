"""A run in two parts: the mark that `save` prints and `resume` reads (docs/FILES.md, "A mark"; this
project's profile)."""

import re
from typing import List, NamedTuple, Optional, Sequence, Tuple

from trau.rules import profile
from trau.rules.orders import BadLine
from trau.rules.report import text_of
from trau.rules.numbers import number

from trau.model.farm import Cause, Farm


class MarkCall(NamedTuple):
    """A call that is open at a mark: its number, its opening, and the sums of all octets of its Out
    and Down lines so far."""

    call: int
    opening: int
    out: int
    down: int


class Mark(NamedTuple):
    """The mark of a run at a period: those before it are worked. The calls' numbers rise."""

    period: int
    calls: Sequence[MarkCall]


def sum_of(octets: bytes) -> int:
    """The sum of octets, modulo 2^32 (docs/FILES.md, "A mark")."""
    return sum(octets) % profile.SUM_MODULUS


def mark_of(farm: Farm, period: int) -> Mark:
    """The mark of a run that ended at this period: the calls that this end met, with the sums of
    their lines (docs/FILES.md, "A mark")."""
    at_limit = [call for call in farm.calls if call.end.cause is Cause.LIMIT]
    return Mark(
        period,
        [
            MarkCall(
                call.number, call.opening, sum_of(call.outgoing.out), sum_of(call.outgoing.down)
            )
            for call in at_limit
        ],
    )


def text_of_mark(mark: Mark) -> str:
    """The text of a mark; the orders of the whole run follow it where it is read (docs/FILES.md, "A
    mark")."""
    calls = [
        f"call {call.call} from {call.opening} out {call.out} down {call.down}"
        for call in mark.calls
    ]
    return text_of([f"save {mark.period}", *calls, "orders"])


def differs(mark: Mark, other: Mark) -> Optional[int]:
    """The least number of a call that has another entry in the other mark, or that only one of both
    has; None where none has (docs/COMMANDS.md, "Statuses")."""
    different = set(mark.calls) ^ set(other.calls)
    return min((call.call for call in different), default=None)


def read_mark(text: bytes) -> Tuple[Mark, bytes]:
    """The mark at the beginning of a text, and what follows it; else raises the first line that
    isn't in the grammar (docs/FILES.md, "A mark").

    A line without its line feed isn't in the grammar. Where the text ends before the line `orders`,
    the line after its last is bad.
    """
    *lines, _ = text.split(b"\n")
    period = _period_of(lines[0]) if lines else None
    if period is None:
        raise BadLine(1)
    calls: List[MarkCall] = []
    for place, line in enumerate(lines[1:], 1):
        if line == b"orders":
            return Mark(period, calls), b"\n".join(text.split(b"\n")[place + 1 :])
        call = _call_of(line, period, calls[-1].call if calls else 0)
        if call is None:
            raise BadLine(place + 1)
        calls.append(call)
    raise BadLine(len(lines) + 1)


def _period_of(line: bytes) -> Optional[int]:
    """The period of a mark's first line, or None (docs/FILES.md, "A mark")."""
    words = re.fullmatch("save ([0-9]+)", line.decode("latin-1"))
    return number(words[1], 1, profile.MOST_PERIODS) if words else None


def _call_of(line: bytes, period: int, above: int) -> Optional[MarkCall]:
    """A mark's line of a call, or None: its number is above the one before, its opening before the
    mark's period (docs/FILES.md, "A mark")."""
    words = re.fullmatch(
        "call ([0-9]+) from ([0-9]+) out ([0-9]+) down ([0-9]+)", line.decode("latin-1")
    )
    if not words:
        return None
    numbers = (
        number(words[1], above + 1, profile.MOST_CALLS),
        number(words[2], 0, period - 1),
        number(words[3], 0, profile.SUM_MODULUS - 1),
        number(words[4], 0, profile.SUM_MODULUS - 1),
    )
    found = [each for each in numbers if each is not None]
    return MarkCall(*found) if len(found) == len(numbers) else None
