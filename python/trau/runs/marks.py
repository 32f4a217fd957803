"""A mark, as `trau save` prints it and `trau resume` reads it before the orders, and what is wrong
with its lines."""

from dataclasses import dataclass, field
from typing import Dict, List, Optional, Tuple

from trau.rules.profile import MOST_CALLS, MOST_PERIODS
from trau.rules.word_reasons import shown, why_no_number

MOST_SUM = 4294967295

# Lines that no order begins like.
FIRST_WORDS = ("save", "call", "orders")

SAVE_FORM = "save P"
CALL_FORM = "call C from S out X down Y"
END = "orders"


@dataclass
class CheckedMark:
    """A mark: its period, the periods at which its calls were opened, where its lines of calls are,
    and what is wrong with its lines."""

    period: int = 0
    openings: Dict[int, int] = field(default_factory=dict)
    lines_of_calls: Dict[int, int] = field(default_factory=dict)
    faults: Dict[int, str] = field(default_factory=dict)
    lines: int = 0

    def add_fault(self, line: int, fault: Optional[str]) -> None:
        """Notes what is wrong with a line, if anything."""
        if fault:
            self.faults.setdefault(line, fault)


def fault_of_save(mark: CheckedMark, words: List[str]) -> Optional[str]:
    """What is wrong with the first line; the mark takes its period."""
    if words[:1] != ["save"] or len(words) != 2:
        return f"a mark's first line is {SAVE_FORM}"
    fault = why_no_number("P", words[1], 1, MOST_PERIODS)
    mark.period = 0 if fault else int(words[1])
    return fault


def fault_of_call(mark: CheckedMark, line: int, words: List[str]) -> Optional[str]:
    """What is wrong with the line of a call; the mark takes the call."""
    if len(words) != 8 or words[::2] != CALL_FORM.split(" ")[::2]:
        return f"a mark's line of a call is {CALL_FORM}"
    call, opening, out, down = words[1::2]
    faults = (
        why_no_number("C", call, 1, MOST_CALLS),
        why_no_number("S", opening, 0, (mark.period or MOST_PERIODS) - 1),
        why_no_number("X", out, 0, MOST_SUM),
        why_no_number("Y", down, 0, MOST_SUM),
    )
    fault = next(filter(None, faults), None)
    if fault is None:
        last = max(mark.openings, default=0)
        if int(call) <= last:
            return f"call {call}: not above that of a line before, {last}"
        mark.openings[int(call)], mark.lines_of_calls[int(call)] = int(opening), line
    return fault


ORDERS_DUE = f"where the line {END} is due, which ends a mark, "


def fault_of_another(text: str, is_last: bool) -> str:
    """What is wrong where a mark's line `orders` is due and another line is there."""
    if text:
        return f"{ORDERS_DUE}there is '{shown(text)}'"
    return ORDERS_DUE + ("the text ends" if is_last else "there is an empty line")


def read_mark(octets: bytes) -> Tuple[CheckedMark, bytes]:
    """The mark at the start of a text, and what comes after it. Where the mark's last line,
    `orders`, is missing, the orders begin with the first line that is none of a mark."""
    mark = CheckedMark()
    rest = octets
    while True:
        content, line_feed, after = rest.partition(b"\n")
        line, text = mark.lines + 1, content.decode("latin-1")
        words = text.split(" ")
        is_end = line > 1 and text == END
        if line == 1:
            mark.add_fault(line, fault_of_save(mark, words))
            if words[:1] != ["save"]:
                return mark, octets
        elif words[:1] == ["call"]:
            mark.add_fault(line, fault_of_call(mark, line, words))
        elif not is_end:
            mark.add_fault(line, fault_of_another(text, not line_feed))
            return mark, rest
        if not line_feed:
            mark.add_fault(line, "no line feed at its end")
        mark.lines = line
        if is_end:
            return mark, after
        if not line_feed:
            mark.add_fault(line + 1, f"{ORDERS_DUE}the text ends")
            return mark, b""
        rest = after
