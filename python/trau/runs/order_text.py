"""Orders read line by line, and why each line that isn't in the grammar isn't."""

from __future__ import annotations

from dataclasses import dataclass, field
from typing import Dict, List, Optional

from trau.command_line.words import as_started
from trau.rules.numbers import number
from trau.rules.orders import NoOrder, Order, lines_of, read_order
from trau.rules.profile import MOST_STAMP
from trau.rules.word_reasons import why_no_order
from trau.runs import marks

COMMENT = "#"
STRIPS = as_started("orders.py strip leaves out comments and empty lines")
OF_A_MARK = f"{as_started('orders.py')} check --mark takes a mark with the orders after it"


def remark_on(line: str) -> Optional[str]:
    """What a line is, if it is one of those that other texts have."""
    text = line.strip()
    if not text:
        return f"an empty line; {STRIPS}"
    if text.startswith(COMMENT):
        return f"a comment; {STRIPS}"
    if text.split(" ")[0] in marks.FIRST_WORDS:
        return f"a line of a mark, and no order; {OF_A_MARK}"
    return None


@dataclass
class Text:
    """The orders of a text that are in the grammar, and why the other lines aren't."""

    orders: List[Order] = field(default_factory=list)
    faults: Dict[int, str] = field(default_factory=dict)
    lines: int = 0

    @staticmethod
    def read(octets: bytes) -> Text:
        """Reads the lines."""
        text, least_stamp = Text(), 0
        for place, octets_of_line in enumerate(lines_of(octets), 1):
            line = octets_of_line.decode("latin-1")
            text.lines = place
            stamp = number(line.split(" ")[0], least_stamp, MOST_STAMP)
            try:
                text.orders.append(read_order(place, line, least_stamp))
            except NoOrder:
                text.faults[place] = remark_on(line) or why_no_order(line, least_stamp)
            least_stamp = least_stamp if stamp is None else stamp
        return text
