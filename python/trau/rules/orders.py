"""The grammar of orders: text in, orders or the first bad line out (docs/OPERATORS.md, "Orders";
this project's profile)."""

import enum
from typing import Dict, List, NamedTuple, Tuple

from trau.rules import profile
from trau.rules.g711 import Law
from trau.rules.numbers import number


class Verb(str, enum.Enum):
    """What an order does; the value is its name in texts (docs/OPERATORS.md, "Orders")."""

    OPEN = "open"
    CLOSE = "close"
    BRIDGE = "bridge"
    UNBRIDGE = "unbridge"
    LEVEL = "level"
    DTX = "dtx"


class Order(NamedTuple):
    """An order: its line, counted from 1, the period at whose start it takes effect, what it does,
    the calls that it names, and its words."""

    number: int
    stamp: int
    verb: Verb
    calls: Tuple[int, ...]
    words: str

    def line(self) -> str:
        """The order's line (docs/OPERATORS.md, "Orders")."""
        return f"{self.stamp} {self.words}"

    def law(self) -> Law:
        """The law of the call that it opens: A-law if it names none (docs/OPERATORS.md,
        "Orders")."""
        return Law.MU if self.words.endswith(f" {Law.MU}") else Law.A

    def value(self) -> str:
        """Its last word: the level, or the mode of discontinuous transmission (docs/OPERATORS.md,
        "Orders")."""
        return self.words.split(" ")[-1]


# What may follow the name of an order.
FORMS: Dict[str, Tuple[Tuple[str, ...], ...]] = {
    Verb.OPEN: (("call",), ("call", "law")),
    Verb.CLOSE: (("call",),),
    Verb.BRIDGE: (("call", "call"),),
    Verb.UNBRIDGE: (("call",),),
    Verb.LEVEL: (("call", "level"),),
    Verb.DTX: (("call", "mode"),),
}
# The words of a law and of a mode; A-law is named by no word.
NAMES = {"law": (str(Law.MU),), "mode": ("on", "off", "uplink")}


class NoOrder(Exception):
    """A line that isn't in the grammar; the text says why."""


class BadLine(Exception):
    """The first line, counted from 1, that isn't in the grammar, and why."""

    def __init__(self, line: int, why: str = "") -> None:
        super().__init__(why)
        self.line = line


class TooLong(Exception):
    """The text has more octets or more lines than orders may have."""

    def __init__(self, octets: int, lines: int) -> None:
        super().__init__(f"orders too long: {octets:,} octets, {lines:,} lines")


def lines_of(text: bytes) -> List[bytes]:
    """The lines of a text, each ended by a line feed that the last one may lack; empty text has
    none (docs/OPERATORS.md, "Orders")."""
    lines = text.split(b"\n")
    return lines if lines[-1] else lines[:-1]


def orders_of(text: bytes) -> List[Order]:
    """The orders of a text within the limits; else raises what is wrong with it: its size or its
    number of lines, or its first bad line (docs/OPERATORS.md, "Orders")."""
    lines = lines_of(text)
    if len(text) > profile.MOST_ORDER_OCTETS or len(lines) > profile.MOST_ORDERS:
        raise TooLong(len(text), len(lines))
    orders: List[Order] = []
    for place, line in enumerate(lines, 1):
        try:
            # Latin-1 has a character for each octet, so no octet is lost or refused here.
            orders.append(
                read_order(place, line.decode("latin-1"), orders[-1].stamp if orders else 0)
            )
        except NoOrder as why:
            raise BadLine(place, f"line {place} {why}: {line.decode('latin-1')[:60]!a}") from None
    return orders


def read_order(place: int, line: str, least_stamp: int = 0) -> Order:
    """The order of a line: its stamp and its words, one space between each; raises NoOrder if it
    isn't in the grammar. A stamp below that of the line before makes its own line bad
    (docs/OPERATORS.md, "Orders")."""
    stamp, *words = line.split(" ")
    form = (
        next((form for form in FORMS.get(words[0], ()) if len(words) == 1 + len(form)), None)
        if words
        else None
    )
    if form is None or number(stamp, 0, profile.MOST_STAMP) is None:
        raise NoOrder("isn't an order")
    calls = tuple(call_of(word) for word, kind in zip(words[1:], form) if kind == "call")
    if not all(is_value(word, kind) for word, kind in zip(words[1:], form) if kind != "call"):
        raise NoOrder("isn't an order")
    if int(stamp) < least_stamp:
        raise NoOrder("has a stamp below that of the line before")
    return Order(place, int(stamp), Verb(words[0]), calls, " ".join(words))


def call_of(word: str) -> int:
    """The call that a word names (docs/OPERATORS.md, "Orders")."""
    if number(word, 0, profile.MOST_PERIODS) is None:
        raise NoOrder("isn't an order")
    if not 1 <= int(word) <= profile.MOST_CALLS:
        raise NoOrder(f"names call {word}; the calls of one farm are 1 to {profile.MOST_CALLS:,}")
    return int(word)


def is_value(word: str, form: str) -> bool:
    """Whether a word is a level, a law, or a mode of discontinuous transmission (docs/OPERATORS.md,
    "Orders")."""
    return (
        number(word, 0, profile.MOST_LEVEL) is not None if form == "level" else word in NAMES[form]
    )
