"""Why words, orders and lines of a mark aren't in the grammar, as the program says it (docs/COMMANDS.md,
"Why it refuses"). Whether they are, the grammar alone decides; here the first word is named that it
doesn't take, and what it takes there.
"""

import re
from typing import Dict, Optional

from trau.rules import profile
from trau.rules.numbers import number
from trau.rules.orders import FORMS, NAMES

MOST_SHOWN = 40  # octets of a word

# What an order has after its stamp, by the kind of word.
EXPECTED = {
    "verb": "open, close, bridge, unbridge, level or dtx",
    "call": f"a call (1 to {profile.MOST_CALLS})",
    "law": "mulaw, or nothing for A-law,",
    "level": f"a level (0 to {profile.MOST_LEVEL})",
    "mode": "on, off or uplink",
    "end": "the line's end",
}


def shown(word: str) -> str:
    """A word of octets as it is printed: what isn't printable ASCII escaped, and of a long word the
    beginning (docs/COMMANDS.md, "Why it refuses")."""
    text = "".join(
        each if " " <= each <= "~" else f"\\x{ord(each):02x}" for each in word[:MOST_SHOWN]
    )
    return text + (".." if len(word) > MOST_SHOWN else "")


def zeros_hint(word: str) -> str:
    """That numbers have no leading zeros, if this word has some."""
    return "; numbers have no leading zeros" if re.match("0[0-9]", word) else ""


def hint(word: str) -> str:
    """What most often makes a word of orders a wrong one."""
    if word.startswith("#"):
        return "; orders have no comments"
    if not word:
        return "; one space separates words"
    if word.endswith("\r"):
        return "; lines end with LF alone"
    return zeros_hint(word)


def where_expected(word: str, expected: str, hint: str) -> str:
    """That a word isn't what is expected there, and a hint."""
    return f'"{word}" where {expected} is expected{hint}'


def why_no_number(name: str, word: str, least: int, most: int) -> Optional[str]:
    """Why a word isn't the number of this name, if it isn't."""
    if number(word, least, most) is not None:
        return None
    return where_expected(shown(word), f"{name} ({least} to {most})", hint(word))


def is_expected(kind: str, word: str, least_stamp: int) -> bool:
    """Whether a word of an order is of the kind that is expected there."""
    ranges = {
        "stamp": (least_stamp, profile.MOST_STAMP),
        "call": (1, profile.MOST_CALLS),
        "level": (0, profile.MOST_LEVEL),
    }
    if kind in ranges:
        return number(word, *ranges[kind]) is not None
    return word in (FORMS if kind == "verb" else NAMES.get(kind, ()))


def why_no_order(line: str, least_stamp: int) -> str:
    """Why a line isn't that of an order whose stamp is `least_stamp`, that of the order before, or
    above."""
    words = line.split(" ") if line else []
    verb = words[1] if len(words) > 1 else ""
    before = f"{least_stamp}, that of the order before," if least_stamp else "0"
    expected: Dict[str, str] = {
        **EXPECTED,
        "stamp": f"a period ({before} to {profile.MOST_STAMP})",
    }
    kinds = ["stamp", "verb", *FORMS.get(verb, (("call",),))[-1], "end"]
    for kind, word in zip(kinds, words):
        if not is_expected(kind, word, least_stamp):
            return where_expected(shown(word), expected[kind], hint(word))
    return f"the line ends where {expected[kinds[len(words)]]} is expected"
