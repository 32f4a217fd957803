"""Why words, orders and marks aren't taken, as the program says it on standard error (docs/COMMANDS.md,
"Why it refuses").

Commands and orders decide for themselves whether they take words; this names the first word that
none takes.
"""

import unicodedata
from typing import Dict, Iterator, List, Optional, Sequence

from trau.rules import profile
from trau.rules.numbers import number
from trau.rules.orders import lines_of
from trau.rules.word_reasons import where_expected, why_no_order, zeros_hint

# The greatest call of each command without options.
LAST_CALLS = {
    **dict.fromkeys(("relay", "decode", "encode", "frames", "follow"), profile.MOST_CALLS),
    **dict.fromkeys(("split", "merge"), profile.MOST_SLOT_CALL),
}

WANTED = f"W (0 to {profile.MOST_WANTED}, a multiple of {profile.WANTED_STEP})"


def _word(word: Optional[str], expected: str) -> str:
    """Why a word of a command line, or their end, isn't what is expected there."""
    if word is None:
        return f"the words end where {expected} is expected"
    return where_expected(word, expected, zeros_hint(word))


def _of_call(name: str, words: Iterator[str]) -> str:
    """Why the words after a command without options aren't taken."""
    most = LAST_CALLS[name]
    call = next(words, None)
    if call is None or number(call, 1, most) is None:
        return _word(call, f"C (1 to {most})")
    if name == "follow":
        place = next(words, None)
        found = None if place is None else number(place, 0, profile.MOST_WANTED)
        if found is None or found % profile.WANTED_STEP:
            return _word(place, WANTED)
    return _word(next(words, None), "no further word")


def _of_options(name: str, words: List[str]) -> str:
    """Why options aren't taken: first their names, then their values in the order of the page."""
    ranges = profile.OPTIONS[name]
    rest = iter(words[:-1] if words[-1:] == ["--"] else words)
    given: Dict[str, str] = {}
    for word in rest:
        option, has_value, value = word.partition("=")
        key = option[2:]
        if word == "--":
            option = next(rest, word)
            key = ""
        if not option.startswith("--") or key not in ranges:
            shown = "".join("\ufffd" if unicodedata.category(c) == "Cc" else c for c in option)
            return f"unexpected argument '{shown}' found"
        if key in given:
            return f"the argument '--{key} <{key}>' cannot be used multiple times"
        given[key] = value if has_value else next(rest, "-")
        if not has_value and given[key].startswith("-"):
            return f"a value is required for '--{key} <{key}>' but none was supplied"
    for key, of in ranges.items():
        if key in given and number(given[key], of.least, of.most) is None:
            return _word(given[key], f"the value of --{key} ({of.least} to {of.most})")
    return "save needs --periods, the period of the mark"


def of_words(words: Sequence[str]) -> str:
    """Why words that ask for nothing aren't taken."""
    if not words:
        return "no command is given; trau help lists them"
    name, *given = words
    if name in profile.OPTIONS:
        return _of_options(name, given)
    if name in LAST_CALLS:
        return _of_call(name, iter(given))
    return f'"{name}" is no command; trau help lists them'


def of_orders(text: bytes, line: int) -> str:
    """Why the first bad line of orders isn't one."""
    lines = [each.decode("latin-1") for each in lines_of(text)]
    least = int(lines[line - 2].split(" ")[0]) if line > 1 else 0
    return f"line {line} of the orders: {why_no_order(lines[line - 1], least)}"


def of_mark(line: int) -> str:
    """Why the first bad line of a mark isn't one."""
    if line == 1:
        return 'line 1 of the mark: "save P" is expected, as trau save prints it'
    return (
        f'line {line} of the mark: "call C from S out X down Y", C above that of the line before,'
        ' or "orders" is expected'
    )
