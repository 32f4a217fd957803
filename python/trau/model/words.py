"""The words after the program's name: which command they ask for, and with which numbers.

The grammar is that of docs/commands, section "Options" of each page, and of docs/DECISIONS.md,
"Words and orders". The seven commands on lines of their own (`relay` to `follow`) read their words
in commands.py.
"""

from typing import Dict, Mapping, NamedTuple, Optional, Sequence

from trau.rules import profile
from trau.rules.numbers import number


class Asked(NamedTuple):
    """A command, and its numbers: the most periods of a round, the periods at which a run ends or
    of a drill, and what a drill's lines are drawn from; 0 is one that the command doesn't have.
    Workers, slices, callers and inboxes change nothing.
    """

    command: str
    batch: int
    periods: int  # of `save` the mark's period; of `resume` the mark's period is the least
    seed: int
    calls: int


def options(
    words: Sequence[str], ranges: Mapping[str, profile.OptionRange]
) -> Optional[Dict[str, int]]:
    """The value of each option, from the words after the command's; None where they aren't in the
    grammar, or where an option isn't there that has to be (docs/commands/run.md, "Options").

    A value is the next word, or follows `=`. Options come in any order, each at most once, and no
    name is shortened. A last word `--` is taken (this project's profile; the manner of the library
    that reads the words).
    """
    rest = iter(words[:-1] if words and words[-1] == "--" else words)
    given: Dict[str, int] = {}
    for word in rest:
        name, has_value, value = word.partition("=")
        key = name[2:]
        if not name.startswith("--") or key not in ranges or key in given:
            return None
        found = number(value if has_value else next(rest, ""), ranges[key].least, ranges[key].most)
        if found is None:
            return None
        given[key] = found
    if any(of.is_required and key not in given for key, of in ranges.items()):
        return None
    return {key: given.get(key, of.default) for key, of in ranges.items()}


def asked(words: Sequence[str]) -> Optional[Asked]:
    """What the words ask for; None where they are no command (docs/commands: status 1, `usage`)."""
    ranges = profile.OPTIONS.get(words[0]) if words else None
    given = options(words[1:], ranges) if ranges is not None else None
    if given is None:
        return None
    return Asked(words[0], *(given.get(name, 0) for name in Asked._fields[1:]))
