"""Command lines: options, numbers, and one line on standard error where words are wrong."""

from __future__ import annotations

import argparse
import re
import sys
from pathlib import Path
from typing import IO, Any, Callable, NoReturn, Optional

from trau.rules.numbers import number


class Refusal(Exception):
    """Input that a tool doesn't take; the text says why, in one line. The tool's status is then
    this one."""

    status = 2


# A tool in a text: the name of its file, with words after it or alone.
TOOL_IN_TEXT = re.compile(
    r"(?<![\w./-])(gateway|lines|orders|report|shard|timeline|watch)\.py(?= |$)"
)
INSTALLED = "trau-"


def printable(text: str) -> str:
    """A text with its control characters escaped: names of files may have them."""
    return re.sub(r"[\x00-\x1f\x7f-\x9f]", lambda found: repr(found[0])[1:-1], text)


def as_started(text: str) -> str:
    """A text with the names that tools have where they are installed, as `trau-lines` for lines.py,
    if this one was started by such a name. Else the text as it is."""
    is_installed = Path(sys.argv[0]).name.startswith(INSTALLED)
    return TOOL_IN_TEXT.sub(rf"{INSTALLED}\1", text) if is_installed else text


def number_within(least: int, most: int) -> Callable[[str], int]:
    """Reads a number between these ends, as `number`, for an option."""

    def read(word: str) -> int:
        found = number(word, least, most)
        if found is None:
            raise argparse.ArgumentTypeError(f"{word} isn't {least:,} to {most:,}")
        return found

    return read


# adds an option or an argument to the words of a command
Option = Callable[[argparse._ActionsContainer], Any]


def option(*names: str, **more: Any) -> Option:
    """An option or an argument, as argparse takes it."""
    return lambda words: words.add_argument(*names, **more)


def switch(name: str, help: str, **more: Any) -> Option:
    """An option without a value."""
    return option(name, help=help, **{"action": "store_true", **more})


def one_of(*options: Option) -> Option:
    """Options of which one may be given."""

    def add(words: argparse._ActionsContainer) -> None:
        group = words.add_mutually_exclusive_group()
        for each in options:
            each(group)

    return add


class Words(argparse.ArgumentParser):
    """The words of a command line, whose names aren't shortened; bad ones get one line on standard
    error and status 2."""

    def __init__(self, description: Optional[str] = None, *options: Option, **more: Any) -> None:
        more.setdefault("formatter_class", argparse.RawDescriptionHelpFormatter)
        super().__init__(description=description, allow_abbrev=False, **more)
        for each in options:
            each(self)

    def commands(self) -> Callable[..., Words]:
        """What adds a command: of its function, which has its name, one line for the list of
        commands, its text, and its options."""
        commands = self.add_subparsers(metavar="COMMAND", required=True)

        def add(
            does: Callable[..., Any],
            line: str,
            description: str,
            *options: Option,
            example: str = "",
            **defaults: Any,
        ) -> Words:
            epilog = f"example: {self.prog} {does.__name__} {example}" if example else None
            added = commands.add_parser(
                does.__name__, help=line, description=description, epilog=epilog
            )
            for each in options:
                each(added)
            added.set_defaults(**{"runs": does, **defaults})
            return added

        return add

    def print_help(self, file: Optional[IO[str]] = None) -> None:
        """Prints the help; argparse's own function does as if that never failed."""
        print(as_started(self.format_help()), end="", file=file)

    def error(self, message: str) -> NoReturn:
        """Prints what is wrong."""
        self.exit(2, f"{as_started(self.prog)}: {printable(message)}\n")
