"""Man pages of the tools, made from their --help under the names that they are installed with."""

import contextlib
import io
import os
import re
import sys
from typing import List, Sequence
from unittest import mock

from trau import programs
from trau.packing import trau_words


def help_of(name: str, words: Sequence[str] = ()) -> str:
    """The tool's --help when it is started by this name, such as `trau-lines` for lines.py."""
    program = getattr(programs, name.partition("-")[2])
    said = io.StringIO()
    with mock.patch.object(sys, "argv", [name, *words, "--help"]), mock.patch.dict(
        os.environ, COLUMNS="72"
    ), contextlib.redirect_stdout(said):
        with contextlib.suppress(SystemExit):
            program()
    # Python 3.9 has another heading than later ones.
    return said.getvalue().replace("optional arguments:", "options:")


def commands_of(text: str) -> List[str]:
    """The commands that a help lists."""
    listed = re.search(r"^  (?:COMMAND|run\|check)\n((?:    .*\n)+)", text, re.M)
    return re.findall(r"^    (\w+)", listed[1], re.M) if listed else []


def purpose_of(text: str) -> str:
    """The first sentence after the usage, as the head of a man page has it: without a capital and a
    full stop."""
    said = " ".join(text.split("\n\n")[1].split())
    sentence, *_ = re.split(r"[.;:] |\.$|, (?:while|line by line)", said, 1)
    return sentence[0].lower() + sentence[1:]


def as_it_stands(text: str) -> List[str]:
    """Lines of text as they are."""
    return [".nf", *(line_of(line) for line in text.rstrip("\n").split("\n")), ".fi"]


def line_of(line: str) -> str:
    """A line of text that troff doesn't take for one of its requests."""
    return re.sub(r"^([.'])", r"\\&\1", trau_words.escaped(line))


def body(text: str) -> List[str]:
    """A help after its usage: plain paragraphs are filled, lists of words stay as they are."""
    lines: List[str] = []
    for paragraph in text.strip("\n").split("\n\n"):
        is_plain = not re.search(r"^ |:$", paragraph, re.M)
        lines += [
            ".PP",
            *(map(line_of, paragraph.split("\n")) if is_plain else as_it_stands(paragraph)),
        ]
    return lines


def man_page(name: str, version: str, date: str) -> str:
    """The man page of a tool, with its commands."""
    text = help_of(name)
    usage, said = text.split("\n\n", 1)
    lines = [
        f'.TH {name.upper()} 1 "{trau_words.escaped(date)}" "{trau_words.escaped(version)}" "User Commands"',
        ".SH NAME",
        f"{trau_words.escaped(name)} \\- {trau_words.escaped(purpose_of(text))}",
        ".SH SYNOPSIS",
        *as_it_stands(usage[len("usage: ") :]),
        ".SH DESCRIPTION",
        *body(said),
    ]
    for command in commands_of(text):
        usage, said = help_of(name, [command]).split("\n\n", 1)
        lines += [
            f".SH {trau_words.escaped(command.upper())}",
            *as_it_stands(usage[len("usage: ") :]),
            *body(said),
        ]
    return "\n".join([*lines, ".SH SEE ALSO", ".BR trau (1)"]) + "\n"
