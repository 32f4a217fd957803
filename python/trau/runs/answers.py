"""What a command of report.py answers, and the forms in which it is printed."""

import argparse
import csv
import inspect
import io
import json
from typing import Any, Callable, Dict, List, NamedTuple, Sequence

from trau.command_line.words import Option, one_of, switch

Row = Dict[str, Any]


class Answer(NamedTuple):
    """What a command answers: rows of the same columns for text and CSV, the whole for JSON, the
    status, what makes sentences of it if anything does, and lines that follow a table."""

    columns: Sequence[str]
    rows: List[Row]
    whole: Any
    status: int = 0
    sentences: Callable[[], Sequence[str]] = list
    notes: Sequence[str] = ()


def as_text(answer: Answer) -> str:
    """A table of the rows, with `-` for empty cells."""
    table = [list(answer.columns)]
    for row in answer.rows:
        values = (row.get(column) for column in answer.columns)
        table.append(["-" if value is None or value == "" else str(value) for value in values])
    wide = [max(len(line[place]) for line in table) for place in range(len(answer.columns))]
    lines = [
        "  ".join(cell.ljust(width) for cell, width in zip(line, wide)).rstrip() for line in table
    ]
    return "".join(f"{line}\n" for line in (*lines, *answer.notes))


def as_sentences(answer: Answer) -> str:
    """Its sentences, each a line."""
    return "".join(f"{line}\n" for line in answer.sentences())


def as_csv(answer: Answer) -> str:
    """The rows as comma-separated values, the names of the columns first."""
    text_file = io.StringIO()
    writer = csv.DictWriter(text_file, answer.columns, restval="", lineterminator="\n")
    writer.writeheader()
    writer.writerows(answer.rows)
    return text_file.getvalue()


def as_json(answer: Answer) -> str:
    """The whole as JSON."""
    return json.dumps(answer.whole, indent=2) + "\n"


def form(name: str, printed: Callable[[Answer], str], text: str) -> Option:
    """An option for a form in which answers are printed."""
    return switch(name, text, action="store_const", const=printed, dest="form")


JSON = form("--json", as_json, "JSON")
CSV = form("--csv", as_csv, "CSV")
TABLE = form("--table", as_text, "a table")


class ReportCommand(NamedTuple):
    """A command: its function, whose docstring is the command's text; a line for the list of
    commands; its arguments and options; the forms that may be asked for, and the usual one."""

    runs: Callable[[argparse.Namespace], Answer]
    line: str
    options: Sequence[Option]
    forms: Option = one_of(JSON, CSV)
    form: Callable[[Answer], str] = as_text

    def add_to(self, add: Callable[..., Any]) -> None:
        """Adds the command to those of a program."""
        text = inspect.getdoc(self.runs)
        add(self.runs, self.line, text, self.forms, *self.options, form=self.form)
