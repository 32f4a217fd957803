"""Holds codecs and receivers of GSM full rate against the rules of suite/rules.json.

Each case gives a peer its input and judges the answer by the rules that the case exercises
(docs/CONFORMANCE.md). The status is 1 if a peer breaks a rule, 2 if one isn't there."""

from pathlib import Path
from typing import List, Sequence

from trau.command_line.ends import naming, tool
from trau.command_line.side_by_side import processors
from trau.command_line.words import Words, number_within, option, switch

from trau.suite.generator import expected_cases, write_all
from trau.suite.matrix import Verdict, row_of
from trau.suite.peers import NotThere, Peer, by_command, shipped
from trau.suite.rule_list import read_rules
from trau.suite.matrix_page import html_of
from trau.suite.tables import json_of, junit_of, markdown_of, text_of

OPTIONS = (
    option("--peer", action="append", metavar="NAME", help="a shipped peer; `all` for each"),
    option("--command", metavar="COMMAND", help="a peer by a command (docs/CONFORMANCE.md)"),
    switch("--ours", "hold the command to this project's own rules too"),
    option("--case", action="append", metavar="NAME", help="cases whose names begin so; else all"),
    option("--jobs", type=number_within(1, 64), default=processors(), help="how many at a time"),
    option("--text", type=Path, metavar="FILE", help="write the table here too"),
    option("--json", type=Path, metavar="FILE", help="write JSON"),
    option("--junit", type=Path, metavar="FILE", help="write JUnit's XML"),
    option("--html", type=Path, metavar="FILE", help="write a page"),
    option("--markdown", type=Path, metavar="FILE", help="write the tables of CONFORMANCE.md"),
    option("--write", type=Path, metavar="FOLDER", help="write all cases, in files, and end"),
)


def peers_of(names: Sequence[str], command: str, is_ours: bool) -> List[Peer]:
    """The peers that are asked for. `all` leaves out, with a line, those that aren't there."""
    makers = shipped()
    found = []
    for name in names:
        if name != "all":
            found.append(makers[name]())
            continue
        for maker in makers.values():
            try:
                found.append(maker())
            except NotThere as missing:
                print(f"skipped {missing}")
    return found + ([by_command(command, is_ours)] if command else [])


@tool("suite")
def main(words: Sequence[str]) -> int:
    """Prints the table; the status is 1 if a rule is broken."""
    parser = Words(__doc__, *OPTIONS, prog="suite/run")
    asked = parser.parse_args(words)
    names = asked.peer or []
    known = [*shipped(), "all"]
    for name in names:
        if name not in known:
            parser.error(f"{name}: the peers are {', '.join(known)}")
    if not names and not asked.command and not asked.write:
        parser.error("--peer NAME, --command COMMAND or --write FOLDER is wanted")
    peers = peers_of(names, asked.command, asked.ours)
    expected = expected_cases(asked.jobs, asked.case or ())
    if asked.write:
        print(f"files {write_all(asked.write, expected)}")
        return 0
    rules = read_rules()
    rows = [row_of(peer, rules, expected, asked.jobs) for peer in peers]
    text = text_of(rows, rules)
    print(text, end="")
    files = (
        (asked.text, text),
        (asked.json, json_of(rows, rules)),
        (asked.junit, junit_of(rows)),
        (asked.html, html_of(rows, rules)),
        (asked.markdown, markdown_of(rows, rules)),
    )
    for path, content in files:
        if path is not None:
            with naming(path):
                path.write_text(content, encoding="utf-8")
    broken = [one for row in rows for one in row.cells.values() if one.verdict is Verdict.BROKEN]
    return 1 if broken else 0
