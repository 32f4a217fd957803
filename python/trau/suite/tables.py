"""The matrix as a text, as JSON, as JUnit's XML, and as the tables of docs/CONFORMANCE.md."""

import json
from typing import Dict, List, Sequence
from xml.etree import ElementTree

from trau.suite.matrix import Cell, PeerRow, Verdict, count_of
from trau.suite.rule_list import Level, Rule

MARKS = {
    Verdict.KEPT: "kept",
    Verdict.BROKEN: "BROKEN",
    Verdict.NOT_EXERCISED: "-",
    Verdict.DOES_NOT_APPLY: "n/a",
}
LEGEND = "-: not exercised; n/a: doesn't apply to this peer"


def text_of(rows: Sequence[PeerRow], rules: Sequence[Rule]) -> str:
    """A table of rules by peers, then where each rule is broken first."""
    wide = max(len(rule.identifier) for rule in rules)
    names = [row.peer.name for row in rows]
    lines = [" ".join(["rule".ljust(wide), "level ", *names])]
    for rule in rules:
        cells = [
            MARKS[row.cells[rule.identifier].verdict].ljust(len(name))
            for name, row in zip(names, rows)
        ]
        line = " ".join([rule.identifier.ljust(wide), f"{rule.level.value:6}", *cells])
        lines.append(line.rstrip())
    lines.append(LEGEND)
    for row in rows:
        broken = {rule: one for rule, one in row.cells.items() if one.verdict is Verdict.BROKEN}
        lines += [f"{row.peer.name} {rule} {one.text()}" for rule, one in broken.items()]
        kept = sum(one.verdict is Verdict.KEPT for one in row.cells.values())
        frames = sum(each.periods for each in row.outcomes)
        lines.append(
            f"{row.peer.name} cases {len(row.outcomes)} frames {frames} kept {kept} broken"
            f" {len(broken)}"
        )
    return "\n".join(lines) + "\n"


def json_of(rows: Sequence[PeerRow], rules: Sequence[Rule]) -> str:
    """Rules, and for each peer its verdicts."""
    content = {
        "rules": [
            {"id": rule.identifier, "level": rule.level.value, "says": rule.says} for rule in rules
        ],
        "peers": [
            {
                "name": row.peer.name,
                "version": row.peer.version,
                "codec": row.peer.codec or row.peer.name,
                "cases": len(row.outcomes),
                "rules": {rule: entry_of(one) for rule, one in row.cells.items()},
            }
            for row in rows
        ],
    }
    return json.dumps(content, indent=1, ensure_ascii=False) + "\n"


def entry_of(cell: Cell) -> Dict[str, object]:
    """A cell in JSON."""
    entry: Dict[str, object] = {"verdict": cell.verdict.value, "cases": cell.cases}
    where: Dict[str, object] = {
        "case": cell.first_case,
        "frame": cell.first_unit,
        "failure": cell.failure,
    }
    return {**entry, **where} if cell.verdict is Verdict.BROKEN else entry


def junit_of(rows: Sequence[PeerRow]) -> str:
    """A suite for each peer, and in it a test for each case, which fails with the rules that it
    shows broken."""
    top = ElementTree.Element("testsuites")
    for row in rows:
        failed = [each for each in row.outcomes if any(b is not None for b in each.broken.values())]
        attributes = {"tests": str(len(row.outcomes)), "failures": str(len(failed))}
        suite = ElementTree.SubElement(top, "testsuite", {"name": row.peer.name, **attributes})
        for each in row.outcomes:
            names = {"classname": row.peer.name, "name": each.case}
            test = ElementTree.SubElement(suite, "testcase", names)
            broken = [f"{rule} frame {b}" for rule, b in each.broken.items() if b is not None]
            if broken:
                said = "; ".join(broken) + (f" ({each.failure})" if each.failure else "")
                ElementTree.SubElement(test, "failure", {"message": said})
    return ElementTree.tostring(top, encoding="unicode") + "\n"


def markdown_table(*lines: Sequence[str]) -> str:
    """A table of Markdown; its first line is the head."""
    head, *others = [f"| {' | '.join(line)} |\n" for line in lines]
    return head + "|---" * len(lines[0]) + "|\n" + "".join(others)


def markdown_of(rows: Sequence[PeerRow], rules: Sequence[Rule]) -> str:
    """The peers with their counts; the rules that bind each of them; where each is broken first."""
    peers = [
        (
            f"`{row.peer.name}`",
            "this repository" if row.peer.is_ours else row.peer.version or "-",
            str(len(row.outcomes)),
            str(count_of(row, Verdict.KEPT)),
            str(count_of(row, Verdict.BROKEN)),
        )
        for row in rows
    ]
    verdicts = [
        (f"`{rule.identifier}`", rule.level.value)
        + tuple(MARKS[row.cells[rule.identifier].verdict] for row in rows)
        for rule in rules
        if rule.level is not Level.OWN
    ]
    broken = [
        (f"`{row.peer.name}`", f"`{name}`", f"{cell.first_case}, {cell.failure or cell.first_unit}")
        for row in rows
        for name, cell in row.cells.items()
        if cell.verdict is Verdict.BROKEN
    ]
    heads = ("Peer", "Debian's version", "Cases", "Rules kept, of all levels", "Rules broken")
    tables = (
        markdown_table(heads, *peers),
        markdown_table(("Rule", "Level", *(name for name, *_ in peers)), *verdicts),
        markdown_table(("Peer", "Rule", "First case, frame"), *broken),
    )
    return "\n".join(tables)
