"""The matrix as one page of HTML, without scripts and other files."""

import html
from itertools import groupby
from typing import List, Sequence

from trau.suite.matrix import Cell, PeerRow, Verdict, count_of
from trau.suite.peers import Peer
from trau.suite.rule_list import Level, Rule

TITLE = "GSM full rate: peers by rules"
GROUPS = {
    "encoder": "Encoder",
    "decoder": "Decoder",
    "packing": "Packings",
    "alaw": "A-law",
    "mulaw": "Mu-law",
    "law": "Both laws",
    "kind": "Kinds of frames",
    "lost": "Lost frames",
    "noise": "Comfort noise",
    "send": "Discontinuous transmission",
    "line": "TRAU frames",
    "search": "Search for frames",
    "call": "Whole calls",
}
LEVELS = {
    Level.EXACT: "the standard fixes the bits",
    Level.WITHIN: "the standard sets a bound",
    Level.OWN: "this project chose; other peers aren't held to it",
}
SIGNS = {
    Verdict.KEPT: ("kept", "&#10003;", "kept in all cases that exercise it"),
    Verdict.BROKEN: ("broken", "&#10007;", "broken; the first case and frame stand there"),
    Verdict.NOT_EXERCISED: ("other", "&ndash;", "not exercised: the peer has no such operation"),
    Verdict.DOES_NOT_APPLY: ("other", "", "doesn't apply to the peer"),
}
STYLE = """
body { font: 15px/1.45 system-ui, sans-serif; color: #222; margin: 2em auto; max-width: 110em; padding: 0 1em; }
h1 { font-size: 1.5em; } h2 { font-size: 1.15em; margin-top: 2em; }
table { border-collapse: collapse; } td, th { padding: .25em .6em; text-align: left; vertical-align: top; }
tr { border-bottom: 1px solid #e4e4e4; } thead th { border-bottom: 2px solid #888; }
.matrix thead th { position: sticky; top: 0; background: #fff; text-align: center; font-weight: bold; }
.matrix thead th:first-child { text-align: left; z-index: 1; }
.matrix td { text-align: center; min-width: 4em; padding: .25em .3em; } .matrix th { font-weight: normal; }
.matrix tr th:first-child { position: sticky; left: 0; background: #fff; min-width: 15em; }
.matrix th code { font-weight: bold; } .matrix small { display: block; color: #666; max-width: 34em; }
.matrix tr.group th { background: #f3f3f3; font-weight: bold; }
td.kept { color: #187a2f; background: #eef8f0; } td.broken { color: #a11; background: #fdecec; font-size: .8em; }
td.other { color: #999; } .count { text-align: right; }
"""


def cell_of(cell: Cell) -> str:
    """A cell: its sign, and where a rule is broken first."""
    shade, sign, _ = SIGNS[cell.verdict]
    where = ""
    if cell.verdict is Verdict.BROKEN:
        what = cell.failure or f"frame {cell.first_unit}"
        where = f"<br>{html.escape(f'{cell.first_case}, {what}')}"
    return f'<td class="{shade}" title="{html.escape(cell.text())}">{sign}{where}</td>'


def codec_of(peer: Peer) -> str:
    """Whose codec a peer has."""
    if peer.is_ours:
        return "this project's"
    if peer.codec:
        return f"that of {peer.codec}"
    return "its own" if {"encode", "decode"} & set(peer.answers) else "none"


def peer_line(row: PeerRow) -> str:
    """A peer with its counts."""
    peer = row.peer
    version = "this repository" if peer.is_ours else peer.version or "not known"
    counts = (len(row.outcomes), count_of(row, Verdict.KEPT), count_of(row, Verdict.BROKEN))
    numbers = "".join(f'<td class="count">{count}</td>' for count in counts)
    cells = "".join(f"<td>{html.escape(word)}</td>" for word in (version, codec_of(peer)))
    return f"<tr><th>{html.escape(peer.name)}</th>{cells}{numbers}</tr>"


def rule_line(rule: Rule, rows: Sequence[PeerRow]) -> str:
    """A rule with the cells of all peers."""
    about = html.escape(f"{rule.says} ({rule.source})")
    cells = "".join(cell_of(row.cells[rule.identifier]) for row in rows)
    name = f"<th><code>{rule.identifier}</code><small>{about}</small></th>"
    return f"<tr>{name}<td>{rule.level.value}</td>{cells}</tr>"


def matrix_lines(rows: Sequence[PeerRow], rules: Sequence[Rule]) -> List[str]:
    """The rules in groups, in the order of the first of each."""
    names = list(dict.fromkeys(rule.identifier.partition(".")[0] for rule in rules))
    ordered = sorted(rules, key=lambda rule: names.index(rule.identifier.partition(".")[0]))
    lines = []
    for name, group in groupby(ordered, key=lambda rule: rule.identifier.partition(".")[0]):
        title = html.escape(GROUPS.get(name, name))
        lines.append(f'<tr class="group"><th colspan="{len(rows) + 2}">{title}</th></tr>')
        lines += [rule_line(rule, rows) for rule in group]
    return lines


def legend() -> str:
    """What signs and levels mean."""
    signs = [f"<li>{sign or 'empty'}: {said}</li>" for _, sign, said in SIGNS.values()]
    levels = [f"<li><i>{level.value}</i>: {said}</li>" for level, said in LEVELS.items()]
    return f"<ul>{''.join(signs)}{''.join(levels)}</ul>"


def html_of(rows: Sequence[PeerRow], rules: Sequence[Rule]) -> str:
    """The page."""
    heads = ("Peer", "Version", "Codec", "Cases", "Rules kept", "Rules broken")
    peers = "".join(f"<th>{head}</th>" for head in heads)
    names = "".join(f"<th>{html.escape(row.peer.name)}</th>" for row in rows)
    lines = "\n".join(matrix_lines(rows, rules))
    counts = "\n".join(map(peer_line, rows))
    return f"""<!DOCTYPE html>
<html lang="en"><meta charset="utf-8"><meta name="viewport" content="width=device-width">
<title>{TITLE}</title><style>{STYLE}</style>
<h1>{TITLE}</h1>
<p>Each peer was given the cases that its operations take. A rule is kept or broken by these cases alone. Frames, and
samples of a law, are counted from 0.</p>
<h2>Peers</h2>
<table><thead><tr>{peers}</tr></thead><tbody>
{counts}
</tbody></table>
<h2>Rules</h2>
{legend()}
<table class="matrix"><thead><tr><th>Rule</th><th>Level</th>{names}</tr></thead><tbody>
{lines}
</tbody></table></html>
"""
