"""A page of HTML of a run: its totals, failed lines and worst calls, and below them a picture that
is drawn anew as one zooms, whose axis and names stay as one moves. It is one file, which asks no
other for anything."""

import base64
import json
import zlib
from html import escape
from pathlib import Path
from typing import Any, Dict, Iterator, List, Sequence, Type

from trau.pictures import looks
from trau.pictures.looks import DOWN_LOSSES, LOSSES, DownlinkLook, Look, UplinkLook
from trau.pictures.picture import Picture
from trau.pictures.rows import BRIDGE_COLOUR, OUT_COLOUR, PCM_COLOUR
from trau.pictures.svg import ALARM
from trau.rules.lines import name_of
from trau.rules.profile import PERIODS_A_SECOND
from trau.runs import call_lines, outcomes, run_lines
from trau.runs.run_lines import RecordedCall

MOST_WORST = 10
SCRIPT = Path(__file__).with_name("picture_page.js")

HEAD = """<!DOCTYPE html>
<html lang="en">
<head>
<meta charset="utf-8">
<title>The periods of a run's calls</title>
<style>
html, body { margin: 0; height: 100%; font: 13px 'DejaVu Sans', Verdana, Arial, sans-serif; color: #222222 }
body { display: flex; flex-direction: column }
header { display: flex; flex-wrap: wrap; gap: 6px 40px; padding: 8px 14px; max-height: 44vh; overflow: auto }
h1 { font-size: 16px; margin: 0 0 6px }
p { margin: 2px 0 }
table { border-collapse: collapse }
th, td { text-align: right; padding: 1px 10px 1px 0; font-weight: normal }
th { color: #555555 }
td:last-child, th:last-child { text-align: left }
.alarm { color: #B00020 }
.legend { max-width: 620px; line-height: 20px }
.legend span { display: inline-block; margin-right: 14px; white-space: nowrap }
.legend i { display: inline-block; width: 20px; height: 11px; border: 1px solid #222222; margin-right: 5px }
nav { padding: 0 14px 4px; color: #555555 }
#note { height: 18px; padding: 0 14px; white-space: nowrap; overflow: hidden; text-overflow: ellipsis }
canvas { flex: 1; min-height: 200px; width: 100%; touch-action: none; cursor: grab }
</style>
</head>
<body>
"""
NAV = """<nav><button id="in" title="nearer">+</button> <button id="out" title="farther">&#8722;</button>
<button id="whole" title="the whole run">whole</button>
+ and &#8722; or Ctrl and the wheel zoom; the wheel, a drag and the arrow keys move</nav>
<div id="note">&nbsp;</div>
<canvas id="view"></canvas>
"""


def packed(octets: bytes) -> str:
    """Octets as the page has them."""
    return base64.b64encode(zlib.compress(octets, 9)).decode()


def looks_of(kind: Type[Look], losses: Sequence[Look]) -> List[Dict[str, Any]]:
    """The looks, by their codes."""
    return [{"words": look.words, "colour": look.colour, "loss": look in losses} for look in kind]


def data_of_call(
    picture: Picture, call: RecordedCall, lines: call_lines.CallLines
) -> Dict[str, Any]:
    """What the page has of a call, in the periods that are shown."""
    start, end = max(call.span.start, picture.first), min(call.span.end, picture.last)
    shown = slice(start - call.span.start, max(start, end) - call.span.start)
    bridges = run_lines.bridges_of(call, picture.run.bridges)
    return {
        "number": call.number,
        "start": start,
        "words": picture.row_words(call),
        "told": picture.outcomes[call.number].told(),
        "up": packed(looks.looks(call.brought())[shown]),
        "down": packed(lines.down),
        **{side: packed(lines.levels.get(side, b"")) for side in call_lines.LEVEL_SIDES},
        "shifts": [list(shift) for shift in call.shifts() if picture.shows(shift.period)],
        "waiting": [
            list(asked)
            for asked in run_lines.asked_while_frozen(call, bridges)
            if picture.shows(asked.period)
        ],
        "bridges": [
            {"start": bridge.start, "end": bridge.end, "partner": sum(bridge.calls) - call.number}
            for bridge in bridges
        ],
    }


def data_of(picture: Picture, lines: Dict[int, call_lines.CallLines]) -> Dict[str, Any]:
    """What the page's script draws."""
    return {
        "first": picture.first,
        "last": picture.last,
        "shape": picture.shape._asdict(),
        "colours": {"out": OUT_COLOUR, "pcm": PCM_COLOUR, "bridge": BRIDGE_COLOUR, "alarm": ALARM},
        "looks": looks_of(UplinkLook, LOSSES),
        "downLooks": looks_of(DownlinkLook, DOWN_LOSSES),
        "calls": [data_of_call(picture, call, lines[call.number]) for call in picture.run.calls],
        "orders": [
            {
                "period": each.order.stamp,
                "words": each.told(),
                "refused": each.reply.refusal is not None,
            }
            for each in picture.shown_orders()
        ],
    }


def totals(picture: Picture) -> Iterator[str]:
    """The outcome of the whole run: its calls, lost speech, refused orders, and lines that failed."""
    run, found = picture.run, picture.outcomes.values()
    speech, lost = sum(each.speech for each in found), sum(each.lost for each in found)
    rate = f"{100 * lost / (speech + lost):.2f} %" if speech + lost else "none"
    refused = sum(each.reply.refusal is not None for each in run.orders)
    yield f"<h1>{len(run.calls)} calls, periods {picture.first} to {picture.last}</h1>"
    yield f"<p>call periods {sum(call.periods() for call in run.calls)}, of them speech {speech}, speech lost {lost} ({rate})</p>"
    yield f"<p>calls with losses {sum(each.lost > 0 for each in found)}, bridges {len(run.bridges)}</p>"
    yield f"<p>orders {len(run.orders)}, refused {refused}</p>"
    failed = [name_of(call.number, side) for call in run.calls for side in call.failed]
    yield f"<p class='alarm'>lines that failed: {escape(' '.join(failed))}</p>" if failed else "<p>no line failed</p>"


def worst(picture: Picture) -> Iterator[str]:
    """The worst calls, in a table."""
    yield "<table><tr><th>worst calls</th><th>lost</th><th>periods</th><th>longest gap</th><th>at</th><th>end</th></tr>"
    for call in outcomes.worst_first(picture.run.calls)[:MOST_WORST]:
        outcome = picture.outcomes[call.number]
        cells = (
            f"{100 * outcome.rate():.2f} %",
            outcome.lost,
            f"{outcome.gap.length / PERIODS_A_SECOND:.2f} s",
        )
        place = f"period {call.span.start + outcome.gap.start}" if outcome.gap.length else ""
        end = escape(", ".join([call.span.cause, *(f"{side} failed" for side in call.failed)]))
        row = "".join(f"<td>{cell}</td>" for cell in (*cells, place, end))
        yield f"<tr><td><button data-call='{call.number}'>call {call.number}</button></td>{row}</tr>"
    yield "</table>"


def legend() -> Iterator[str]:
    """The colours."""
    entries = {look.words: look.colour for look in (*UplinkLook, *DownlinkLook)}
    entries["bridge"] = BRIDGE_COLOUR
    entries.update({"level of Out": OUT_COLOUR, "level of Pcm": PCM_COLOUR})
    hatched = "repeating-linear-gradient(135deg, #777777 0 1px, #FFFFFF 1px 4px)"
    for words, colour in entries.items():
        yield f"<span><i style='background: {hatched if colour.startswith('url') else colour}'></i>{escape(words)}</span>"


def page_of(picture: Picture, lines: Dict[int, call_lines.CallLines]) -> bytes:
    """The page of a picture, with the lines of its calls by single periods."""
    text = json.dumps(data_of(picture, lines), separators=(",", ":")).replace("<", "\\u003c")
    parts = (
        HEAD,
        f"<header><div>{''.join(totals(picture))}</div><div>{''.join(worst(picture))}</div>",
        f"<div class='legend'>{''.join(legend())}</div></header>\n",
        NAV,
        f'<script id="data" type="application/json">{text}</script>\n',
        f"<script>\n{SCRIPT.read_text()}</script>\n</body>\n</html>\n",
    )
    return "".join(parts).encode()
