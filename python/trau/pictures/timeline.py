"""Draws a run as one picture, as SVG or as an HTML page that zooms: a row for each call shows what
every period of its uplink gave, its downlink, levels, bridges, shifts and orders.

It reads the folder of a run, with the calls' lines, the orders and the report, and searches the
uplinks itself. If its counts aren't those of the report, or a file isn't what it should be, it
prints one line on standard error, exits with status 2 and writes nothing.
"""


import argparse
from pathlib import Path
from typing import Sequence

from trau.command_line.ends import tool
from trau.command_line.files import write_file
from trau.command_line.side_by_side import PROCESSES
from trau.command_line.words import Refusal, Words, number_within, option
from trau.pictures import looks, picture_page
from trau.pictures.layout import COMPACT, FULL, WITHOUT_LEVELS
from trau.pictures.picture import Picture
from trau.rules.lines import SIDES, name_of
from trau.rules.profile import MOST_PERIODS
from trau.runs import outcomes, run_texts
from trau.runs.run_lines import Run

MOST_FULL_ROWS = 40
WIDTHS = 200, 100_000  # the least and the greatest, in pixels
PICTURES = (".svg", ".html")  # how the names of pictures end


def draw(asked: argparse.Namespace) -> Run:
    """Draws the picture, and gives the run."""
    if asked.picture.suffix not in PICTURES:
        raise Refusal(f"{asked.picture}: a picture's name ends with {' or '.join(PICTURES)}")
    run = Run.read(asked.folder, asked.orders, asked.report, asked.calls, asked.processes)
    first = run.start() if asked.first is None else asked.first
    last = max(first + 1, run.end()) if asked.last is None else asked.last
    if first >= last:
        raise Refusal(f"there are no periods from {first} to {last}")
    run.calls = [call for call in run.calls if call.span.start <= last and call.span.end >= first]
    calls = {call.number: call for call in run.calls}
    rows = looks.order_of_rows(list(calls), [bridge.calls for bridge in run.bridges])
    run.calls = (
        outcomes.worst_first(run.calls)
        if asked.sort == "worst"
        else [calls[number] for number in rows]
    )
    if not run.calls:
        raise Refusal(f"no call is open from {first} to {last}")
    shapes = {
        "auto": FULL if len(run.calls) <= MOST_FULL_ROWS else COMPACT,
        "full": FULL,
        "plain": WITHOUT_LEVELS,
        "compact": COMPACT,
    }
    drawn = Picture(run, asked.width, shapes[asked.rows], first, last)
    if asked.picture.suffix == ".html":
        content = picture_page.page_of(drawn, drawn.read_lines(1, asked.processes))
    else:
        content = drawn.draw(asked.processes)
    lines = [asked.folder / name_of(call.number, side) for call in run.calls for side in SIDES]
    write_file(
        asked.picture,
        content,
        [path for path in (asked.orders, asked.report, *lines) if path.exists()],
    )
    return run


@tool("timeline.py")
def main(words: Sequence[str]) -> int:
    """Runs the words of the command line, and returns the exit status."""
    parser = Words(
        __doc__,
        option(
            "folder",
            type=Path,
            metavar="FOLDER",
            help="the folder of the run, with the calls' lines",
        ),
        option(
            "picture",
            type=Path,
            metavar="OUT",
            help="the picture to write: OUT.svg, or OUT.html, which zooms",
        ),
        run_texts.ORDERS,
        run_texts.REPORT,
        option(
            "--width",
            type=number_within(*WIDTHS),
            default=1300,
            metavar="PIXELS",
            help="the width of all periods (default 1300)",
        ),
        run_texts.CALLS,
        option(
            "--from",
            type=number_within(0, MOST_PERIODS),
            dest="first",
            metavar="PERIOD",
            help="the first period to draw",
        ),
        option(
            "--to",
            type=number_within(0, MOST_PERIODS),
            dest="last",
            metavar="PERIOD",
            help="the period after the last one to draw",
        ),
        option(
            "--rows",
            choices=("auto", "full", "plain", "compact"),
            default="auto",
            help="full: with the levels of Out and Pcm; plain: without them; compact: narrow; auto: full up to"
            f" {MOST_FULL_ROWS} calls, compact for more",
        ),
        option(
            "--sort",
            choices=("number", "worst"),
            default="number",
            help="number: in call-number order, bridge partners next to each other; worst: failed lines first, then by the part of"
            " the speech that was lost and by the longest gap",
        ),
        PROCESSES,
        epilog="example: timeline.py . run.svg, in a folder where `trau run <orders.txt >report.txt` was run",
    )
    asked = parser.parse_args(words)
    asked.orders = asked.orders or asked.folder / "orders.txt"
    asked.report = asked.report or asked.folder / "report.txt"
    run = draw(asked)
    shifts = sum(1 for call in run.calls for _ in call.shifts())
    refused = sum(each.reply.refusal is not None for each in run.orders)
    print(
        f"timeline calls {len(run.calls)} from {run.start()} to {run.end()} bridges {len(run.bridges)}"
        f" shifts {shifts} refused {refused}"
    )
    return 0
