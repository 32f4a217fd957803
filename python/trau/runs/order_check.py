"""The command of orders.py that says what is wrong with orders, and with a mark before them."""

import argparse
from pathlib import Path
from typing import Dict, List, Optional, Sequence, Tuple

from trau.command_line.files import read_file
from trau.command_line.words import Refusal, option, switch
from trau.recordings import file_kinds
from trau.recordings.file_descriptions import FileKind
from trau.rules.orders import Order
from trau.rules.profile import MOST_MARKED_OCTETS, MOST_ORDERS, MOST_ORDER_OCTETS
from trau.runs import marks
from trau.runs.order_remarks import board_of, remarks_on
from trau.runs.order_text import Text


def open_at(orders: Sequence[Order], folder: Optional[Path], period: int) -> Dict[int, int]:
    """The calls that are open at a period, before its orders, and the periods at which they were
    opened."""
    board = board_of(folder)
    for order in orders:
        if order.stamp < period:
            board.execute(order)
    board.end_calls(period)
    return {call: board.opened[call].stamp for call in board.ends}


def warnings_of_mark(
    mark: marks.CheckedMark, orders: Sequence[Order], folder: Optional[Path]
) -> List[Tuple[int, str]]:
    """What differs between a mark's calls and those that the orders have open at its period, by the
    mark's lines. Without the folder of the lines a call may have ended with its lines, so that a
    call that the mark hasn't says nothing."""
    opened, found = open_at(orders, folder, mark.period), []
    for call, line in mark.lines_of_calls.items():
        if call not in opened:
            found.append(
                (line, f"these orders don't have call {call} open at period {mark.period}")
            )
        elif opened[call] != mark.openings[call]:
            found.append((line, f"these orders open call {call} at period {opened[call]}"))
    if folder is not None:
        absent = sorted(opened.keys() - mark.openings.keys())
        found += [
            (mark.lines, f"these orders have call {call} open at period {mark.period}")
            for call in absent
        ]
    return [(line, f"warning: trau resume will refuse the mark: {what}") for line, what in found]


def print_faults(what: str, said: Sequence[Tuple[int, str]]) -> None:
    """Prints what is said of lines, in their order."""
    for line, each in sorted(said, key=lambda pair: pair[0]):
        print(f"{what} {line}: {each}")


def check_marked(words: argparse.Namespace, octets: bytes) -> int:
    """Says what is wrong with a mark and the orders after it."""
    mark, rest = marks.read_mark(octets)
    text = Text.read(rest)
    faults = list(mark.faults.items())
    compared = not mark.faults and not text.faults
    print_faults(
        "mark line",
        faults or (warnings_of_mark(mark, text.orders, words.lines) if compared else []),
    )
    too_long = len(octets) > MOST_MARKED_OCTETS
    if too_long:
        print(
            f"too long: {len(octets):,} octets; the program takes {MOST_MARKED_OCTETS:,} with the mark"
        )
    print(f"mark lines {mark.lines} bad {len(mark.faults)}")
    status = say_of_orders(words, text, len(rest))
    return 1 if mark.faults or too_long else status


def check(words: argparse.Namespace) -> int:
    """Prints what is wrong with each bad line, by the number that `trau run` prints as `orders line
    N`, and the number and cause of each refusal that the run will give. The last line counts:
    `orders N bad B warnings W`. Status 0: the run takes the orders. Status 1: a line is bad, or
    they are too long. Status 2: they can't be read.

    With --mark it also prints what is wrong with the mark before the orders, by the number that
    `trau resume` prints as `save line N`, and which of its calls these orders don't have open, for
    which `trau resume` prints `save differs C`. `mark lines N bad B` counts, and what is said of
    the orders follows."""
    if words.lines is not None and not words.lines.is_dir():
        raise Refusal(f"{words.lines}: isn't a folder")
    octets = read_file(words.orders)
    file_kinds.refuse_other(words.orders, octets, "no orders", FileKind.TEXT)
    return (
        check_marked(words, octets)
        if words.mark
        else say_of_orders(words, Text.read(octets), len(octets))
    )


def say_of_orders(words: argparse.Namespace, text: Text, octets: int) -> int:
    """Says what is wrong with orders of so many octets."""
    said = list(text.faults.items())
    remarks = remarks_on(text.orders, words.lines)
    said += [(line, f"warning: {what}") for line, what in remarks.warnings]
    said += [(line, f"note: {what}") for line, what in remarks.notes]
    print_faults("line", said)
    too_long = octets > MOST_ORDER_OCTETS or text.lines > MOST_ORDERS
    if too_long:
        print(
            f"too long: {octets:,} octets and {text.lines:,} lines; the program takes {MOST_ORDER_OCTETS:,} octets and {MOST_ORDERS:,} lines"
        )
    print(f"orders {text.lines} bad {len(text.faults)} warnings {len(remarks.warnings)}")
    return 1 if text.faults or too_long else 0


CHECK_OPTIONS = (
    option(
        "orders",
        type=Path,
        metavar="ORDERS",
        help="the file of the orders, or - for standard input",
    ),
    option(
        "--lines",
        type=Path,
        metavar="FOLDER",
        help="the folder of the calls' incoming lines: calls then end with their lines, as in a run. It warns of missing lines and of"
        " lines that aren't what their names say, and notes the periods of the longer line that won't be used, and links by which a run"
        " writes other files. Without it"
        " calls end only by orders",
    ),
    switch(
        "--mark",
        "the file is what `trau resume` reads: a mark, as `trau save` prints it, and after it the orders of the whole run",
    ),
)
