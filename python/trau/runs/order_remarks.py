"""What is said, before a run, of orders that are in the grammar: which ones it will refuse, and which
lines of the calls aren't as they should be."""

from pathlib import Path
from typing import List, NamedTuple, Optional, Sequence, Tuple

from trau.rules.board import Board, OrderRefusal
from trau.rules.lines import INCOMING, incoming_periods
from trau.rules.orders import Order, Verb
from trau.rules.report import Reply
from trau.runs.line_remarks import has_unending, note_on_periods, warning_of_line
from trau.runs.outgoing import said_of_outgoing


def board_of(folder: Optional[Path]) -> Board:
    """The board before any order. Where a folder of lines is given, calls also end with their
    lines, unless nobody knows where these end."""

    def end_of(order: Order) -> Optional[int]:
        if folder is None or has_unending(folder, order.calls[0]):
            return None
        return order.stamp + incoming_periods(folder, order.calls[0])

    return Board(end_of)


def said_of_refusal(board: Board, refusal: OrderRefusal, reply: Reply) -> str:
    """Why an order is refused, by its lines and calls."""
    call, partner = reply.call, reply.partner
    line = board.opened[call].number if call in board.opened else None
    return {
        OrderRefusal.ALREADY_OPEN: f"call {call} is open since line {line}",
        OrderRefusal.NOT_OPEN: f"call {call} " + ("has ended" if line else "isn't open"),
        OrderRefusal.BRIDGED: f"call {call} is bridged with call {partner}",
        OrderRefusal.NOT_BRIDGED: f"call {call} isn't bridged",
        OrderRefusal.SAME_CALL: f"a bridge of call {call} with itself",
        OrderRefusal.DRAINING: f"the bridge of call {call} with call {partner} was ended in this very period",
        OrderRefusal.NUMBER_USED: f"call {call} was opened by line {line}",
    }[refusal]


class Remarks(NamedTuple):
    """What is said of orders that are in the grammar, by the lines' numbers: warnings, and notes on
    what is no fault."""

    warnings: List[Tuple[int, str]]
    notes: List[Tuple[int, str]]


def remarks_on(orders: Sequence[Order], folder: Optional[Path]) -> Remarks:
    """What is said of orders, and of the lines in the folder, if it is given."""
    board, found = board_of(folder), Remarks([], [])
    for order in orders:
        reply = board.execute(order)
        if reply.refusal is not None:
            found.warnings.append(
                (
                    order.number,
                    f"the run will refuse it ({reply.refusal:d}): {said_of_refusal(board, OrderRefusal(reply.refusal), reply)}",
                )
            )
        elif order.verb is Verb.OPEN and folder is not None:
            said = (warning_of_line(folder, order, side) for side in INCOMING)
            found.warnings.extend((order.number, each) for each in said if each)
            note = note_on_periods(folder, order)
            found.notes.extend([(order.number, note)] if note else [])
            for warns, what in said_of_outgoing(folder, order.calls[0]):
                (found.warnings if warns else found.notes).append((order.number, what))
    return found
