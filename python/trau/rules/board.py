"""The rules of the board: which orders are accepted, and which calls and bridges there are
(docs/OPERATORS.md).

Every rule here is this project's profile. Periods are those of the run.
"""

import enum
from dataclasses import dataclass
from typing import Callable, Dict, List, Optional, Tuple

from trau.rules.orders import Order, Verb
from trau.rules.profile import MOST_PERIODS
from trau.rules.report import Reply


class OrderRefusal(enum.IntEnum):
    """Why an order is refused; the value is the number in the report (docs/OPERATORS.md,
    "Refusals")."""

    ALREADY_OPEN = 1
    NOT_OPEN = 2
    BRIDGED = 3
    NOT_BRIDGED = 4
    SAME_CALL = 5
    DRAINING = 6
    NUMBER_USED = 7


@dataclass
class Bridge:
    """A bridge: its calls as its order named them, its first period, and the one at whose start an
    order ended it, which is past all runs where none did."""

    calls: Tuple[int, int]
    start: int
    end: int = MOST_PERIODS

    def partner_of(self, call: int) -> int:
        """The other call (docs/OPERATORS.md, "Bridges")."""
        return self.calls[1] if self.calls[0] == call else self.calls[0]


class Board:
    """What is known as orders are executed, one after another. `end_of` has the period at which the
    lines of a call end, by the order that opens it; None where nobody knows (docs/OPERATORS.md,
    "When an order takes effect")."""

    def __init__(self, end_of: Callable[[Order], Optional[int]]) -> None:
        self.end_of = end_of
        self.opened: Dict[int, Order] = {}  # the order that opened each call
        self.ends: Dict[int, Optional[int]] = {}  # of the open calls
        self.closed: Dict[int, int] = {}  # the stamps of accepted `close` orders
        self.bridges: List[Bridge] = []  # all, in the order in which they were accepted
        self.bridge_of: Dict[int, Bridge] = {}  # of the calls that are bridged
        self.ended: Dict[int, Bridge] = {}  # of each call the last bridge that an order ended

    def execute(self, order: Order) -> Reply:
        """Executes an order (docs/OPERATORS.md, "When an order takes effect")."""
        self.end_calls(order.stamp)
        reply = self.reply(order)
        if reply.refusal is None:
            self.accept(order)
        return reply

    def end_calls(self, stamp: int) -> None:
        """Ends the calls whose natural end is below this stamp; with a call ends its bridge
        (docs/OPERATORS.md, "Ends and their causes")."""
        for call in [call for call, end in self.ends.items() if end is not None and end < stamp]:
            del self.ends[call]
            self.end_bridge(call)

    def end_bridge(self, call: int) -> Optional[Bridge]:
        """Ends the bridge of a call, if it has one (docs/OPERATORS.md, "Bridges")."""
        bridge = self.bridge_of.get(call)
        for each in bridge.calls if bridge else ():
            del self.bridge_of[each]
        return bridge

    def reply(self, order: Order) -> Reply:
        """The first reason in the stated order for which an order is refused, or none
        (docs/OPERATORS.md, "Refusals")."""
        first = order.calls[0]
        if order.verb is Verb.OPEN:
            if first in self.ends:
                return Reply(OrderRefusal.ALREADY_OPEN, first)
            return Reply(OrderRefusal.NUMBER_USED, first) if first in self.opened else Reply()
        if order.verb is Verb.BRIDGE and first == order.calls[1]:
            return Reply(OrderRefusal.SAME_CALL, first)
        for call in order.calls:
            if call not in self.ends:
                return Reply(OrderRefusal.NOT_OPEN, call)
        if order.verb is Verb.UNBRIDGE and first not in self.bridge_of:
            return Reply(OrderRefusal.NOT_BRIDGED, first)
        return self.reply_to_bridge(order) if order.verb is Verb.BRIDGE else Reply()

    def reply_to_bridge(self, order: Order) -> Reply:
        """Why a bridge of open calls is refused: a call is bridged, or its bridge was ended in this
        very period (docs/OPERATORS.md, "Refusals")."""
        for call in order.calls:
            if call in self.bridge_of:
                return Reply(OrderRefusal.BRIDGED, call, self.bridge_of[call].partner_of(call))
        for call in order.calls:
            if call in self.ended and self.ended[call].end == order.stamp:
                return Reply(OrderRefusal.DRAINING, call, self.ended[call].partner_of(call))
        return Reply()

    def accept(self, order: Order) -> None:
        """Does what an accepted order says (docs/OPERATORS.md, "Orders")."""
        first = order.calls[0]
        if order.verb is Verb.OPEN:
            self.opened[first] = order
            self.ends[first] = self.end_of(order)
        elif order.verb is Verb.BRIDGE:
            bridge = Bridge((first, order.calls[1]), order.stamp)
            self.bridges.append(bridge)
            self.bridge_of.update(dict.fromkeys(order.calls, bridge))
        elif order.verb in (Verb.UNBRIDGE, Verb.CLOSE):
            ended = self.end_bridge(first)
            if ended:
                ended.end = order.stamp
                self.ended.update(dict.fromkeys(ended.calls, ended))
            if order.verb is Verb.CLOSE:
                del self.ends[first]
                self.closed[first] = order.stamp
