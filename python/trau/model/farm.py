"""A run: orders and lines in, the octets of each outgoing line and the report out
(docs/commands/run.md).

A run is a function of its orders, its number of periods and what its incoming lines gave. Rounds
matter only where a line fails: how far lines are read ahead decides which failures come to light.
All rules of this module are this project's profile.
"""

import enum
from dataclasses import replace
from typing import Dict, List, Mapping, NamedTuple, Optional, Sequence

from trau.rules import profile, report
from trau.rules.board import Board, Bridge
from trau.rules.lines import DOWN, INCOMING, OCTETS_OF_SIDE, OUT, SIDES
from trau.rules.orders import Order, Verb
from trau.rules.report import COUNTS, FailedLine, Reply, Report

from trau.model.call import (
    Call,
    OutgoingLines,
    Setting,
    BridgeSpan,
    Uplink,
    handed,
    outgoing,
    uplink,
)
from trau.model.downlink import Extent
from trau.model.outside import Given, Lines
from trau.model.transmit import Dtx


class Cause(enum.Enum):
    """Why a call ended; the value is the report's word (docs/OPERATORS.md, "Ends and their
    causes")."""

    CLOSED = "closed"
    LIMIT = "limit"
    END = "end"
    FAULT = "fault"


class End(NamedTuple):
    """The first period that a call doesn't have, and why: of `END` and `FAULT` the line's side, of
    `END` also the octets of that line after the whole periods."""

    at: int
    cause: Cause
    side: Optional[str] = None
    left: int = 0

    def words(self) -> str:
        """`closed`, `limit`, `end SIDE LEFT` or `fault SIDE` (docs/OPERATORS.md, "Ends and their
        causes")."""
        side = f" {self.side}" if self.side else ""
        return self.cause.value + side + (f" {self.left}" if self.cause is Cause.END else "")


class IncomingLines(NamedTuple):
    """What the two incoming lines of a call gave."""

    up: Given
    pcm: Given

    @property
    def periods(self) -> int:
        """The number of whole periods that both lines give (docs/FILES.md)."""
        return min(len(given.octets) // OCTETS_OF_SIDE[side] for side, given in zip(INCOMING, self))


class RunPlan(NamedTuple):
    """All of a run that is known without working any octet. `accepted` has the accepted orders,
    `bridges` the bridges with their ends."""

    orders: Sequence[Order]
    periods: int
    left: int
    incoming: Mapping[int, IncomingLines]
    opening: Mapping[int, int]
    replies: Sequence[Reply]
    accepted: Sequence[Order]
    ends: Mapping[int, End]
    bridges: Sequence[Bridge]


class CallOfRun(NamedTuple):
    """A call of a run: its number, its first period, its end, and what it sent."""

    number: int
    opening: int
    end: End
    outgoing: OutgoingLines


class Farm(NamedTuple):
    """What a run gives: the replies, the bridges as they were accepted, the calls by number, the
    orders that weren't executed."""

    replies: Sequence[Reply]
    bridges: Sequence[report.ReportedBridge]
    calls: Sequence[CallOfRun]
    left: int


# What is read


def executed(orders: Sequence[Order], periods: int) -> List[Order]:
    """The orders that a run of so many periods executes: those with a stamp below that
    (docs/OPERATORS.md, "When an order takes effect")."""
    return [order for order in orders if order.stamp < periods]


def openings(orders: Sequence[Order]) -> Dict[int, int]:
    """The opening of each call, by number: the stamp of its first `open`, which is never refused
    (docs/OPERATORS.md, "When an order takes effect")."""
    return {order.calls[0]: order.stamp for order in reversed(orders) if order.verb is Verb.OPEN}


def last_moments(orders: Sequence[Order], periods: int) -> Dict[int, int]:
    """For each opened call the period past which it can't go: the stamp of its first `close` after
    its `open`, else `periods` (docs/OPERATORS.md, "When an order takes effect").

    That `close` is accepted, or the call's lines have ended by then. A call for which this is its
    opening has no period.
    """
    latest: Dict[int, int] = {}
    closed: Dict[int, int] = {}
    for order in orders:
        if order.verb is Verb.OPEN:
            latest.setdefault(order.calls[0], periods)
        elif order.verb is Verb.CLOSE and order.calls[0] in latest:
            closed.setdefault(order.calls[0], order.stamp)
    return {**latest, **closed}


def read_incoming(orders: Sequence[Order], periods: int, lines: Lines) -> Dict[int, IncomingLines]:
    """What the incoming lines of each opened call gave, as far as the run can need them, Up before
    Pcm, by rising number (docs/OPERATORS.md, "When an order takes effect").

    A call that can have no period, as it is closed where it is opened, isn't read at all."""
    known = executed(orders, periods)
    opening, last = openings(known), last_moments(known, periods)
    given = {}
    for number in sorted(opening):
        most = last[number] - opening[number]
        up, pcm = (
            lines.read(number, side, most * OCTETS_OF_SIDE[side]) if most else Given(b"", False)
            for side in INCOMING
        )
        given[number] = IncomingLines(up, pcm)
    return given


# What follows from orders and lines


def plan_of(
    orders: Sequence[Order], periods: int, incoming: Mapping[int, IncomingLines]
) -> RunPlan:
    """Replies, ends and bridges of a run that ends at so many periods, over what its incoming lines
    gave (docs/commands/run.md)."""
    known = executed(orders, periods)
    opening = openings(known)
    board = Board(lambda order: order.stamp + incoming[order.calls[0]].periods)
    replies = [board.execute(order) for order in known]
    accepted = [order for order, reply in zip(known, replies) if reply.refusal is None]
    ends = {
        number: end_of(opening[number], incoming[number], board.closed.get(number), periods)
        for number in sorted(opening)
    }
    bridges = [ended_bridge(bridge, ends) for bridge in board.bridges]
    return RunPlan(
        known,
        periods,
        len(orders) - len(known),
        incoming,
        opening,
        replies,
        accepted,
        ends,
        bridges,
    )


def ended_bridge(bridge: Bridge, ends: Mapping[int, End]) -> Bridge:
    """A bridge with its end: by the order that ended it, or with the first of its calls that ends
    (docs/OPERATORS.md, "Bridges")."""
    return replace(bridge, end=min(bridge.end, *(ends[call].at for call in bridge.calls)))


def end_of(opening: int, incoming: IncomingLines, closing: Optional[int], periods: int) -> End:
    """A call's end: `closed` goes before `limit`, and `limit` before the ends of its lines, of
    which Up goes before Pcm (docs/OPERATORS.md, "Ends and their causes")."""
    natural = opening + incoming.periods
    if closing is not None:
        return End(closing, Cause.CLOSED)
    if natural >= periods:
        return End(periods, Cause.LIMIT)
    ended = (
        each
        for each in zip(INCOMING, incoming)
        if len(each[1].octets) // OCTETS_OF_SIDE[each[0]] == incoming.periods
    )
    side, given = next(ended)
    return (
        End(natural, Cause.FAULT, side)
        if given.failed
        else End(natural, Cause.END, side, len(given.octets) % OCTETS_OF_SIDE[side])
    )


# What the calls send


def farm_of(plan: RunPlan) -> Farm:
    """The octets and counts of each call of a run, and what went out in each bridge
    (docs/commands/run.md)."""
    uplinks = {
        number: uplink(
            number,
            plan.incoming[number].up.octets[
                : profile.FRAME_OCTETS * (end.at - plan.opening[number])
            ],
        )
        for number, end in plan.ends.items()
    }
    calls = {number: _call_of(plan, uplinks, number) for number in plan.ends}
    return Farm(
        plan.replies,
        [_reported(plan, calls, bridge) for bridge in plan.bridges],
        list(calls.values()),
        plan.left,
    )


def _reported(
    plan: RunPlan, calls: Mapping[int, CallOfRun], bridge: Bridge
) -> report.ReportedBridge:
    """A bridge's calls and periods; of the frames of each how many went out on the other's
    downlink, and how many were lost (docs/OPERATORS.md, "The report, line by line")."""

    def sent_to(call: int) -> int:
        return calls[call].outgoing.sent[_bridges_of_call(plan, call).index(bridge)]

    one, other = bridge.calls
    sent, periods = (sent_to(other), sent_to(one)), bridge.end - bridge.start
    lost = (periods - sent[0], periods - sent[1])
    return report.ReportedBridge(bridge.calls, bridge.start, bridge.end, sent, lost)


def _call_of(plan: RunPlan, uplinks: Mapping[int, Uplink], number: int) -> CallOfRun:
    """One call of a run, from its own lines and orders, and in bridges from its partner's uplink
    (docs/commands/run.md)."""
    opening, end = plan.opening[number], plan.ends[number]
    spans = [
        _span_of_call(plan, uplinks, number, bridge) for bridge in _bridges_of_call(plan, number)
    ]
    settings = [
        _setting(order, opening)
        for order in plan.accepted
        if order.verb in (Verb.LEVEL, Verb.DTX) and order.calls[0] == number
    ]
    pcm = plan.incoming[number].pcm.octets
    law = next(
        order.law()
        for order in plan.accepted
        if order.verb is Verb.OPEN and order.calls[0] == number
    )
    sent = outgoing(Call(number, law, end.at - opening, uplinks[number], pcm, settings, spans))
    return CallOfRun(number, opening, end, sent)


def _setting(order: Order, opening: int) -> Setting:
    """A `level` or `dtx` order as the call sees it, its period counted from the call's opening
    (docs/OPERATORS.md, "Orders")."""
    if order.verb is Verb.LEVEL:
        return Setting(order.stamp - opening, level=int(order.value()))
    return Setting(order.stamp - opening, dtx=Dtx(order.value()))


def _bridges_of_call(plan: RunPlan, number: int) -> List[Bridge]:
    """The bridges of a call, in order (docs/OPERATORS.md, "Bridges")."""
    return [bridge for bridge in plan.bridges if number in bridge.calls]


def _span_of_call(
    plan: RunPlan, uplinks: Mapping[int, Uplink], number: int, bridge: Bridge
) -> BridgeSpan:
    """A bridge as one of its calls sees it: its own periods, and what its partner hands over in
    these (docs/OPERATORS.md, "Bridges")."""
    partner = bridge.partner_of(number)
    opening, of_partner = plan.opening[number], plan.opening[partner]
    items = handed(uplinks[partner], bridge.start - of_partner, bridge.end - of_partner)
    return BridgeSpan(bridge.start - opening, bridge.end - opening, items)


# What is read ahead, and what fails


def rounds(plan: RunPlan, batch: int, also: Sequence[int] = ()) -> List[Extent]:
    """The rounds of a run (docs/commands/run.md).

    Where a call is open at the clock, a round goes to the next stamp, to the run's end or as far as
    the batch allows; where none is, the clock goes to the next stamp. A round doesn't pass the
    periods `also` named."""
    stops = sorted({order.stamp for order in plan.orders} | set(also) | {plan.periods})
    clock = 0
    found: List[Extent] = []
    while clock < plan.periods:
        following = next(stop for stop in stops if stop > clock)
        is_round = any(is_read_at(plan, number, clock) for number in plan.ends)
        stop = min(clock + batch, following) if is_round else following
        found += [Extent(clock, stop)] if is_round else []
        clock = stop
    return found


def is_read_at(plan: RunPlan, number: int, clock: int) -> bool:
    """Whether a call's lines are read in a round that begins at the clock: it is open there after
    the orders of that stamp (docs/OPERATORS.md, "Faults").

    At its natural end a call is open still: that its lines have ended is seen by reading on."""
    end = plan.ends[number]
    return plan.opening[number] <= clock and (
        clock < end.at if end.cause in (Cause.CLOSED, Cause.LIMIT) else clock <= end.at
    )


def faults_met(plan: RunPlan, batch: int, also: Sequence[int] = ()) -> List[FailedLine]:
    """The incoming lines that failed in a run: those of which a round asked for more octets than
    they gave before a failure (docs/OPERATORS.md, "Faults")."""
    failing = [
        number for number, both in plan.incoming.items() if both.up.failed or both.pcm.failed
    ]
    turns = rounds(plan, batch, also) if failing else []
    found: List[FailedLine] = []
    for number in failing:
        asked = [
            turn.end - plan.opening[number]
            for turn in turns
            if is_read_at(plan, number, turn.start)
        ]
        most, both = max(asked, default=0), zip(INCOMING, plan.incoming[number])
        found += [
            FailedLine(number, SIDES.index(side))
            for side, given in both
            if given.failed and len(given.octets) < most * OCTETS_OF_SIDE[side]
        ]
    return found


def write_outgoing(farm: Farm, lines: Lines, since: int = 0) -> List[FailedLine]:
    """Writes the octets of all calls' periods from `since` on, Down before Out, by number, and
    answers the lines that failed (docs/commands/run.md).

    A line that has no octets isn't touched."""
    failed: List[FailedLine] = []
    for call in farm.calls:
        past = max(0, since - call.opening)
        for side, octets in ((DOWN, call.outgoing.down), (OUT, call.outgoing.out)):
            fresh = octets[OCTETS_OF_SIDE[side] * past :]
            if fresh and not lines.write(call.number, side, fresh):
                failed.append(FailedLine(call.number, SIDES.index(side)))
    return failed


def report_of(farm: Farm, failed: Sequence[FailedLine]) -> Report:
    """The report: replies, bridges, calls with their counts, and the lines that failed
    (docs/OPERATORS.md, "The report, line by line")."""
    calls = {
        call.number: report.ReportedCall(
            call.opening, call.end.at, call.end.words(), dict(zip(COUNTS, call.outgoing.counts))
        )
        for call in farm.calls
    }
    return Report(list(farm.replies), list(farm.bridges), calls, list(failed), farm.left)
