"""Lines that are drawn from a number, the orders of a drill, and what a run makes of both
(docs/commands/drill.md, docs/commands/live.md).

All of it is this project's profile.
"""

from itertools import islice
from typing import Iterator, List, NamedTuple, Sequence

from trau.rules import profile
from trau.rules.frame import Bits, FrameKind, UpFrame, octets_of, write_up
from trau.rules.orders import Order, read_order
from trau.rules.report import text_of

from trau.model.checkpoint import sum_of
from trau.model.farm import Farm, IncomingLines, farm_of, plan_of, report_of
from trau.model.outside import Given


class Drawn(NamedTuple):
    """What is drawn for a period of a call: 40 octets of Up and 160 of Pcm."""

    up: bytes
    pcm: bytes


def draws(seed: int, call: int) -> Iterator[int]:
    """The draws of a call: the highest octet of each state of a generator of 32 bits
    (docs/commands/drill.md, "What is drawn")."""
    state = (seed * profile.DRILL_CALLS + call) % profile.DRILL_MODULUS
    while True:
        state = (profile.DRILL_FACTOR * state + profile.DRILL_ADD) % profile.DRILL_MODULUS
        yield state * profile.DRILL_DRAWS // profile.DRILL_MODULUS


def drawn_period(source: Iterator[int], period: int) -> Drawn:
    """A period: a draw for the frame, 260 for its data bits, one for its field, and 160 or none for
    Pcm (docs/commands/drill.md, "What is drawn")."""
    frame = next(source)
    data = "".join([str(draw * 2 // profile.DRILL_DRAWS) for draw in islice(source, 260)])
    field = profile.DRILL_FIELDS.get(next(source), 0)
    is_drawn = period // profile.DRILL_PCM_PERIODS % 2 == 1
    pcm = islice(source, profile.PCM_OCTETS) if is_drawn else [profile.IDLE_A] * profile.PCM_OCTETS
    return Drawn(uplink_octets(frame, data, field, period), bytes(pcm))


def uplink_octets(draw: int, data: Bits, field: int, period: int) -> bytes:
    """The octets of Up that a draw stands for: a frame, also an idle one, with the drawn data bits,
    or no frame and zeros (docs/commands/drill.md, "What is drawn")."""
    kind = next(kind for least, kind in profile.DRILL_FRAMES if draw >= least)
    if kind is None:
        return bytes(profile.FRAME_OCTETS)
    taf = period % profile.DRILL_TAF_PERIODS == profile.DRILL_TAF_PERIODS - 1
    return octets_of(write_up(UpFrame(FrameKind(kind), taf, True, field, data)))


def drawn_lines(seed: int, call: int, periods: int) -> IncomingLines:
    """The incoming lines of a call: its periods in order, each from the draws after those of the
    period before (docs/commands/drill.md, "What is drawn")."""
    source = draws(seed, call)
    drawn = [drawn_period(source, period) for period in range(periods)]
    up, pcm = (b"".join(period[side] for period in drawn) for side in (0, 1))
    return IncomingLines(Given(up, False), Given(pcm, False))


def drawn_orders(calls: int, periods: int) -> List[Order]:
    """The orders of a drill: all calls open at 0; of each four the first is bridged with the next
    from a quarter to the half (docs/commands/drill.md, "What is drawn")."""
    firsts = [call for call in range(1, calls) if call % profile.DRILL_BRIDGE_CALLS == 1]
    lines = [f"0 open {call}" for call in range(1, calls + 1)]
    lines += [f"{periods // 4} bridge {call} {call + 1}" for call in firsts]
    lines += [f"{periods // 2} unbridge {call}" for call in firsts]
    return [read_order(place, line) for place, line in enumerate(lines, 1)]


def drawn_farm(seed: int, calls: int, periods: int, orders: Sequence[Order]) -> Farm:
    """What a run of so many periods makes of the drawn lines and of orders
    (docs/commands/drill.md)."""
    incoming = {call: drawn_lines(seed, call, periods) for call in range(1, calls + 1)}
    return farm_of(plan_of(orders, periods, incoming))


def sum_lines(farm: Farm) -> List[str]:
    """`sum C out X down Y` of each call: the sums of the octets of its outgoing lines
    (docs/commands/drill.md, "Example")."""
    return [
        f"sum {call.number} out {sum_of(call.outgoing.out)} down {sum_of(call.outgoing.down)}"
        for call in farm.calls
    ]


def drill_text(seed: int, calls: int, periods: int) -> str:
    """The text of a drill: the report of its run, and the sums (docs/commands/drill.md)."""
    farm = drawn_farm(seed, calls, periods, drawn_orders(calls, periods))
    return report_of(farm, []).text() + text_of(sum_lines(farm))


def live_text(seed: int, calls: int, periods: int) -> str:
    """The text of a live drill, in which calls only open: the sums, and how many periods and calls
    there were (docs/commands/live.md). Which caller posts and works a period changes nothing, so
    nothing of callers and inboxes is here."""
    opens = [read_order(call, f"0 open {call}") for call in range(1, calls + 1)]
    return text_of(
        [
            *sum_lines(drawn_farm(seed, calls, periods, opens)),
            f"live periods {periods} calls {calls}",
        ]
    )
