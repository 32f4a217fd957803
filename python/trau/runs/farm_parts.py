"""The parts of a farm that run independently, and which calls are in each.

The octets of a call depend only on its own lines and orders and on its bridge partners. So calls
that a `bridge` order names stay together, even if the order is refused, since a refusal looks at
both. All other calls may run anywhere.
"""

from dataclasses import dataclass
from typing import Dict, FrozenSet, List, Sequence, Tuple

from trau.rules.orders import Order


def components(orders: Sequence[Order]) -> List[FrozenSet[int]]:
    """The calls that the orders name, in sets that `bridge` orders join, by their least calls."""
    joined: Dict[int, FrozenSet[int]] = {}
    for order in orders:
        sets = {joined.get(call, frozenset([call])) for call in order.calls}
        together = frozenset().union(*sets)
        if len(sets) > 1 or not together <= joined.keys():
            joined.update(dict.fromkeys(together, together))
    return sorted(set(joined.values()), key=min)


@dataclass
class FarmPart:
    """Calls that run together, and how many periods their lines have."""

    calls: FrozenSet[int] = frozenset()
    periods: int = 0


def parts_of(pieces: Sequence[Tuple[int, FrozenSet[int]]], count: int) -> List[FarmPart]:
    """At most `count` parts of about the same work: the heaviest piece goes first, to the part that
    has least."""
    parts = [FarmPart() for _ in range(count)]
    for periods, calls in sorted(pieces, key=lambda piece: (-piece[0], min(piece[1]))):
        least = min(parts, key=lambda part: (part.periods, len(part.calls)))
        least.calls |= calls
        least.periods += periods
    return [part for part in parts if part.calls]
