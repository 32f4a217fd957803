"""All frames of 16 kbit/s in octets of slots, by big integers: every slot, channel and bit at once.

The octets of a slot are `stride` octets apart: 32 on an E1 line, 1 in a slot alone. So the two bits
of a channel's pair are neighbours, and the channel's next pair is 8 * stride bits on. A frame that
begins with a pair is even: its nineteen sync ones are the first bits of pairs. One that begins with
a pair's second bit is odd. Both patterns are those of `search.FRAME_OF_DOWNLINK` up to the last
sync bit, f[304] of 320.

A frame is marked at the bit of that last one, LAST_ONE octets of the slot after the octet in which
the frame begins. The bit in its octet says the channel and whether the frame is even or odd.
"""

import re
from typing import Iterator, List, NamedTuple

from trau.rules.slots import SLOTS_OF_E1

FRAME_SLOT_OCTETS = 160  # of the slot, for the 320 bits of a frame
LAST_ONE = 152  # octets of the slot from the frame's first bit to its last sync bit
ZERO_PAIRS = 8  # an even frame's sixteen zeros
FIRST_BITS = b"\xaa"  # of the pairs in an octet

# An octet that isn't zero, and the zeros before it.
FILLED = re.compile(rb"\0*([^\0])", re.DOTALL)
BITS_SET = [[bit for bit in range(8) if octet & 0x80 >> bit] for octet in range(256)]


class Hits(NamedTuple):
    """The marks of even and of odd frames, as big integers of all bits of the octets; the first bit
    is the highest."""

    even: int
    odd: int


def hits(octets: bytes, stride: int = SLOTS_OF_E1) -> Hits:
    """The marks of all frames whose bits up to the last sync bit are in these octets."""
    step = 8 * stride
    bits = int.from_bytes(octets, "big")
    ones = (
        bits & bits >> 8 * step
    )  # two sync ones, eight octets of the slot apart; then 4, 8, 16 and 19
    for doubled in (16, 32, 64, 24):
        ones &= ones >> doubled * step
    if not ones:
        return Hits(0, 0)
    zeros = bits ^ (1 << 8 * len(octets)) - 1
    pairs = zeros & zeros >> 1  # marked at the second bit
    four = pairs & pairs >> step
    four &= four >> 2 * step
    seven = four & four >> 3 * step
    eight = four & four >> 4 * step
    even = ones & eight >> (LAST_ONE - ZERO_PAIRS + 1) * step - 1
    first_and_pairs = seven & zeros >> 7 * step  # f[0] to f[14]; f[0] is the second bit of its pair
    odd = ones & (first_and_pairs >> step & zeros >> 1) >> (LAST_ONE - ZERO_PAIRS) * step
    return Hits(even, odd)


def marks(found: Hits, size: int) -> int:
    """The marks of `hits` in so many octets that keep to the pairs of a slot: even frames at a
    pair's first bit, odd ones at its second."""
    if not (found.even or found.odd):
        return 0
    firsts = int.from_bytes(FIRST_BITS * size, "big")
    return found.even & firsts | found.odd & firsts >> 1


def places(value: int, size: int) -> List[int]:
    """The places of the bits that are set in a big integer of so many octets; the first bit is the
    highest."""
    return list(each_place(value, size)) if value else []


def each_place(value: int, size: int) -> Iterator[int]:
    """The same one by one. Without the zeros at the end cut off, the expression would be quadratic
    in them."""
    for found in FILLED.finditer(value.to_bytes(size, "big").rstrip(b"\0")):
        for bit in BITS_SET[found[1][0]]:
            yield 8 * (found.end() - 1) + bit
