"""Time slots of 64 kbit/s with four channels of 16 kbit/s (CCITT I.460, docs/FILES.md, "Time
slots")."""

from functools import lru_cache
from typing import List, Sequence, Tuple

from trau.rules.profile import CHANNELS

SLOTS_OF_E1 = 32
MOST_SLOTS = 256

# Each octet with its bits in the other order.
TURNED = bytes(int(f"{octet:08b}"[::-1], 2) for octet in range(256))


def octets_turned(octets: bytes) -> bytes:
    """The octets, each with its bits in the other order."""
    return octets.translate(TURNED)


def octets_from(octets: bytes, bit: int) -> bytes:
    """The octets that begin at this bit of the first one, 0 to 7, without the bits after the last
    whole one."""
    count = max(0, len(octets) - 1)
    return (
        (int.from_bytes(octets, "big") >> 8 - bit & (1 << 8 * count) - 1).to_bytes(count, "big")
        if bit
        else octets
    )


# Octets of lines that are transposed at a time: longer numbers leave the processor's caches.
TRANSPOSED = 1 << 17


@lru_cache(maxsize=8)
def masks(size: int, slots: int) -> Tuple[int, int]:
    """Of so many octets: the last two pairs of the first two rows of each group of frames, and the
    second and the fourth pair of each first row of two."""
    half = (b"\x0f" * 2 * slots + bytes(2 * slots)) * (size // (CHANNELS * slots))
    single = (b"\x33" * slots + bytes(slots)) * (size // (2 * slots))
    return int.from_bytes(half, "big"), int.from_bytes(single, "big")


def transposed(octets: bytes, slots: int) -> bytes:
    """Groups of four frames of a line, or of four octets of a slot, with rows and columns of pairs
    of bits exchanged. The rows of a slot are its four octets in a group, the pairs of a row belong
    to its four channels. Then row k has the octet of channel k. What is done twice is undone.

    First the quarters beside the diagonal change places, then within each quarter the pairs beside
    its diagonal do: all of them at once, in one number."""
    row = 8 * slots
    bits = int.from_bytes(octets, "big")
    half, single = masks(len(octets), slots)
    for mask, distance in ((half, 2 * row - 4), (single, row - 2)):
        differ = (bits ^ bits << distance) & mask
        bits ^= differ ^ differ >> distance
    return bits.to_bytes(len(octets), "big")


def channels_of_line(octets: bytes, slots: int) -> bytes:
    """The octets of all channels of a line, of its whole groups of four frames: those of channel k
    of slot s are each `4 * slots`th one from `k * slots + s` on."""
    group = CHANNELS * slots
    end = len(octets) // group * group
    step = max(1, TRANSPOSED // group) * group
    parts = (octets[start : min(start + step, end)] for start in range(0, end, step))
    return b"".join(transposed(part, slots) for part in parts)


def channel_octets(slot: bytes, number: int) -> bytes:
    """The octets of a channel of a slot; four octets of the slot carry one, its first bits
    first."""
    return channels_of_line(slot, 1)[number::CHANNELS]


def split(slot: bytes) -> List[bytes]:
    """The octets of the four channels that a slot carries, of its whole groups of four octets."""
    octets = channels_of_line(slot, 1)
    return [octets[number::CHANNELS] for number in range(CHANNELS)]


def merge(channels: Sequence[bytes]) -> bytes:
    """The slot that carries four channels of equal length: four of its octets for each octet of a
    channel."""
    slot = bytearray(CHANNELS * len(channels[0]))
    for number, octets in enumerate(channels):
        slot[number::CHANNELS] = octets
    return channels_of_line(bytes(slot), 1)
