"""How octets of sound may be read: as A-law or mu-law, with the bits of each octet in either order,
or as samples of 16 bits; and which reading is the best by statistics.

Under the right reading, sound changes little from sample to sample beside what it does under a
wrong one, and it isn't as loud. So the figure of a reading is the logarithm of its roughness (the
power of the differences of samples in a row, beside that of the samples) and of its loudness, and
the least figure is the best.
"""

import math
import operator
import sys
from array import array
from collections import Counter
from typing import Dict, NamedTuple, Optional, Sequence

from trau.rules.g711 import Law, expand_all
from trau.rules.slots import octets_turned


MOST_OCTETS = 16000  # two seconds
LEAST_OCTETS = 800  # a tenth of a second
LEAST_ROUGHNESS = 0.01
LEAST_LOUDNESS = 4.0
LEAST_DISTINCT = 64  # a tone whose period is a few samples has fewer octets, which say nothing
QUIET = 128.0

# By how much another reading has to be better than the one that is expected. On tones of 50 to 3450
# Hz at eight levels, squares and noise a wrong reading was at most 1.1 better than the right one;
# on speech the right one was 2.5 or more better than each other.
PLAIN = 2.0
PLAIN_TURNED = 3.0
# By how much the best reading has to be better than the second best, where none is expected; octets
# in the other order are less likely.
LEAST_LEAD = 1.0
HANDICAP = 1.5


class Reading(NamedTuple):
    """How octets may be read: by a law, or as samples of 16 bits (None), with bits in the other
    order or not."""

    law: Optional[Law]
    turned: bool


class Figure(NamedTuple):
    """The figure of a reading, and its loudness: the root of the mean square of its samples."""

    value: float
    loudness: float


def figure(samples: Sequence[int]) -> Figure:
    """The figure of a reading, by its samples."""
    count = len(samples)
    mean = sum(samples) / count
    squares = sum(map(operator.mul, samples, samples)) / count
    power = squares - mean * mean
    differences = list(map(operator.sub, samples[1:], samples))
    steps = sum(map(operator.mul, differences, differences)) / (count - 1)
    roughness = steps / (2 * power) if power > 0 else 0.0
    loudness = math.sqrt(squares)
    return Figure(
        math.log2(max(roughness, LEAST_ROUGHNESS)) + math.log2(max(loudness, LEAST_LOUDNESS)),
        loudness,
    )


def readings_of(octets: bytes) -> Dict[Reading, Figure]:
    """Each reading of octets with its figure."""
    found = {}
    for turned in (False, True):
        read = octets_turned(octets) if turned else octets
        for law in Law:
            found[Reading(law, turned)] = figure(expand_all(law, read))
    samples = array("h", octets[: len(octets) // 2 * 2])
    if sys.byteorder == "big":
        samples.byteswap()
    found[Reading(None, False)] = figure(samples)
    return found


def figures(octets: bytes) -> Dict[Reading, float]:
    """The figure of each reading that counts; none where octets are too few, or too few different
    ones. Few octets that are quiet under a law are an idle line, and then the two laws alone count.
    """
    if len(octets) < LEAST_OCTETS:
        return {}
    found = readings_of(octets)
    if len(set(octets)) < LEAST_DISTINCT:
        found = {
            reading: each for reading, each in found.items() if reading.law and not reading.turned
        }
        if min(each.loudness for each in found.values()) >= QUIET:
            return {}
    return {reading: each.value for reading, each in found.items()}


def best_reading(octets: bytes) -> Optional[Reading]:
    """The best reading of octets, if it is plainly better than each other one."""
    found = {
        reading: value + HANDICAP * reading.turned
        for reading, value in figures(octets[:MOST_OCTETS]).items()
    }
    if not found:
        return None
    best, second = sorted(found, key=found.__getitem__)[:2]
    return best if found[second] - found[best] >= LEAST_LEAD else None


def plainly_other(octets: bytes, law: Law) -> Optional[Reading]:
    """The best reading of octets that are said to have this law, if it is another reading and
    plainly better."""
    found = figures(octets[:MOST_OCTETS])
    expected = found.pop(Reading(law, False), 0.0)

    def margin(reading: Reading) -> float:
        """By how much a reading has to be better."""
        return PLAIN_TURNED if reading.turned or reading.law is None else PLAIN

    plain = [reading for reading, value in found.items() if expected - value >= margin(reading)]
    return min(plain, key=found.__getitem__) if plain else None


# Blocks with heads between

LEAST_BLOCK, MOST_BLOCK = 33, 1100  # octets with their head
LEAST_BLOCKS = 8
LEAST_HEAD = 2  # octets that each head has alike
IDLE_OCTETS = 2  # the most frequent ones, which sound may repeat anywhere


class Blocks(NamedTuple):
    """The size of blocks that begin alike, and which octets of each are the same in all."""

    size: int
    heads: Sequence[int]

    def sound(self, octets: bytes) -> bytes:
        """Octets without those that are the same in each block."""
        return bytes(octet for at, octet in enumerate(octets) if at % self.size not in self.heads)


def blocks_in(octets: bytes) -> Optional[Blocks]:
    """Blocks that begin alike, as those of a container with heads between octets of sound, if
    octets have such. What repeats itself as a whole, as tones do, has none."""
    octets = octets[:MOST_OCTETS]
    idle = {octet for octet, _ in Counter(octets).most_common(IDLE_OCTETS)}
    for size in range(LEAST_BLOCK, min(MOST_BLOCK, len(octets) // LEAST_BLOCKS) + 1):
        pairs = zip(octets[:size], octets[size : 2 * size])
        alike = [at for at, (one, other) in enumerate(pairs) if one == other and one not in idle]
        heads = [at for at in alike if len(set(octets[at::size])) == 1]
        if LEAST_HEAD <= len(heads) <= size // 4:
            return Blocks(size, heads)
    return None
