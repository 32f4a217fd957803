"""Levels of lines of A-law and of mu-law in dBm0, the scale of telephony: a sine that just meets
the ends of A-law has +3.14 dBm0, and one that just meets those of mu-law +3.17 dBm0. The sums of
squares are exact, with the library numpy, where it is installed, as without it."""

import math
import zlib
from typing import List

from trau.rules.g711 import Law, samples_by_octet
from trau.rules.profile import PCM_OCTETS


try:
    import numpy
except ImportError:
    numpy = None  # type: ignore[assignment]

# The magnitude, in samples of 16 bits, at the ends of a law, and the level of a sine that just
# meets them.
OVERLOADS = {Law.A: (32768, 3.14), Law.MU: (32636, 3.17)}

# All samples are multiples of 8 (A-law) or 4 (mu-law). The squares of the multiples, an octet in
# each of four tables, the greatest first.
UNITS = {Law.A: 8, Law.MU: 4}
SQUARES = {law: [(sample // UNITS[law]) ** 2 for sample in samples_by_octet(law)] for law in Law}
PLANES = {
    law: [
        bytes(square >> shift & 0xFF for square in squares)
        for shift in (24, 16, 8, 0)
        if max(squares) >> shift
    ]
    for law, squares in SQUARES.items()
}


def sums_plain(octets: bytes, law: Law) -> List[int]:
    """The sum of the squares of each whole period. Adler-32 has, in its last 16 bits, 1 and the sum
    of the octets modulo 65,521, which 160 octets don't reach."""
    sums_so_far = [0] * (len(octets) // PCM_OCTETS)
    starts = range(0, PCM_OCTETS * len(sums_so_far), PCM_OCTETS)
    for table in PLANES[law]:
        plane = octets.translate(table)
        digits = [
            (zlib.adler32(plane[start : start + PCM_OCTETS]) & 0xFFFF) - 1 for start in starts
        ]
        sums_so_far = [256 * total + digit for total, digit in zip(sums_so_far, digits)]
    return sums_so_far


def sums_by_numpy(octets: bytes, law: Law) -> List[int]:
    """The same by numpy, for a piece of a line."""
    whole = len(octets) // PCM_OCTETS
    samples = numpy.frombuffer(octets, numpy.uint8, whole * PCM_OCTETS)
    squares = numpy.array(SQUARES[law], numpy.int64)[samples]
    return squares.reshape(whole, PCM_OCTETS).sum(axis=1).tolist()


def sums(octets: bytes, law: Law) -> List[int]:
    """The sum of the squares of each whole period, in squares of the law's unit."""
    return (sums_by_numpy if numpy else sums_plain)(octets, law)


def level_of_sum(total: int, law: Law) -> float:
    """The level of a period by its sum. Mu-law has octets of the sample 0, and nothing but these
    have no level."""
    overload, overload_level = OVERLOADS[law]
    mean = total * UNITS[law] ** 2 / PCM_OCTETS
    return overload_level + 10 * math.log10(2 * mean / overload**2) if total else -math.inf
