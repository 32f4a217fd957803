"""A-law and mu-law: octets of the lines from and to the exchange, and samples (ITU-T G.711,
docs/FILES.md).

Samples are words of 16 bits, the 13 bits of A-law and the 14 bits of mu-law at their upper end.
"""

from __future__ import annotations

import enum
from functools import lru_cache
from typing import Iterable, List, NamedTuple

from trau.rules import profile


class Law(enum.Enum):
    """The law of a call's lines from and to the exchange; the value of mu-law is its word in an
    order."""

    A = "alaw"
    MU = "mulaw"

    def __str__(self) -> str:
        """Its word."""
        return self.value

    def title(self) -> str:
        """Its name in texts."""
        return {Law.A: "A-law", Law.MU: "mu-law"}[self]

    def idle(self) -> int:
        """The octet of an idle line (this project's profile): of A-law the least positive one, of
        mu-law the positive zero."""
        return profile.IDLE_A if self is Law.A else profile.IDLE_MU

    def table_to(self, other: Law) -> bytes:
        """The octet of the other law for each octet of this one, by the sample that it stands for;
        of the same law each itself."""
        return bytes(range(256)) if other is self else compress_all(other, samples_by_octet(self))


MAGNITUDES = (
    32768  # those of samples of 16 bits: x, or -1 - x of x below 0 (this project's profile)
)
STEPS = [(segment, step) for segment in range(8) for step in range(16)]


class Interval(NamedTuple):
    """The magnitudes that have one code: the least, and how many they are."""

    least: int
    width: int

    def middle(self) -> int:
        """The magnitude that the code stands for."""
        return self.least + self.width // 2

    def end(self) -> int:
        """The least magnitude above the interval."""
        return self.least + self.width


def interval(law: Law, segment: int, step: int) -> Interval:
    """An interval of a law (G.711, tables 1 and 2); the first of mu-law begins below 0."""
    if law is Law.A and segment == 0:
        return Interval(16 * step, 16)
    least = ((16 + step) << (segment + 3)) - (0 if law is Law.A else 132)
    return Interval(least, 1 << (segment + 3))


def octet(law: Law, is_negative: bool, code: int) -> int:
    """The octet of a sign and of seven bits of segment and step, inverted as the line has it
    (G.711)."""
    if law is Law.A:
        return (code | (0 if is_negative else 0x80)) ^ 0x55
    return (code | (0x80 if is_negative else 0)) ^ 0xFF


@lru_cache(maxsize=None)
def samples_by_octet(law: Law) -> List[int]:
    """What each of the 256 octets stands for: the middle of its interval, with its sign (G.711)."""
    samples = [0] * 256
    for code, (segment, step) in enumerate(STEPS):
        middle = interval(law, segment, step).middle()
        samples[octet(law, False, code)] = middle
        samples[octet(law, True, code)] = -middle
    return samples


@lru_cache(maxsize=None)
def octets_by_sample(law: Law) -> bytes:
    """The octet of each sample, by the sample modulo 65,536 (G.711).

    The magnitude of a sample x below 0 is -1 - x under both laws (this project's profile)."""
    # The last interval has all above it.
    ends = [interval(law, segment, step).end() for segment, step in STEPS[:-1]] + [MAGNITUDES]
    codes = [
        code for code, (start, end) in enumerate(zip([0] + ends, ends)) for _ in range(start, end)
    ]
    positive = [octet(law, False, code) for code in codes]
    negative = [octet(law, True, code) for code in codes]
    return bytes(positive + negative[::-1])


def expand_all(law: Law, octets: Iterable[int]) -> List[int]:
    """The samples that octets stand for (G.711)."""
    return list(map(samples_by_octet(law).__getitem__, octets))


def compress_all(law: Law, samples: Iterable[int]) -> bytes:
    """The octets in whose intervals samples lie (G.711)."""
    octets = octets_by_sample(law)
    return bytes([octets[sample & 0xFFFF] for sample in samples])
