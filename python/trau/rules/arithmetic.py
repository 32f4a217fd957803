"""The operations on numbers of 16 and 32 bits of GSM 06.10 section 4.

Numbers are Python's whole numbers. `>>` is the floor of a division by a power of two, also of
numbers below 0.
"""

from typing import List

LEAST, MOST = -32768, 32767  # of 16 bits
LEAST_LONG, MOST_LONG = -(1 << 31), (1 << 31) - 1  # of 32 bits


def saturate(value: int) -> int:
    """The nearest number of 16 bits (GSM 06.10 section 4)."""
    return MOST if value > MOST else LEAST if value < LEAST else value


def saturate_long(value: int) -> int:
    """The nearest number of 32 bits (GSM 06.10 section 4)."""
    return MOST_LONG if value > MOST_LONG else LEAST_LONG if value < LEAST_LONG else value


def saturate_all(values: List[int]) -> List[int]:
    """The nearest number of 16 bits of each (GSM 06.10 section 4)."""
    if values and (max(values) > MOST or min(values) < LEAST):
        return [saturate(value) for value in values]
    return values


def add(a: int, b: int) -> int:
    """The sum, saturated (GSM 06.10 section 4, "add")."""
    return saturate(a + b)


def sub(a: int, b: int) -> int:
    """The difference, saturated (GSM 06.10 section 4, "sub")."""
    return saturate(a - b)


def mult(a: int, b: int) -> int:
    """The product of two fractions of 15 bits, cut (GSM 06.10 section 4, "mult"); -32768 by itself
    is 32767."""
    return saturate((a * b) >> 15)


def mult_r(a: int, b: int) -> int:
    """The product of two fractions of 15 bits, rounded (GSM 06.10 section 4, "mult_r"); -32768 by
    itself is 32767."""
    return saturate((a * b + 16384) >> 15)


def magnitude(a: int) -> int:
    """The magnitude, saturated: of -32768 it is 32767 (GSM 06.10 section 4, "abs")."""
    return saturate(abs(a))


def norm(value: int) -> int:
    """How many shifts to the left bring a number above 0 to 2^30 or more, within 32 bits (GSM 06.10
    section 4, "norm")."""
    return 31 - value.bit_length()


def div(numerator: int, denominator: int) -> int:
    """The quotient as a fraction of 15 bits, of 0 <= numerator <= denominator (GSM 06.10 section 4,
    "div").

    It is 0 where the numerator is 0, whatever the denominator is, and 32767 where both are one
    (this project's profile for 0 / 0).
    """
    if numerator == 0:
        return 0
    return min((numerator << 15) // denominator, MOST)
