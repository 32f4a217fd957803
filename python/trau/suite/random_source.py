"""The suite's own random source: the same numbers on every machine and in every version of
Python."""

from typing import List, Sequence, TypeVar

Item = TypeVar("Item")

MASK = (1 << 64) - 1
# The generator SplitMix64.
STEP = 0x9E3779B97F4A7C15
FIRST_FACTOR, SECOND_FACTOR = 0xBF58476D1CE4E5B9, 0x94D049BB133111EB
HASH_FACTOR = 1099511628211  # of the hash FNV-1a, which makes a start of a name
HASH_START = 14695981039346656037


class NamedSource:
    """Random numbers that start from a name."""

    def __init__(self, name: str) -> None:
        self.value = HASH_START
        for octet in name.encode():
            self.value = ((self.value ^ octet) * HASH_FACTOR) & MASK

    def word(self) -> int:
        """The next 64 bits."""
        self.value = (self.value + STEP) & MASK
        mixed = ((self.value ^ (self.value >> 30)) * FIRST_FACTOR) & MASK
        mixed = ((mixed ^ (mixed >> 27)) * SECOND_FACTOR) & MASK
        return mixed ^ (mixed >> 31)

    def within(self, least: int, most: int) -> int:
        """A number between these ends, both included."""
        return least + self.word() * (most - least + 1) // (MASK + 1)

    def some(self, count: int, least: int, most: int) -> List[int]:
        """So many numbers between these ends."""
        return [self.within(least, most) for _ in range(count)]

    def choice(self, items: Sequence[Item]) -> Item:
        """One of these."""
        return items[self.within(0, len(items) - 1)]

    def octets(self, count: int) -> bytes:
        """So many random octets."""
        return bytes(self.some(count, 0, 255))
