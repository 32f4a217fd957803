"""Tests of time slots."""

import unittest

from material import CHECKS
from trau.rules.slots import merge, split


class Slots(unittest.TestCase):
    """Slots cut into channels, and put together."""

    def test_one_group(self) -> None:
        self.assertEqual(split(b"\x1b" * 4), [b"\x00", b"\x55", b"\xaa", b"\xff"])
        self.assertEqual(merge([b"\x00", b"\x55", b"\xaa", b"\xff"]), b"\x1b" * 4)

    def test_the_first_octet_has_the_first_bits(self) -> None:
        self.assertEqual(split(b"\xff\x00\x00\x00"), [b"\xc0"] * 4)

    def test_there_and_back(self) -> None:
        slot = bytes((k * k + 7 * k) % 256 for k in range(4000))
        self.assertEqual(merge(split(slot)), slot)

    def test_less_than_a_group(self) -> None:
        self.assertEqual(split(b"\xff" * 3), [b""] * 4)
        self.assertEqual(split(b"\x1b" * 7), split(b"\x1b" * 4))
        self.assertEqual(merge([b""] * 4), b"")

    def test_recorded(self) -> None:
        slots = CHECKS / "slots"
        self.assertEqual(
            split((slots / "5.pcm").read_bytes()),
            [(slots / ("%d.down" % call)).read_bytes() for call in (5, 6, 7, 8)],
        )


if __name__ == "__main__":
    unittest.main()
