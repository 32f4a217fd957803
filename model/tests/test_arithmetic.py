"""Tests of the operations of GSM 06.10."""

import unittest

import material  # noqa: F401
from trau.rules import arithmetic


class Operations(unittest.TestCase):
    """The operations at the ends of their numbers."""

    def test_products_of_the_least_number(self) -> None:
        self.assertEqual(arithmetic.mult(-32768, -32768), 32767)
        self.assertEqual(arithmetic.mult_r(-32768, -32768), 32767)

    def test_products_are_cut_or_rounded(self) -> None:
        self.assertEqual((arithmetic.mult(1, 16384), arithmetic.mult_r(1, 16384)), (0, 1))
        self.assertEqual((arithmetic.mult(-1, 16384), arithmetic.mult_r(-1, 16384)), (-1, 0))

    def test_sums_and_magnitudes_are_saturated(self) -> None:
        self.assertEqual(arithmetic.add(32767, 1), 32767)
        self.assertEqual(arithmetic.sub(-32768, 1), -32768)
        self.assertEqual(arithmetic.magnitude(-32768), 32767)
        self.assertEqual(arithmetic.saturate_long(2**31), 2**31 - 1)
        self.assertEqual(arithmetic.saturate_all([5, 40000, -40000]), [5, 32767, -32768])

    def test_quotients(self) -> None:
        self.assertEqual(
            [arithmetic.div(5, 5), arithmetic.div(0, 9), arithmetic.div(0, 0)], [32767, 0, 0]
        )
        self.assertEqual(arithmetic.div(1, 3), 10922)

    def test_shifts_of_a_norm(self) -> None:
        self.assertEqual(
            [arithmetic.norm(value) for value in (1, 2**30 - 1, 2**30, 2**31 - 1)],
            [30, 1, 0, 0],
        )


if __name__ == "__main__":
    unittest.main()
