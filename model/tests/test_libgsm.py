"""Tests of the codec beside libgsm, where that is installed."""

import unittest

import material  # noqa: F401
from trau.model.libgsm import Compared, find, table

LIBRARY = find()


@unittest.skipIf(LIBRARY is None, "libgsm1-dev isn't installed")
class Beside(unittest.TestCase):
    """Some streams of each kind."""

    def test_streams(self) -> None:
        assert LIBRARY is not None
        found = table(LIBRARY, 54, 12)
        # a library that sums in floating point departs on some
        found.pop("encoding steady squares")
        self.assertEqual(found.pop("decoding any"), Compared(150, 0))
        self.assertEqual(found.pop("decoding extreme"), Compared(150, 0))
        self.assertEqual(found, {kind: Compared(50, 0) for kind in found})


if __name__ == "__main__":
    unittest.main()
