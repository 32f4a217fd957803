"""Tests of what `model/remake` compares: the farm of examples and the picture that is drawn of
it."""

import unittest

from material import TOP
from trau.model import recorded


class Pictures(unittest.TestCase):
    def test_of_the_farm_of_examples(self) -> None:
        files = recorded.mixed_farm()
        self.assertIn(TOP / "tools/farm.svg", files)
        for path, octets in files.items():
            self.assertEqual(path.read_bytes(), octets, path.name)

    def test_of_another_run(self) -> None:
        incoming, orders = recorded.mixed_incoming()
        ran = recorded.run_command(["run", "--periods", "60"], incoming, orders)
        self.assertNotEqual(
            recorded.picture_of(incoming, orders, ran), (TOP / "tools/farm.svg").read_bytes()
        )


if __name__ == "__main__":
    unittest.main()
