"""Tests of the downlink: shifts, and where frames begin."""

import unittest

from material import IDLE_UP, speech
from trau.rules.frame import FrameKind
from trau.model.downlink import Item, MadeFrame, asked_shifts, down_bits, made_frames, shift_of


class Shifts(unittest.TestCase):
    """What alignment fields ask for."""

    def test_fields(self) -> None:
        shifts = [shift_of(field) for field in range(64)]
        self.assertEqual(shifts[:3] + shifts[38:42], [0, 4, 8, 152, 156, 0, 0])
        self.assertEqual((shifts[61:], shifts.count(0)), ([0, 2, -2], 23))

    def test_frames_that_ask(self) -> None:
        found = [
            speech(field=39),
            None,
            IDLE_UP._replace(field=63),
            None,
            IDLE_UP._replace(kind=FrameKind.OTHER, field=5),
            speech(field=40),
        ]
        self.assertEqual(asked_shifts(found), {0: 156, 2: -2})


class Frames(unittest.TestCase):
    """Frames that are made, without bridges and with them."""

    def test_without_shifts(self) -> None:
        self.assertEqual(
            made_frames(3, {}, []),
            [MadeFrame(0, 0, None), MadeFrame(160, 0, None), MadeFrame(320, 0, None)],
        )

    def test_shifts(self) -> None:
        made = made_frames(4, {0: 156, 2: -2}, [])
        self.assertEqual(
            [(one.start, one.shift, one.period) for one in made],
            [(0, 156, 0), (316, -2, 2), (474, 0, 3)],
        )

    def test_two_frames_in_a_period(self) -> None:
        """An advance after a delay of as many octets: the second frame of the period finds nothing
        that was asked."""
        made = made_frames(6, {0: 2, 2: -2}, [])
        self.assertEqual([one.period for one in made], [0, 2, 2, 3, 4, 5])
        self.assertEqual([one.shift for one in made], [2, -2, 0, 0, 0, 0])

    def test_the_last_shift_counts(self) -> None:
        made = made_frames(6, {0: 156, 1: 40, 2: 80}, [])
        self.assertEqual([(one.period, one.shift) for one in made[:3]], [(0, 156), (2, 80), (4, 0)])

    def test_a_bridge_freezes_shifts(self) -> None:
        made = made_frames(9, {3: 156}, [(2, 6)])
        self.assertEqual(
            [one.item for one in made[:7]],
            [None, None, Item(0, 0), Item(0, 1), Item(0, 2), Item(0, 3), None],
        )
        self.assertEqual([one.shift for one in made], [0, 0, 0, 0, 0, 0, 156, 0])

    def test_a_frame_that_waits(self) -> None:
        """Octets were to be lost when the bridge began: its last frame goes out in the period of
        its end, before the kept shift."""
        made = made_frames(14, {3: 156, 5: 4}, [(4, 10)])
        self.assertEqual([one.period for one in made], [0, 1, 2, 3, 5, 6, 7, 8, 9, 10, 11, 12, 13])
        self.assertEqual([one.item for one in made[4:10]], [Item(0, number) for number in range(6)])
        self.assertEqual([one.shift for one in made[3:]], [156, 0, 0, 0, 0, 0, 0, 4, 0, 0])

    def test_a_bridge_without_a_period(self) -> None:
        self.assertEqual([one.item for one in made_frames(4, {}, [(1, 1)])], [None] * 4)


class Bits(unittest.TestCase):
    """The bits of the Down line."""

    def test_delays_and_advances(self) -> None:
        made = [MadeFrame(0, 2, None), MadeFrame(162, -2, None), MadeFrame(320, 0, None)]
        bits = down_bits(made, ["0" * 320] * 3, 5)
        zeros = [320, 4, 316 + 320]
        self.assertEqual(bits[320:], "0" * zeros[0] + "1" * zeros[1] + "0" * zeros[2])
        self.assertEqual(bits[:320], "1" * 320)

    def test_it_ends_with_its_periods(self) -> None:
        self.assertEqual(down_bits([MadeFrame(0, 0, None)], ["0" * 320], 1), "1" * 320)
        self.assertEqual(down_bits([], [], 0), "")


if __name__ == "__main__":
    unittest.main()
