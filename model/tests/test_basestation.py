"""Tests of the base station's end."""

import unittest
from typing import List, Optional

from material import CODEC, DOWN
from trau.rules.frame import FrameKind, bits_of, octets_of
from trau.model.basestation import asked_fields, field_for, heard_by_period, heard_frames


def found(periods: List[Optional[int]], wanted: int) -> List[int]:
    """The fields of periods, of each the place of its frame modulo 320, or None."""
    line = "".join("1" * 320 for _ in periods)
    for period, place in enumerate(periods):
        if place is not None:
            line = line[: 320 * period + place] + bits_of(DOWN) + line[320 * period + place + 320 :]
    return asked_fields(heard_by_period(octets_of(line)), wanted)


class Fields(unittest.TestCase):
    """What is asked for."""

    def test_offsets(self) -> None:
        fields = [field_for(100, place) for place in (100, 98, 96, 94, 92, 84, 101, 104, 108)]
        self.assertEqual(fields, [0, 0, 62, 0, 1, 2, 39, 39, 39])
        self.assertEqual(field_for(0, 4), 39)

    def test_a_request_waits_for_eight_frames(self) -> None:
        self.assertEqual(found([0] * 18, 8), [1, 0, 0, 0, 0, 0, 0, 0, 1, 0, 0, 0, 0, 0, 0, 0, 1, 0])

    def test_a_request_that_is_met(self) -> None:
        """Frames belong to the period of their bit 315, so one that begins at 8 is found a period
        later."""
        self.assertEqual(found([0, 0, 8, 8, 8], 8), [1, 0, 0, 0, 0])
        self.assertEqual(found([0, 0, 8, 8, 8, 8], 16), [2, 0, 0, 1, 0, 0])

    def test_periods_without_a_frame(self) -> None:
        self.assertEqual(found([None, 0, None, 0, 0], 8), [0, 1, 0, 1, 0])


class Frames(unittest.TestCase):
    """Frames that are found."""

    def test_shifts(self) -> None:
        """A delay, and a frame without time bits."""
        line = (
            "1" * 320 + bits_of(DOWN) + "1" * 312 + bits_of(DOWN)[:316] + bits_of(DOWN) + "1" * 12
        )
        heard = heard_frames(octets_of(line))
        self.assertEqual(
            [(one.place, one.frame.kind) for one in heard],
            [(place, FrameKind.SPEECH) for place in (320, 952, 1268)],
        )
        by_period = heard_by_period(octets_of(line))
        self.assertEqual([len(one) for one in by_period], [0, 1, 0, 1, 1])
        self.assertEqual(asked_fields(by_period, 0), [0, 0, 0, 1, 1])

    def test_recorded(self) -> None:
        for name in ("follow-4", "follow-100"):
            rows = [
                tuple(map(int, row.split()))
                for row in (CODEC / (name + ".txt")).read_text().splitlines()
            ]
            heard = heard_frames((CODEC / (name + ".down")).read_bytes())
            self.assertEqual([(one.place, int(one.frame.is_speech())) for one in heard], rows)


if __name__ == "__main__":
    unittest.main()
