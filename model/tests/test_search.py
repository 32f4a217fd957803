"""Tests of the search for frames."""

import unittest
from typing import List, Optional, Sequence

from material import CHECKS, CODEC, UP
from trau.rules.frame import FrameKind, bits_of, octets_of
from trau.rules.search import Yield, search, kind_of_period, yields_by_period

BROKEN = b"\x80" + UP[1:]  # its first sync bit is wrong


def octets(text: str) -> bytes:
    """The octets of bits; zeros follow up to a whole octet."""
    return octets_of(text + "0" * (-len(text) % 8))


def places(found: Sequence[Yield]) -> List[int]:
    """The place of each frame, and -2 less the place of each miss."""
    return [one.place if one.frame else -2 - one.place for one in found]


def yields_of(line: bytes) -> List[Yield]:
    """The yields of a line."""
    return list(search(bits_of(line)))


def by_period(line: bytes) -> List[Optional[Yield]]:
    """What each period of a line yields."""
    return yields_by_period(bits_of(line))


class Search(unittest.TestCase):
    """The yields of whole lines."""

    def test_five_bits_late(self) -> None:
        line = octets("00000" + bits_of(UP) * 4)
        self.assertEqual(places(yields_of(line)), [5, 325, 645, 965])
        self.assertEqual([one and one.place for one in by_period(line)], [None, 5, 325, 645])

    def test_two_misses(self) -> None:
        self.assertEqual(places(yields_of(UP + 2 * BROKEN + UP)), [0, -322, -642, 960])

    def test_the_third_miss_ends_the_lock(self) -> None:
        self.assertEqual(places(yields_of(UP + 3 * BROKEN + UP)), [0, -322, -642, -962, 1280])
        late = bits_of(UP + 3 * BROKEN) + "0000000" + bits_of(2 * UP)
        self.assertEqual(places(yields_of(octets(late))), [0, -322, -642, -962, 1287, 1607])

    def test_a_frame_sets_the_misses_to_none(self) -> None:
        line = UP + 2 * BROKEN + UP + 2 * BROKEN + b"\0" * 40
        self.assertEqual(places(yields_of(line)), [0, -322, -642, 960, -1282, -1602, -1922])

    def test_a_frame_that_isnt_whole(self) -> None:
        self.assertEqual(yields_of(UP[:39]), [])
        self.assertEqual(by_period(UP[:39]), [])
        self.assertEqual(by_period(b"\0" * 80), [None, None])

    def test_frames_of_other_kinds_are_found(self) -> None:
        other = UP[:2] + b"\xfc" + UP[3:]
        (one,) = yields_of(other)
        self.assertIs(one.kind(), FrameKind.OTHER)

    def test_recorded_offsets(self) -> None:
        rows = [
            list(map(int, row.split())) for row in (CODEC / "offsets.txt").read_text().splitlines()
        ]
        for offset, row in enumerate(rows):
            line = octets("1" * offset + bits_of(UP) + "1" * (320 * 12 - 320 - offset))
            self.assertEqual(
                [-1 if one is None else places([one])[0] for one in by_period(line)], row
            )

    def test_recorded_words(self) -> None:
        """The frames of a call of the example that begins five bits late."""
        line = (CHECKS.parent / "examples" / "farm" / "3.up").read_bytes()
        words = [kind_of_period(one).value for one in by_period(line)]
        found = [one for one in by_period(line) if one is not None]
        self.assertEqual(
            [words.count(word) for word in ("bad", "good", "invalid", "sid")], [40, 107, 1, 1]
        )
        self.assertEqual(places(found)[:3], [5, 325, 645])


if __name__ == "__main__":
    unittest.main()
