"""Tests of the receive side: lost speech and comfort noise."""

import unittest
from typing import List, Optional, Sequence

from material import IDLE_UP, QUIET, maxima, sid, speech, unusable, with_maxima
from trau.rules.frame import FrameKind, UpFrame
from trau.rules.noise import RandomSource
from trau.rules.parameters import SILENCE, Parameters
from trau.model.receive import effective_frames

GOOD = speech(with_maxima(20))
INVALID = speech(kind=FrameKind.INVALID_SID, taf=True)


def maxima_of(frames: Sequence[Optional[UpFrame]]) -> List[Optional[int]]:
    """The coded maximum of each effective frame of call 7, the same in all its blocks; None where
    it is quiet."""
    by_block = [maxima(one) for one in effective_frames(7, frames)]
    assert all(one is None or len(set(one)) == 1 for one in by_block)
    return [one[0] if one else None for one in by_block]


def grids(parameters: Optional[Parameters]) -> List[int]:
    """The grid positions of the four blocks."""
    assert parameters is not None
    return [block.mc for block in parameters.blocks]


class LostSpeech(unittest.TestCase):
    """What takes the place of lost frames."""

    def test_seventeen_lost_frames(self) -> None:
        found = effective_frames(7, [GOOD] + [None] * 18)
        self.assertEqual(found[:2], [with_maxima(20)] * 2)
        self.assertEqual((maxima(found[2]), grids(found[2])), ([16] * 4, [3, 0, 1, 0]))
        self.assertEqual([maxima(one) for one in found[6:17]], [[0] * 4] * 11)
        self.assertEqual(found[17:], [SILENCE] * 2)

    def test_all_but_grids_and_maxima_stay(self) -> None:
        found = effective_frames(7, [speech(QUIET), None, None, None])
        self.assertEqual(with_maxima(0, found[3]), QUIET._replace(blocks=found[3].blocks))
        self.assertEqual(
            [block.xmc for block in found[3].blocks], [block.xmc for block in QUIET.blocks]
        )

    def test_what_counts_as_lost(self) -> None:
        other = UpFrame(FrameKind.OTHER, True)
        for lost in (None, other, unusable(), unusable(taf=True), INVALID):
            self.assertEqual(effective_frames(7, [GOOD, lost]), [with_maxima(20)] * 2)

    def test_quiet(self) -> None:
        """Before the first good frame or descriptor, and from an idle frame on."""
        frames = [None, INVALID, unusable(), GOOD, IDLE_UP, None, INVALID, GOOD]
        self.assertEqual(maxima_of(frames), [None, None, None, 20, None, None, None, 20])


class ComfortNoise(unittest.TestCase):
    """Noise after silence descriptors."""

    def test_the_first_frame(self) -> None:
        (first,) = effective_frames(7, [sid(20)])
        assert first is not None
        self.assertEqual(first.larc, QUIET.larc)
        self.assertEqual([block.nc for block in first.blocks], [40, 120, 40, 120])
        self.assertEqual([block.bc for block in first.blocks], [0] * 4)
        self.assertEqual((first.blocks[0].mc, first.blocks[0].xmc[:3]), (3, (1, 2, 2)))
        self.assertTrue(all(1 <= pulse <= 6 for block in first.blocks for pulse in block.xmc))

    def test_descriptors_that_were_due(self) -> None:
        frames = [sid(20), unusable(), unusable(True), unusable(True), GOOD]
        self.assertEqual(maxima_of(frames), [20, 20, 20, 16, 20])
        self.assertEqual(effective_frames(7, frames)[-1], with_maxima(20))

    def test_noise_falls_to_silence(self) -> None:
        found = effective_frames(7, [sid(63)] + [unusable(True)] * 20)
        self.assertEqual(
            [maxima(one)[0] for one in found[:18]],
            [63, 63] + [max(0, 63 - 4 * fall) for fall in range(1, 17)],
        )
        self.assertEqual(found[18:], [SILENCE] * 3)

    def test_a_descriptor_is_approached(self) -> None:
        self.assertEqual(
            maxima_of([sid(20), sid(4)] + [None] * 8), [20, 18, 16, 14, 12, 10, 8, 6, 4, 4]
        )

    def test_a_descriptor_on_the_way(self) -> None:
        frames = [sid(20), sid(4), None, sid(20)] + [None] * 7
        self.assertEqual(maxima_of(frames), [20, 18, 16, 16, 17, 17, 18, 18, 19, 19, 20])

    def test_a_descriptor_after_falling_noise_is_there_at_once(self) -> None:
        self.assertEqual(
            maxima_of([sid(20), unusable(True), unusable(True), sid(40)]), [20, 20, 16, 40]
        )

    def test_a_descriptor_after_speech_is_there_at_once(self) -> None:
        self.assertEqual(maxima_of([sid(20), GOOD, sid(40)]), [20, 20, 40])


class Draws(unittest.TestCase):
    """The random source of a call."""

    def test_first_values(self) -> None:
        source = RandomSource(7)
        self.assertEqual([source.draw(65536) for _ in range(2)], [58988, 4085])

    def test_draws_go_on_over_the_whole_call(self) -> None:
        """A pause doesn't begin with the draws of the one before."""
        first, _, second = effective_frames(7, [sid(20), GOOD, sid(20)])
        self.assertNotEqual(first, second)

    def test_calls_have_draws_of_their_own(self) -> None:
        self.assertNotEqual(effective_frames(7, [sid(20)]), effective_frames(8, [sid(20)]))


if __name__ == "__main__":
    unittest.main()
