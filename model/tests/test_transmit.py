"""Tests of discontinuous transmission."""

import unittest
from typing import List

from material import QUIET, with_maxima
from trau.rules.parameters import Block
from trau.model.codec import Encoded, FullRateEncoder, Trace, code_ratios
from trau.model.transmit import Coded, sent_frames, silence_descriptor

SILENT = FullRateEncoder().encode([0] * 160)
DESCRIPTOR = silence_descriptor([Coded(SILENT, 256, True)] * 4)


def frames(speech: str, on: bool = True) -> List[Coded]:
    """A frame for each letter: `s` is speech, `.` isn't."""
    return [
        Coded(SILENT._replace(peak=256 if letter == "s" else 255), 256, on) for letter in speech
    ]


def flags(speech: str) -> str:
    """What is sent of the frames: 1 with SP 1, 0 with SP 0."""
    return "".join(str(int(one.sp)) for one in sent_frames(frames(speech)))


class Pauses(unittest.TestCase):
    """When silence descriptors go out."""

    def test_the_first_pause_hangs(self) -> None:
        self.assertEqual(flags("." * 7), "1111000")

    def test_ten_or_twenty_two_frames_of_speech_dont_bring_a_hangover(self) -> None:
        for speech in (10, 22):
            self.assertEqual(
                flags("." * 5 + "s" * speech + "....."), "11110" + "1" * speech + "00000"
            )

    def test_twenty_three_frames_of_speech_bring_a_hangover(self) -> None:
        for speech in (23, 30):
            self.assertEqual(
                flags("." * 5 + "s" * speech + "....."), "11110" + "1" * speech + "11110"
            )

    def test_the_last_descriptor_is_sent_again(self) -> None:
        first = frames(".....")
        louder = [Coded(SILENT._replace(trace=Trace((0,) * 8, (9999,) * 4), peak=0), 256, True)] * 4
        sent = sent_frames(first + frames("s") + louder)
        self.assertEqual([one.parameters for one in sent[6:]], [DESCRIPTOR] * 4)

    def test_speech_goes_out_as_it_is(self) -> None:
        loud = Coded(SILENT._replace(parameters=with_maxima(63), peak=9999), 256, True)
        (sent,) = sent_frames([loud])
        self.assertEqual((sent.parameters, sent.sp), (with_maxima(63), True))

    def test_level_0_makes_all_frames_speech(self) -> None:
        sent = sent_frames([Coded(SILENT, 0, True)] * 9)
        self.assertTrue(all(one.sp and one.parameters == QUIET for one in sent))

    def test_without_dtx_all_frames_are_speech(self) -> None:
        self.assertTrue(all(one.sp for one in sent_frames(frames("." * 9, on=False))))

    def test_no_frames(self) -> None:
        self.assertEqual(sent_frames([]), [])


class Descriptors(unittest.TestCase):
    """What a silence descriptor has."""

    def test_of_silence(self) -> None:
        self.assertEqual(DESCRIPTOR.larc, code_ratios([0] * 8))
        self.assertEqual(DESCRIPTOR.blocks, (Block(0, 0, 0, 0, (0,) * 13),) * 4)

    def test_means_are_cut_to_the_number_below(self) -> None:
        def coded(lar: int, xmax: int) -> Coded:
            return Coded(Encoded(QUIET, Trace((lar,) * 8, (xmax, 0, 0, 0)), 0), 256, True)

        made = silence_descriptor([coded(-1, 8191), coded(0, 0), coded(0, 0), coded(0, 0)])
        self.assertEqual(made.larc, code_ratios([-1] * 8))
        self.assertEqual([block.xmaxc for block in made.blocks], [511 >> 5] * 4)


if __name__ == "__main__":
    unittest.main()
