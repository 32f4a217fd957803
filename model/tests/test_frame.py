"""Tests of the frame of 320 bits and of the 260 bits of parameters."""

import itertools
import unittest

from material import DOWN, IDLE_DOWN, QUIET, UP, speech
from trau.rules.frame import (
    SPEECH_CLASSES,
    DownFrame,
    FrameKind,
    UpFrame,
    bits_of,
    control_of,
    data_of,
    frame_of,
    octets_of,
)
from trau.rules.frame import read_down, read_up, write_down, write_up
from trau.rules.parameters import (
    SILENCE,
    WIDTHS,
    bits_of_parameters,
    parameters_of_bits,
    parameters_of_values,
)
from trau.rules.search import FRAME


class Places(unittest.TestCase):
    """The places of the bits."""

    def test_the_places_of_the_standard(self) -> None:
        ones = [*range(16, 320, 16), *range(316, 320)]
        for n in range(1, 22):
            frame = frame_of("0" * (n - 1) + "1" + "0" * (21 - n), "0" * 260)
            self.assertEqual(
                [k for k in range(320) if frame[k] == "1"],
                sorted([*ones, n + 16 if n <= 15 else n + 294]),
            )
            self.assertEqual(control_of(frame).find("1"), n - 1)
        for n in range(1, 261):
            frame = frame_of("0" * 21, "0" * (n - 1) + "1" + "0" * (260 - n))
            self.assertEqual(
                [k for k in range(320) if frame[k] == "1"],
                sorted([*ones, n + 32 + (n - 1) // 15 if n <= 255 else n + 49]),
            )
            self.assertEqual(data_of(frame).find("1"), n - 1)

    def test_sync_bits(self) -> None:
        sync, bits = [*range(16), *range(16, 320, 16)], bits_of(UP)
        self.assertEqual(len(sync), 35)
        for place in range(320):
            turned = bits[:place] + str(1 - int(bits[place])) + bits[place + 1 :]
            self.assertEqual(FRAME.fullmatch(turned) is None, place in sync)


class Frames(unittest.TestCase):
    """Reading and writing frames."""

    def test_a_good_frame(self) -> None:
        self.assertEqual(read_up(bits_of(UP)), speech(QUIET))
        self.assertEqual(octets_of(write_up(speech(QUIET))), UP)

    def test_frames_down(self) -> None:
        self.assertEqual(
            octets_of(write_down(DownFrame(FrameKind.SPEECH, bits_of_parameters(QUIET)))), DOWN
        )
        self.assertEqual(octets_of(write_down(DownFrame(FrameKind.IDLE))), IDLE_DOWN)
        self.assertEqual(
            read_down(bits_of(DOWN)[:316]), DownFrame(FrameKind.SPEECH, bits_of_parameters(QUIET))
        )
        self.assertEqual(read_down(bits_of(IDLE_DOWN)).kind, FrameKind.IDLE)
        self.assertEqual(read_down(bits_of(UP)).kind, FrameKind.OTHER)

    def test_a_silence_descriptor_down(self) -> None:
        frame = DownFrame(FrameKind.VALID_SID, bits_of_parameters(QUIET))
        self.assertEqual(octets_of(write_down(frame)), DOWN[:38] + b"\xa5\xff")
        self.assertEqual(read_down(write_down(frame)), frame)

    def test_classes(self) -> None:
        words = {}
        for bfi, first, second in itertools.product((0, 1), repeat=3):
            bits = bits_of(UP)
            words[bfi, first, second] = read_up(
                f"{bits[:28]}{bfi}{first}{second}{bits[31:]}"
            ).kind.value
        by_descriptor = [
            [words[bfi, first, second] for bfi in (0, 1)]
            for first, second in itertools.product((0, 1), repeat=2)
        ]
        self.assertEqual(
            by_descriptor,
            [["good", "bad"], ["invalid", "invalid"], ["sid", "invalid"], ["invalid", "invalid"]],
        )

    def test_other_frames_are_unusable(self) -> None:
        for kind in (FrameKind.IDLE, FrameKind.OTHER):
            frame = UpFrame(kind, True, True, 26, "01" * 130)
            self.assertEqual(
                (read_up(write_up(frame)), control_of(write_up(frame))[11:14]), (frame, "100")
            )

    def test_control_bits_come_back(self) -> None:
        for kind, field, taf in itertools.product(SPEECH_CLASSES, (0, 1, 32, 63), (False, True)):
            frame = speech(QUIET, kind, field, taf, not taf)
            self.assertEqual(read_up(write_up(frame)), frame)


class Parameters(unittest.TestCase):
    """The 260 bits."""

    def test_least_and_greatest(self) -> None:
        for bit in (0, 1):
            parameters = parameters_of_values([bit * (2**width - 1) for width in WIDTHS])
            self.assertEqual(bits_of_parameters(parameters), str(bit) * 260)
            self.assertEqual(parameters_of_bits(str(bit) * 260), parameters)

    def test_least_significant_bit_first(self) -> None:
        self.assertEqual(bits_of_parameters(QUIET)[:12], "000001" * 2)
        self.assertEqual(bits_of_parameters(QUIET)[36:43], "0001010")

    def test_silence_comes_back(self) -> None:
        self.assertEqual(parameters_of_bits(bits_of_parameters(SILENCE)), SILENCE)


if __name__ == "__main__":
    unittest.main()
