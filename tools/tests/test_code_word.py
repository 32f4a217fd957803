"""Tests of code_word.py: the code word of silence descriptors, beside the library libosmocodec where it is installed; and what
`lines.py uplink` makes of descriptors."""

import ctypes
import ctypes.util
import random
import unittest
from collections import Counter

from support import CODEC, DATA, EXAMPLES, InFolder, frames_of_downlink

from trau.recordings import code_word
from trau.recordings import lines
from trau.recordings.code_word import CODE_WORD_BITS
from trau.rules.frame import FrameKind, bits_of, control_of, data_of, read_up
from trau.rules.noise import RandomSource, comfort_noise
from trau.rules.parameters import (
    LARC_WIDTHS,
    Block,
    Parameters,
    bits_of_parameters,
    gsm_of_data,
    parameters_of_bits,
)
from trau.rules.search import search
from trau.recordings.damages import silence_descriptor

LIBRARY = ctypes.util.find_library("osmocodec")


def with_errors(data, errors, source):
    """The bits with so many of the code word turned."""
    bits = list(data)
    for place in source.sample(CODE_WORD_BITS, errors):
        bits[place] = "10"[int(bits[place])]
    return "".join(bits)


def data_of_line(octets):
    """D1 to D260 of each frame of an uplink or a downlink."""
    return [data_of(frame) for frame in frames_of_downlink(bits_of(octets))]


def descriptor(source):
    """A silence descriptor with any spectrum and loudness."""
    ratios = tuple(source.randrange(1 << width) for width in LARC_WIDTHS)
    speech = Parameters(ratios, 4 * (Block(0, 0, 0, source.randrange(64), 13 * (0,)),))
    return bits_of_parameters(silence_descriptor(speech))


class CodeWord(InFolder):
    def test_places(self):
        # In 33 octets the most significant bit of each parameter is first: 95 places there, by GSM 05.03 the pulses' bits in class I.
        self.assertEqual((len(CODE_WORD_BITS), len(set(CODE_WORD_BITS))), (95, 95))
        ones = "".join("1" if place in CODE_WORD_BITS else "0" for place in range(260))
        pulses = [pulse for block in parameters_of_bits(ones).blocks for pulse in block.xmc]
        self.assertEqual(pulses, 43 * [0b110] + 9 * [0b100])
        read = parameters_of_bits(ones)
        self.assertEqual([*read.larc, *(value for b in read.blocks for value in b[:4])], 24 * [0])

    def test_limits(self):
        source = random.Random(1)
        for errors in range(96):
            data = with_errors(descriptor(source), errors, source)
            self.assertEqual(code_word.errors_of(data), errors)
            kind = (
                FrameKind.VALID_SID
                if errors < 2
                else FrameKind.INVALID_SID
                if errors < 16
                else FrameKind.SPEECH
            )
            self.assertEqual(code_word.kind_of(data), kind)

    def test_speech_is_speech(self):
        lines = [CODEC / "speech-en-m3.down", CODEC / "speech-loud-m7.down", EXAMPLES / "7.up"]
        for name in lines:
            least = min(map(code_word.errors_of, data_of_line(name.read_bytes())))
            self.assertGreaterEqual(least, 24, name)
        # Not so for a line that nobody speaks on: three frames of steps and pulses at full scale look like descriptors.
        kinds = Counter(map(code_word.kind_of, data_of_line((CODEC / "harsh.down").read_bytes())))
        self.assertEqual(
            kinds, {FrameKind.SPEECH: 251, FrameKind.VALID_SID: 1, FrameKind.INVALID_SID: 2}
        )

    def test_descriptors_of_a_downlink(self):
        # The silence descriptors that a run sent, SP 0, have the whole code word, and its comfort noise has none.
        bits = bits_of((EXAMPLES / "farm" / "wanted" / "2.down").read_bytes())
        for frame in frames_of_downlink(bits):
            speech = control_of(frame)[15] == "1"
            errors = code_word.errors_of(data_of(frame))
            self.assertTrue(errors >= 16 if speech else errors == 0, errors)


@unittest.skipUnless(LIBRARY, "libosmocore-dev isn't installed")
class BesideTheLibrary(unittest.TestCase):
    """`osmo_fr_check_sid` says whether all bits of the code word are 0, in the 33 octets of a frame."""

    def setUp(self):
        self.check = ctypes.CDLL(LIBRARY).osmo_fr_check_sid
        self.check.restype = ctypes.c_bool
        self.check.argtypes = (ctypes.c_char_p, ctypes.c_size_t)

    def assert_alike(self, data):
        octets = gsm_of_data(data)
        self.assertEqual(self.check(octets, len(octets)), code_word.errors_of(data) == 0, data)
        return self.check(octets, len(octets))

    def test_speech_and_noise(self):
        source = RandomSource(1)
        names = [
            *CODEC.glob("*.down"),
            *(EXAMPLES / "farm").glob("*.up"),
            *(EXAMPLES / "farm" / "wanted").glob("*.down"),
        ]
        found = Counter()
        for name in names:
            for data in data_of_line(name.read_bytes()):
                found[self.assert_alike(data)] += 1
                noise = bits_of_parameters(comfort_noise(parameters_of_bits(data), source, 0))
                self.assertFalse(self.assert_alike(noise))
                self.assertTrue(
                    self.assert_alike(
                        bits_of_parameters(silence_descriptor(parameters_of_bits(data)))
                    )
                )
        self.assertGreater(min(found[True], found[False]), 20)

    def test_random_frames(self):
        source = random.Random(2)
        for _ in range(2000):
            self.assertFalse(self.assert_alike(f"{source.getrandbits(260):0260b}"))
            data = list(f"{source.getrandbits(260):0260b}")
            for place in CODE_WORD_BITS:
                data[place] = "0"
            self.assertTrue(self.assert_alike("".join(data)))
            self.assert_alike(with_errors("".join(data), source.randrange(4), source))

    def test_each_bit(self):
        for place in range(260):
            data = "".join("1" if place == other else "0" for other in range(260))
            self.assertEqual(self.assert_alike(data), place not in CODE_WORD_BITS)


class Uplinks(InFolder):
    def uplink(self, frames, *words):
        """What is said of an uplink of frames with these bits, and the kinds of its frames."""
        given = self.path("given.gsm", b"".join(map(gsm_of_data, frames)))
        status, out, err = self.run_tool(lines.main, "uplink", given, self.path("7.up"), *words)
        self.assertEqual((status, err), (0, ""))
        octets = self.path("7.up").read_bytes()
        self.assertEqual(data_of_line(octets), frames)
        return out, list(search(bits_of(octets)))

    def test_marked(self):
        source = random.Random(3)
        speech = data_of_line((EXAMPLES / "7.up").read_bytes())[:2]
        frames = speech + [
            with_errors(descriptor(source), errors, source) for errors in (0, 1, 2, 15, 16)
        ]
        said, found = self.uplink(frames)
        self.assertEqual(said, "uplink frames 7 sid 2 invalid 2\n")
        kinds = [each.kind() for each in found]
        self.assertEqual(
            kinds,
            [
                *2 * [FrameKind.SPEECH],
                *2 * [FrameKind.VALID_SID],
                *2 * [FrameKind.INVALID_SID],
                FrameKind.SPEECH,
            ],
        )
        self.assertEqual(
            [control_of(each.frame)[11:14] for each in found[2:6]], ["010", "010", "101", "101"]
        )
        self.assertEqual({read_up(each.frame)[1:4] for each in found}, {(False, False, 0)})

    def test_kept(self):
        said, found = self.uplink(
            10 * [descriptor(random.Random(4))], "--sid", "keep", "--dtxd", "1"
        )
        self.assertEqual(said, "uplink frames 10 sid 0 invalid 0\n")
        self.assertEqual({each.kind() for each in found}, {FrameKind.SPEECH})

    def test_a_downlink_there_and_back(self):
        down, new = EXAMPLES / "farm" / "wanted" / "2.down", self.path("2.gsm")
        self.run_tool(lines.main, "gsm", down, new, "--silence", "keep")
        said = self.run_tool(lines.main, "uplink", new, self.path("2.up"))
        self.assertEqual(said, (0, "uplink frames 99 sid 8 invalid 0\n", ""))
        self.run_tool(lines.main, "uplink", DATA / "speech.gsm", self.path("3.up"))
        self.assertEqual(self.path("3.up").read_bytes(), (EXAMPLES / "7.up").read_bytes()[:1600])


if __name__ == "__main__":
    unittest.main()
