"""Tests of the codec: worked frames, and recorded answers of other implementations."""

import unittest
from typing import List

from material import CODEC, QUIET, QUIET_BLOCK
from trau.rules.frame import bits_of, read_up
from trau.rules.g711 import Law, expand_all
from trau.rules.parameters import (
    WIDTHS,
    Block,
    Parameters,
    parameters_of_bits,
    parameters_of_values,
    values_of,
)
from trau.model.codec import (
    FullRateDecoder,
    FullRateEncoder,
    code_maximum,
    exponent_and_mantissa,
    reflection_coefficients,
)

GREATEST = parameters_of_values([2**width - 1 for width in WIDTHS])


def encoded(name: str, frames: int) -> List[Parameters]:
    """The parameters of the first frames of a recorded line of A-law, from home."""
    samples = expand_all(Law.A, (CODEC / name).read_bytes()[: 160 * frames])
    encoder = FullRateEncoder()
    return [
        encoder.encode(samples[start : start + 160]).parameters
        for start in range(0, len(samples), 160)
    ]


def parameters_on(name: str) -> List[Parameters]:
    """The parameters of the frames of a recorded line without gaps."""
    octets = (CODEC / name).read_bytes()
    return [
        parameters_of_bits(read_up(bits_of(octets[start : start + 40])).data)
        for start in range(0, len(octets), 40)
    ]


class Encoding(unittest.TestCase):
    """The encoder from home."""

    def test_silence(self) -> None:
        coded = FullRateEncoder().encode([0] * 160)
        self.assertEqual(coded.parameters, QUIET)
        self.assertEqual((coded.trace.lar, coded.trace.xmax, coded.peak), ((0,) * 8, (0,) * 4, 0))

    def test_no_coefficients_of_silence(self) -> None:
        self.assertEqual(reflection_coefficients([0] * 9), [0] * 8)

    def test_maxima(self) -> None:
        self.assertEqual(
            [code_maximum(xmax) for xmax in (0, 511, 512, 1023, 1024, 32767)],
            [0, 15, 16, 23, 24, 63],
        )

    def test_exponents_and_mantissas(self) -> None:
        self.assertEqual(
            [exponent_and_mantissa(code) for code in (0, 1, 15, 16, 63)],
            [(-4, 7), (-3, 7), (0, 7), (1, 0), (6, 7)],
        )

    def test_recorded_harsh_samples(self) -> None:
        """Noise, square waves, steps, tones at all levels, impulses and silence."""
        recorded = [
            tuple(map(int, row.split()))
            for row in (CODEC / "harsh.parameters.txt").read_text().splitlines()
        ]
        self.assertEqual([tuple(values_of(one)) for one in encoded("harsh.pcm", 254)], recorded)

    def test_recorded_speech(self) -> None:
        for name in ("speech-en-m3", "speech-loud-m7"):
            self.assertEqual(encoded(name + ".pcm", 100), parameters_on(name + ".down")[:100])


class Decoding(unittest.TestCase):
    """The decoder from home."""

    def test_silence(self) -> None:
        self.assertEqual(FullRateDecoder().decode(QUIET)[:7], [8, 0, 0, 8, 8, 8, 16])

    def test_lag_out_of_range(self) -> None:
        """In a first frame it is taken as 40, and later as the one before."""
        far, near = (
            QUIET._replace(blocks=(Block(nc, 3, 0, 40, (7,) * 13),) * 4) for nc in (127, 40)
        )
        self.assertEqual(FullRateDecoder().decode(far), FullRateDecoder().decode(near))
        first = QUIET._replace(blocks=(QUIET_BLOCK._replace(nc=77),) * 4)
        decoder, other = FullRateDecoder(), FullRateDecoder()
        decoder.decode(first), other.decode(first)
        again = far._replace(blocks=tuple(block._replace(nc=77) for block in far.blocks))
        self.assertEqual(decoder.decode(far), other.decode(again))

    def test_greatest_parameters(self) -> None:
        self.assertTrue(
            all(-32768 <= sample <= 32767 for sample in FullRateDecoder().decode(GREATEST))
        )

    def test_recorded_samples(self) -> None:
        rows = [
            list(map(int, row.split()))
            for row in (CODEC / "harsh.samples.txt").read_text().splitlines()
        ]
        decoder = FullRateDecoder()
        self.assertEqual([decoder.decode(one) for one in parameters_on("harsh.samples.up")], rows)


if __name__ == "__main__":
    unittest.main()
