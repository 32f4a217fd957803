"""Tests of A-law and mu-law."""

import unittest

from material import CODEC
from trau.rules.g711 import Law, compress_all, expand_all


class Laws(unittest.TestCase):
    """Single octets and samples, and the recorded tables of other implementations."""

    def test_octets_of_a_law(self) -> None:
        self.assertEqual(expand_all(Law.A, (0xD5, 0x55, 0xAA, 0x2A)), [8, -8, 32256, -32256])

    def test_samples_of_a_law(self) -> None:
        self.assertEqual(
            list(compress_all(Law.A, (0, -1, 16, 32767, -32768))), [0xD5, 0x55, 0xD4, 0xAA, 0x2A]
        )

    def test_octets_of_mu_law(self) -> None:
        self.assertEqual(
            expand_all(Law.MU, (0xFF, 0x7F, 0xFE, 0x80, 0x00)), [0, 0, 8, 32124, -32124]
        )

    def test_samples_of_mu_law(self) -> None:
        codes = list(compress_all(Law.MU, (0, 3, 4, -1, -5, 32767, -32768)))
        self.assertEqual(codes, [0xFF, 0xFF, 0xFE, 0x7F, 0x7E, 0x80, 0x00])

    def test_octets_come_back(self) -> None:
        octets = bytes(range(256))
        self.assertEqual(compress_all(Law.A, expand_all(Law.A, octets)), octets)
        self.assertEqual(
            compress_all(Law.MU, expand_all(Law.MU, octets)), octets.replace(b"\x7f", b"\xff")
        )

    def test_idle_octets(self) -> None:
        self.assertEqual([law.idle() for law in Law], [0xD5, 0xFF])
        self.assertEqual([compress_all(law, [0])[0] for law in Law], [0xD5, 0xFF])

    def test_recorded_samples(self) -> None:
        for law, name in ((Law.A, "alaw_expand.txt"), (Law.MU, "mulaw_expand.txt")):
            self.assertEqual(
                expand_all(law, range(256)),
                [int(word) for word in (CODEC / name).read_text().split()],
            )

    def test_recorded_octets_of_a_law(self) -> None:
        self.assertEqual(
            compress_all(Law.A, range(-32768, 32768)), (CODEC / "alaw_compress.bin").read_bytes()
        )

    def test_recorded_octets_of_mu_law(self) -> None:
        recorded = (CODEC / "mulaw_compress.bin").read_bytes()
        self.assertEqual(compress_all(Law.MU, range(32768)), recorded)
        self.assertEqual(
            compress_all(Law.MU, range(-1, -32769, -1)), bytes(octet & 0x7F for octet in recorded)
        )


if __name__ == "__main__":
    unittest.main()
