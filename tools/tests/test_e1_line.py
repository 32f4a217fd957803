"""E1 lines block by block (trau.recordings.e1_line): found at any bit and in either order, and
found again after octets were lost."""

import random
import unittest

import e1_lines

from trau.recordings.e1_line import LineReader, signal_way

SEED = 4
PERIODS = 60


def made():
    """A line of random slots."""
    source = random.Random(SEED)
    slots = {number: source.randbytes(160 * PERIODS) for number in range(1, 32)}
    return e1_lines.line(PERIODS, slots)


def blocks_of(octets, size):
    """Octets in blocks of a size."""
    return [octets[start : start + size] for start in range(0, len(octets), size)]


class Alignment(unittest.TestCase):
    """Where slot 0 begins."""

    def test_any_bit_and_order(self):
        line = made()
        for bits in (0, 1, 7, 8, 100, 165, 255, 256, 300, 511):
            for is_turned in (False, True):
                octets = e1_lines.recorded(line, bits, is_turned)
                way = signal_way(octets[: 1 << 17])
                self.assertEqual((way.turned, way.bit), (is_turned, -bits % 512), (bits, is_turned))
                found = list(LineReader(way).blocks(blocks_of(octets, 50_000)))
                self.assertEqual(
                    [block.is_anew for block in found], [True] + [False] * (len(found) - 1)
                )
                joined = b"".join(block.octets for block in found)
                skipped = bits + way.bit
                self.assertEqual(joined, line[skipped // 8 :][: len(joined)])
                self.assertGreater(len(joined), len(line) - 200)
                frames = [block.frame * 32 for block in found]
                starts = [
                    sum(len(block.octets) for block in found[:at]) for at in range(len(found))
                ]
                self.assertEqual(frames, [way.bit // 256 * 32 + start for start in starts])

    def test_no_signal(self):
        for octets in (
            b"",
            random.Random(SEED).randbytes(200_000),
            b"\xff" * 99_999,
            bytes(99_999),
        ):
            self.assertIsNone(signal_way(octets))


class LostOctets(unittest.TestCase):
    """Recordings that lose or gain octets in their middle."""

    def assert_found(self, octets, line, lost_at, gap):
        """The line's frames but few are found; what follows the loss is what the line has there."""
        reader = LineReader(signal_way(octets[: 1 << 17]))
        found = list(reader.blocks(blocks_of(octets, 70_001)))
        (place,) = reader.breaks
        self.assertLess(abs(32 * place - lost_at), 300)
        anew = [at for at, block in enumerate(found) if block.is_anew]
        self.assertEqual((len(anew), anew[0]), (2, 0))
        before = b"".join(block.octets for block in found[: anew[1]])
        after = b"".join(block.octets for block in found[anew[1] :])
        self.assertEqual(before[: lost_at - 64], line[: lost_at - 64])
        self.assertTrue(line.endswith(after))
        self.assertGreater(len(after), len(line) - lost_at - max(0, gap) - 300)
        self.assertLess(abs(found[anew[1]].frame * 32 - lost_at), 300 + max(0, -gap))

    def test_lost(self):
        line = made()
        for lost_at in (140_000, 140_017, 200_001):
            for gap in (1, 5, 33, 1000):
                octets = line[:lost_at] + line[lost_at + gap :]
                with self.subTest(lost_at=lost_at, gap=gap):
                    self.assert_found(octets, line, lost_at, gap)

    def test_gained(self):
        line, source = made(), random.Random(SEED)
        for gap in (1, 31, 700):
            octets = line[:150_003] + source.randbytes(gap) + line[150_003:]
            with self.subTest(gap=gap):
                self.assert_found(octets, line, 150_003, -gap)

    def test_wrong_bits_alone(self):
        """A signal that is wrong for a while loses nothing."""
        line = bytearray(made())
        for frame in (2000, 2002, 2004, 2006, 5000, 7000):
            line[32 * frame] ^= 8
        reader = LineReader(signal_way(bytes(line[: 1 << 17])))
        found = list(reader.blocks(blocks_of(bytes(line), 70_001)))
        self.assertEqual(
            (reader.breaks, b"".join(block.octets for block in found)), ([], bytes(line))
        )

    def test_a_line_that_is_gone(self):
        """Ones for a while, as where the line was unplugged."""
        line = bytearray(made())
        line[120_000:220_000] = b"\xff" * 100_000
        reader = LineReader(signal_way(bytes(line[: 1 << 17])))
        found = list(reader.blocks(blocks_of(bytes(line), 70_001)))
        self.assertEqual(
            (reader.breaks, b"".join(block.octets for block in found)), ([], bytes(line))
        )


if __name__ == "__main__":
    unittest.main()
