"""All frames of slots at once (trau.rules.hunt), beside the search by an expression over the bits
of each channel."""

import random
import unittest

from support import EXAMPLES

from trau.rules import hunt
from trau.rules.frame import bits_of
from trau.rules.search import FRAME_OF_DOWNLINK
from trau.rules.slots import CHANNELS, channel_octets, merge, octets_from

RANDOM_SEED = 7


def line(periods=20, first=0):
    """So many periods of recorded speech."""
    return (EXAMPLES / "7.up").read_bytes()[40 * first : 40 * (first + periods)]


def by_expression(slot, channel):
    """The marks of a channel's frames, in bits of the slot: those that the expression finds,
    overlapping ones too."""
    bits, found, place = bits_of(channel_octets(slot, channel)), [], 0
    while match := FRAME_OF_DOWNLINK.search(bits, place):
        last_one = match.start() + 304
        found.append(last_one // 2 * 8 + 2 * channel + last_one % 2)
        place = match.start() + 1
    return found


def by_hunt(octets, stride):
    """The marks of all frames of octets of slots."""
    return hunt.places(hunt.marks(hunt.hits(octets, stride), len(octets)), len(octets))


class AllFrames(unittest.TestCase):
    """What is found is what the expression finds in each channel."""

    def assert_same(self, slot):
        """The frames of a slot alone, and of the slot on a line of 32."""
        wanted = sorted(
            mark for channel in range(CHANNELS) for mark in by_expression(slot, channel)
        )

        def is_whole(place, bit):
            """The expression wants the eleven bits after the last sync bit too."""
            return 2 * place + bit % 2 + 12 <= len(slot) // 4 * 8

        self.assertEqual([m for m in by_hunt(slot, 1) if is_whole(m // 8, m)], wanted)
        octets = bytearray(32 * len(slot))
        octets[5::32] = slot
        on_line = [m for m in by_hunt(bytes(octets), 32) if is_whole(m // 256, m)]
        self.assertEqual([m // 256 * 8 + m % 8 for m in on_line], wanted)
        self.assertEqual({m // 8 % 32 for m in on_line} - {5}, set())
        return len(wanted)

    def test_each_channel_and_offset(self):
        for bit in range(8):
            for channel in range(CHANNELS):
                channels = [b"\xff" * 800] * CHANNELS
                channels[channel] = octets_from(b"\xff" + line(), 8 - bit) if bit else line()
                channels[channel] = (channels[channel] + b"\xff" * 8)[:800]
                with self.subTest(bit=bit, channel=channel):
                    self.assertGreaterEqual(self.assert_same(merge(channels)), 19)

    def test_four_channels_and_random_octets(self):
        self.assert_same(merge([line(20, first) for first in (0, 30, 60, 90)]))
        source = random.Random(RANDOM_SEED)
        self.assertEqual(self.assert_same(source.randbytes(4000)), 0)
        damaged = bytearray(merge([line()] * 4))
        for _ in range(40):
            damaged[source.randrange(len(damaged))] ^= 1 << source.randrange(8)
        self.assert_same(bytes(damaged))

    def test_zeros_and_ones(self):
        for octets in (b"", b"\0" * 999, b"\xff" * 999, b"\x55" * 999):
            self.assertEqual(by_hunt(octets, 1), [])


class Places(unittest.TestCase):
    """The bits of a big integer that are set."""

    def test_places(self):
        self.assertEqual(hunt.places(0, 4), [])
        self.assertEqual(hunt.places(0x80010000, 4), [0, 15])
        source = random.Random(RANDOM_SEED)
        wanted = sorted(source.sample(range(8 * 500), 60))
        value = sum(1 << 8 * 500 - 1 - place for place in wanted)
        self.assertEqual(hunt.places(value, 500), wanted)

    def test_a_million_zeros_at_the_end(self):
        self.assertEqual(hunt.places(1 << 8_000_000, 1_000_001), [7])


if __name__ == "__main__":
    unittest.main()
