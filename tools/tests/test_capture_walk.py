"""The walk over the packets of captures (trau.recordings.capture_walk): both kinds, either order of
octets, each interface's own clock; and captures that are broken in any way end with a named fault.
"""

import random
import struct
import unittest

from captured_packets import CapturedPacket, packets
from support import DATA

from trau.recordings.capture_walk import BrokenCapture

SEED = 3
FIRST = b"\x45" * 60
SECOND = b"\x60" * 61
ETHERNET, SLL = 1, 113


def pcap(parts, order="<", magic=0xA1B2C3D4):
    """A pcap capture of packets (seconds, part of one, octets, sent)."""
    head = struct.pack(f"{order}IHHiIII", magic, 2, 4, 0, 0, 65535, ETHERNET)
    return head + b"".join(
        struct.pack(f"{order}IIII", seconds, part, len(octets), sent) + octets
        for seconds, part, octets, sent in parts
    )


def block(kind, body, order="<"):
    """A block of pcapng."""
    body += bytes(-len(body) % 4)
    size = struct.pack(f"{order}I", len(body) + 12)
    return struct.pack(f"{order}I", kind) + size + body + size


def section(order="<"):
    """The block that begins a section."""
    return block(0x0A0D0D0A, struct.pack(f"{order}IHHq", 0x1A2B3C4D, 1, 0, -1), order)


def interface(link, options=b"", order="<"):
    """The block of an interface."""
    return block(1, struct.pack(f"{order}HHI", link, 0, 65535) + options, order)


def option(code, value, order="<"):
    """An option of a block."""
    return struct.pack(f"{order}HH", code, len(value)) + value + bytes(-len(value) % 4)


def enhanced(which, ticks, octets, sent=None, order="<"):
    """The block of a packet."""
    sizes = (ticks >> 32, ticks & 0xFFFFFFFF, len(octets), sent or len(octets))
    return block(6, struct.pack(f"{order}IIIII", which, *sizes) + octets, order)


class Whole(unittest.TestCase):
    """Captures that are whole."""

    def test_pcap(self):
        wanted = [
            CapturedPacket(1, 17.25, ETHERNET, FIRST, 60),
            CapturedPacket(2, 17.5, ETHERNET, SECOND, 1500),
        ]
        for order in "<>":
            for magic, ticks in ((0xA1B2C3D4, 10**6), (0xA1B23C4D, 10**9)):
                parts = [(17, ticks // 4, FIRST, 60), (17, ticks // 2, SECOND, 1500)]
                self.assertEqual(list(packets(pcap(parts, order, magic))), wanted)

    def test_interfaces_of_their_own(self):
        for order in "<>":
            nanoseconds = option(9, b"\x09", order) + option(
                14, struct.pack(f"{order}q", 100), order
            )
            capture = section(order) + interface(ETHERNET, order=order)
            capture += interface(SLL, nanoseconds + option(0, b"", order), order)
            capture += enhanced(0, 17_250_000, FIRST, order=order)
            capture += block(5, b"statistics", order)
            capture += enhanced(1, 17_500_000_000, SECOND, 1500, order)
            capture += block(3, struct.pack(f"{order}I", 70) + FIRST, order)
            capture += block(
                2, struct.pack(f"{order}HHIIII", 1, 0, 0, 2**31, 60, 60) + FIRST, order
            )
            wanted = [
                CapturedPacket(1, 17.25, ETHERNET, FIRST, 60),
                CapturedPacket(2, 117.5, SLL, SECOND, 1500),
                CapturedPacket(3, 117.5, ETHERNET, FIRST, 70),
                CapturedPacket(4, 100 + 2**31 / 1e9, SLL, FIRST, 60),
            ]
            self.assertEqual(list(packets(capture)), wanted)

    def test_sections_with_interfaces_of_their_own(self):
        one = section("<") + interface(ETHERNET) + enhanced(0, 10**6, FIRST)
        other = section(">") + interface(SLL, order=">") + enhanced(0, 10**6, SECOND, order=">")
        found = [(each.link, each.octets) for each in packets(one + other)]
        self.assertEqual(found, [(ETHERNET, FIRST), (SLL, SECOND)])

    def test_clocks(self):
        """Options of the clock: empty ones and impossible ones count as absent."""
        for value, ticks in ((b"", 10**6), (b"\x03", 1000), (b"\x8a", 1024), (b"\xff", 10**6)):
            options = option(9, value)
            capture = section() + interface(ETHERNET, options) + enhanced(0, 5 * ticks, FIRST)
            self.assertEqual([each.time for each in packets(capture)], [5.0], value)

    def test_captures_of_other_programs(self):
        counts = {"gsm.pcap": 30, "pcma.pcapng": 17, "pcmu.pcap": 31, "gstreamer.pcap": 87}
        for name, rtp in counts.items():
            found = list(packets((DATA / name).read_bytes()))
            self.assertEqual([each.number for each in found], list(range(1, len(found) + 1)))
            self.assertGreaterEqual(len(found), rtp)
            self.assertTrue(all(len(each.octets) <= each.sent for each in found))


class Broken(unittest.TestCase):
    """Captures that end too early, and others."""

    def read(self, capture):
        """How many packets come, and what is wrong then."""
        count = 0
        try:
            for _ in packets(capture):
                count += 1
        except BrokenCapture as failure:
            return count, str(failure)
        return count, ""

    def test_cut_anywhere(self):
        parts = [(17, 0, FIRST, 60), (18, 0, SECOND, 61)]
        whole = {
            "pcap": pcap(parts),
            "pcapng": section() + interface(1) + enhanced(0, 1, FIRST) + enhanced(0, 2, SECOND),
        }
        for name, capture in whole.items():
            self.assertEqual(self.read(capture), (2, ""))
            is_end = 0
            for size in range(len(capture)):
                count, wrong = self.read(capture[:size])
                self.assertLess(count, 2, (name, size))
                is_end += not wrong
            # Between packets, and between blocks.
            self.assertEqual(is_end, {"pcap": 2, "pcapng": 3}[name])

    def test_named(self):
        self.assertEqual(self.read(b"no capture"), (0, "begins as no capture does"))
        self.assertEqual(self.read(pcap([])[:20]), (0, "ends within its head"))
        long = pcap([(17, 0, FIRST, 60)]) + struct.pack("<IIII", 18, 0, 1 << 30, 60)
        self.assertEqual(self.read(long), (1, f"packet 2 would have {1 << 30} octets"))
        none = section() + enhanced(0, 1, FIRST)
        self.assertIn("of an interface that it doesn't have", self.read(none)[1])
        self.assertIn("block of 0 octets", self.read(section() + bytes(40))[1])

    def test_mutated(self):
        """Nothing else is raised, whatever the octets are."""
        source = random.Random(SEED)
        for name in ("gsm.pcap", "pcma.pcapng", "osmo.pcap"):
            capture = (DATA / name).read_bytes()
            for _ in range(100):
                changed = bytearray(capture[: source.randrange(40, 4000)])
                for _ in range(source.randrange(1, 8)):
                    changed[source.randrange(len(changed))] = source.randrange(256)
                self.read(bytes(changed))


if __name__ == "__main__":
    unittest.main()
