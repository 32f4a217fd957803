"""`lines.py scan`: E1 recordings that the tests make, slots alone, and captures of other programs.
"""

import csv
import io
import json
import os
import random
import struct
import unittest

import capture_files
import e1_lines
from capture_files import HAS_DPKT
from support import DATA, EXAMPLES, InFolder

from trau.recordings import lines
from trau.rules.frame import bits_of, octets_of
from trau.rules.search import FRAME_OF_DOWNLINK
from trau.rules.slots import merge

SEED = 6
PERIODS = 700
VOICE = (EXAMPLES / "farm" / "1.pcm").read_bytes()[:16000]


def busy_line():
    """A line with busy, late, shifted and G.711 slots, and what is in it: slot, channel, first
    period, frames."""
    wanted, slots = [], {}
    for number, bits in ((1, 0), (2, 3), (3, 6)):
        channels = {}
        for channel in range(4):
            start = 30 + 50 * channel
            channels[channel] = e1_lines.channel(
                PERIODS,
                (start, e1_lines.uplink(200, channel)),
                (500, e1_lines.uplink(100, 9)),
                bits=bits,
            )
            wanted += [(number, channel, start, 200), (number, channel, 500, 100)]
        slots[number] = e1_lines.slot(PERIODS, channels)
    slots[5] = e1_lines.slot(PERIODS, {2: e1_lines.channel(PERIODS, (600, e1_lines.uplink(60)))})
    wanted.append((5, 2, 600, 60))
    slots[9] = b"\xd5" * 24000 + VOICE * 3
    slots[9] += b"\xd5" * (160 * PERIODS - len(slots[9]))
    slots[16] = random.Random(SEED).randbytes(160 * PERIODS)
    return e1_lines.line(PERIODS, slots), sorted(wanted)


class Scans(InFolder):
    """A test of the command in a folder of its own."""

    def scan(self, name, *words):
        """The rows that the command gives as CSV."""
        status, out, err = self.run_tool(lines.main, "scan", name, "--csv", *words)
        self.assertEqual((status, err), (0, ""))
        return list(csv.DictReader(io.StringIO(out)))


class OfLines(Scans):
    """Recordings of lines."""

    def assert_line(self, rows, wanted, moved=0.0):
        """The calls are those that are wanted; nothing else has frames."""
        calls = [
            (int(row["slot"]), int(row["channel"]), float(row["start"]) + moved, int(row["frames"]))
            for row in rows
            if row["kind"] == "uplink"
        ]
        self.assertEqual(len(calls), len(wanted))
        for (*where, start, frames), (*place, period, count) in zip(sorted(calls), wanted):
            self.assertEqual((where, frames), (place, count))
            self.assertAlmostEqual(start, period / 50, delta=0.002)
        self.assertEqual({row["kind"] for row in rows}, {"uplink", "idle", "alaw", "unknown"})

    def test_any_alignment_and_order(self):
        line, wanted = busy_line()
        for bits, is_turned in ((0, False), (165, True), (7, False), (256, True)):
            name = self.path("line.e1", e1_lines.recorded(line, bits, is_turned))
            self.assert_line(self.scan(name), wanted, (bits - bits % 256) / 2_048_000)

    def test_other_slots(self):
        name = self.path("line.e1", busy_line()[0])
        rows = [row for row in self.scan(name) if row["slot"] in ("4", "9", "16")]
        found = [(row["slot"], row["kind"], row["detail"]) for row in rows]
        self.assertEqual(
            found,
            [
                ("4", "idle", "0xff"),
                *(
                    ("9", kind, detail)
                    for kind, detail in (("idle", "0xd5"), ("alaw", ""), ("idle", "0xd5"))
                ),
                ("16", "unknown", ""),
            ],
        )
        first = len(VOICE) - len(VOICE.lstrip(b"\xd5"))
        self.assertAlmostEqual(float(rows[2]["start"]), (24000 + first) / 8000, delta=0.06)

    def test_without_the_signal_from_any_pair_of_bits(self):
        """Frames show an even number of bits too few; the laws of other slots show the rest."""
        line, wanted = busy_line()
        octets = bytearray(line)
        octets[::32] = b"\xff" * len(octets[::32])
        for slot in range(17, 24):
            octets[slot::32] = octets[9::32]
        for bits, is_turned in ((3, True), (6, False)):
            name = self.path("line.e1", e1_lines.recorded(bytes(octets), bits, is_turned))
            rows = self.scan(name)
            for row in rows:  # the first whole octet is of slot 1
                row["slot"] = str((int(row["slot"]) + 1) % 32)
            self.assert_line(rows, wanted)
            laws = {row["slot"] for row in rows if row["kind"] == "alaw"}
            self.assertEqual(laws, {"9", *map(str, range(17, 24))})

    def test_octets_lost_in_its_middle(self):
        line, wanted = busy_line()
        name = self.path("line.e1", line[:2_000_000] + line[2_000_333:])
        status, out, err = self.run_tool(lines.main, "scan", name, "--csv")
        self.assertEqual(
            (status, err), (0, f"{name}: octets were lost or gained, times 1, at 7.812 s\n")
        )
        calls = [row for row in csv.DictReader(io.StringIO(out)) if row["kind"] == "uplink"]
        calls.sort(key=lambda row: (row["slot"], row["channel"], float(row["start"])))
        self.assertEqual(len(calls), len(wanted))
        for row, (*place, _, count) in zip(calls, wanted):
            self.assertEqual([int(row["slot"]), int(row["channel"])], place)
            self.assertLessEqual(count - int(row["frames"]), 3)

    def test_a_slot_alone(self):
        slot = e1_lines.slot(PERIODS, {1: e1_lines.channel(PERIODS, (60, e1_lines.uplink(200)))})
        for octets in (slot, e1_lines.recorded(slot, 0, True)):
            rows = [row for row in self.scan(self.path("slot", octets)) if row["kind"] == "uplink"]
            found = [(row["channel"], row["start"], row["frames"]) for row in rows]
            self.assertEqual(found, [("1", "1.200", "200")])

    def test_losses_and_descriptors(self):
        """Of an uplink with pauses and losses: the counts that a run reports."""
        up = (EXAMPLES / "farm" / "1.up").read_bytes()
        slot = e1_lines.slot(PERIODS, {0: e1_lines.channel(PERIODS, (50, up))})
        row = self.scan(self.path("line.e1", e1_lines.line(PERIODS, {7: slot})))
        found = next(each for each in row if each["kind"] == "uplink")
        self.assertEqual((found["descriptors"], found["lost"]), ("4", "18"))

    def test_utc_and_json(self):
        name = self.path("line.e1", busy_line()[0])
        words = ("scan", name, "--json", "--begins", "2026-05-04T13:00:00")
        status, out, err = self.run_tool(lines.main, *words)
        self.assertEqual((status, err), (0, ""))
        first = next(row for row in json.loads(out) if row["kind"] == "uplink")
        self.assertEqual(first["utc"], "2026-05-04T13:00:00.600+00:00")

    def test_an_order_of_bits_that_nothing_shows(self):
        # A downlink without time bits beside zeros, on a line without the signal.
        down = (EXAMPLES / "farm" / "wanted" / "1.down").read_bytes()[:4800]
        bits = list(bits_of(down))
        for frame in FRAME_OF_DOWNLINK.finditer(bits_of(down)):
            bits[frame.start() + 316 : frame.end()] = "0" * (frame.end() - frame.start() - 316)
        line = octets_of("".join(bits))
        octets = bytearray(b"\xff" * 32 * 4 * len(line))
        octets[5::32] = merge([line, *3 * [bytes(len(line))]])
        name = self.path("line.e1", bytes(octets))
        said = "its frames don't show the order of its bits; --lsb-first or --msb-first says it"
        self.assert_refused(lines.main, ["scan", name], said)
        self.assert_refused(lines.main, ["scan", name, "--of", "32"], said)
        rows = self.scan(name, "--of", "32", "--msb-first")
        found = [(row["slot"], row["channel"]) for row in rows if row["kind"] == "downlink"]
        self.assertEqual(found, [("5", "0")])

    def test_refused(self):
        self.assert_refused(lines.main, ["scan", "-"], "standard input")
        pipe = self.folder / "pipe"
        os.mkfifo(pipe)
        for words in (["scan", pipe], ["unpack", pipe, self.folder / "calls"]):
            self.assert_refused(lines.main, words, "pipe: isn't a file; a recording is read twice")
        self.assert_refused(lines.main, ["scan", self.path("none", b"")], "holds no octets")
        up = self.path("1.up", e1_lines.uplink(100))
        self.assert_refused(lines.main, ["scan", up], "an uplink, its first frame at bit 0")
        noise = self.path("noise", random.Random(SEED).randbytes(100_000))
        self.assert_refused(lines.main, ["scan", noise], "no E1 line, time slot or capture")
        self.assert_refused(lines.main, ["scan", self.folder / "missing"], "No such file")


class OfCaptures(Scans):
    """Captures."""

    def test_senders(self):
        wanted = {
            "gsm.pcap": [("gsm", "30", "0", "0")],
            "osmo.pcap": [("gsm", "92", "5", "0")],
            "ffmpeg.pcap": [("alaw", "35", "", "3")],
            "gstreamer.pcap": [("unknown", "87", "", "3")],
            "sources.pcap": [("gsm", "25", "0", "0"), ("gsm", "14", "3", "0")],
        }
        columns = ("kind", "frames", "descriptors", "lost")
        for name, rows in wanted.items():
            found = [tuple(row[column] for column in columns) for row in self.scan(DATA / name)]
            self.assertEqual(found, rows, name)

    def test_a_dynamic_type(self):
        row = self.scan(DATA / "gstreamer.pcap", "--type", "98=gsm")[0]
        self.assertEqual((row["kind"], row["frames"]), ("gsm", "87"))

    def test_frames_of_another_codec_under_the_type_of_gsm(self):
        frames = capture_files.rtp_capture([(3, n, b"\xc5" + bytes(30), 7) for n in range(20)])
        (row,) = self.scan(self.path("efr.pcap", frames))
        said = "payload type 3: 31 octets that begin with 1100: enhanced full rate, which trau"
        self.assertEqual((row["kind"], row["frames"], row["descriptors"]), ("unknown", "20", ""))
        self.assertTrue(row["detail"].startswith(said), row["detail"])

    def test_some_packets_without_whole_frames(self):
        bodies = [capture_files.GSM_FRAME] * 10 + [bytes(7)] + [capture_files.GSM_FRAME] * 9
        given = capture_files.rtp_capture([(3, n, body, 7) for n, body in enumerate(bodies)])
        (row,) = self.scan(self.path("some.pcap", given))
        self.assertEqual((row["kind"], row["detail"]), ("gsm", "no whole frames 1"))

    def test_trau_frames_of_gsmtap(self):
        """Each sub-slot and way is a row, as a channel of a line is."""
        up = (EXAMPLES / "farm" / "1.up").read_bytes()
        down = (EXAMPLES / "farm" / "wanted" / "2.down").read_bytes()[40:80] * 100
        given = [(5, 1, True, up[at : at + 40]) for at in range(0, len(up), 40)]
        given += [(5, 1, False, down[at : at + 40]) for at in range(0, len(down), 40)]
        given += [(6, 2, True, bytes(40)) for _ in range(20)]
        rows = self.scan(self.path("tap.pcap", capture_files.gsmtap_capture(given)))
        columns = ("kind", "frames", "descriptors", "lost", "detail")
        self.assertEqual(
            [tuple(row[column] for column in columns) for row in rows],
            [
                ("uplink", "153", "4", "18", "GSMTAP slot 5 channel 1"),
                ("downlink", "100", "", "", "GSMTAP slot 5 channel 1"),
                ("unknown", "20", "", "", "GSMTAP slot 6 channel 2; no frame 20"),
            ],
        )

    def test_two_senders_with_one_ssrc(self):
        (row,) = self.scan(self.path("two.pcap", capture_files.two_senders()))
        said = "two senders with one SSRC, as it seems"
        self.assertEqual((row["kind"], row["frames"]), ("gsm", "100"))
        self.assertIn(said, row["detail"])
        # One sender that begins anew, even a few times, isn't two.
        numbers = [*range(20), *range(9000, 9020), *range(30000, 30020), *range(50000, 50020)]
        given = [(3, number, capture_files.GSM_FRAME, 7) for number in numbers]
        (row,) = self.scan(self.path("anew.pcap", capture_files.rtp_capture(given)))
        self.assertEqual(row["detail"], "restarts 3")

    def test_truncated(self):
        name = self.path("cut.pcap", (DATA / "gsm.pcap").read_bytes()[:2000])
        status, out, err = self.run_tool(lines.main, "scan", name)
        self.assertEqual((status, out.count("\n"), err.count("\n")), (2, 2, 1))
        self.assertIn("ends within packet", err)
        self.assertEqual(self.run_tool(lines.main, "scan", name, "--partial")[0], 0)


class OddPackets(Scans):
    """Packets that are none, and layers that don't end: each is counted by its reason."""

    def scan_packets(self, link, *octets):
        """What is said on standard error of a capture of these packets and one of RTP."""
        rtp = struct.pack(">BBHII", 0x80, 3, 1, 160, 7) + b"\xd0" + bytes(32)
        udp = struct.pack(">HHHH", 5004, 5006, 8 + len(rtp), 0) + rtp
        plain = struct.pack(">BBHHHBBH", 0x45, 0, 20 + len(udp), 0, 0, 64, 17, 0)
        plain += bytes([10, 0, 0, 1, 10, 0, 0, 2]) + udp
        ethernet = bytes(12) + b"\x08\x00"
        given = [*octets, ethernet + plain if link == 1 else plain]
        capture = struct.pack("<IHHiIII", 0xA1B2C3D4, 2, 4, 0, 0, 65535, link) + b"".join(
            struct.pack("<IIII", 1, at, len(each), len(each)) + each
            for at, each in enumerate(given)
        )
        status, out, err = self.run_tool(
            lines.main, "scan", self.path("odd.pcap", capture), "--csv"
        )
        self.assertEqual((status, out.count("\n")), (0, 2), err)
        return err.partition("not read: ")[2].strip()

    @unittest.skipUnless(HAS_DPKT, "other layers need the library dpkt")
    def test_ip_in_ip(self):
        packet = b""
        for _ in range(3000):
            size = 20 + len(packet)
            packet = struct.pack(">BBHHHBBH", 0x45, 0, size, 0, 0, 64, 4, 0) + bytes(8) + packet
        self.assertEqual(self.scan_packets(101, packet), "1 unreadable")

    @unittest.skipUnless(HAS_DPKT, "other layers need the library dpkt")
    def test_labels_that_are_cut(self):
        mpls = bytes(12) + b"\x88\x47" + b"\0\0\x10\x40" * 3 + b"\0"
        self.assertIn(self.scan_packets(1, mpls), ("1 unreadable", "1 not UDP"))

    @unittest.skipUnless(HAS_DPKT, "other layers need the library dpkt")
    def test_options_and_one_layer_more(self):
        """IPv4 with options, and IPv4 in IPv4, are read."""
        rtp = struct.pack(">BBHII", 0x80, 8, 1, 160, 9) + b"\xd5" * 160
        udp = struct.pack(">HHHH", 5004, 5006, 8 + len(rtp), 0) + rtp
        ends = bytes([10, 0, 0, 1, 10, 0, 0, 2])
        options = struct.pack(">BBHHHBBH", 0x46, 0, 24 + len(udp), 0, 0, 64, 17, 0) + ends
        inner = struct.pack(">BBHHHBBH", 0x45, 0, 20 + len(udp), 0, 0, 64, 17, 0) + ends + udp
        outer = struct.pack(">BBHHHBBH", 0x45, 0, 20 + len(inner), 0, 0, 64, 4, 0) + bytes(8)
        for packet in (options + b"\1\1\1\0" + udp, outer + inner):
            capture = struct.pack("<IHHiIII", 0xA1B2C3D4, 2, 4, 0, 0, 65535, 101)
            capture += struct.pack("<IIII", 1, 0, len(packet), len(packet)) + packet
            (row,) = self.scan(self.path("one.pcap", capture))
            self.assertEqual((row["source"], row["kind"]), ("10.0.0.1:5004", "alaw"))

    def test_fragments_and_short_ones(self):
        fragment = struct.pack(">BBHHHBBH", 0x45, 0, 60, 0, 0x2005, 64, 17, 0) + bytes(40)
        short = struct.pack(">BBHHHBBH", 0x45, 0, 28, 0, 0, 64, 17, 0)
        self.assertEqual(self.scan_packets(101, fragment, short), "1 fragments, 1 cut off")

    def test_random_packets(self):
        source = random.Random(SEED)
        for link in (1, 101, 113, 276, 0, 9, 147):
            given = [source.randbytes(source.randrange(80)) for _ in range(200)]
            if link in (1, 101):
                self.scan_packets(link, *given)
            capture = struct.pack("<IHHiIII", 0xA1B2C3D4, 2, 4, 0, 0, 65535, link) + b"".join(
                struct.pack("<IIII", 1, 0, len(each), len(each)) + each for each in given
            )
            status, _, err = self.run_tool(lines.main, "scan", self.path("any.pcap", capture))
            self.assertEqual(status, 0, err)


if __name__ == "__main__":
    unittest.main()
