"""`lines.py unpack`: the folders of made E1 recordings and of joined captures hold what the single
commands give, and a run takes them."""

import csv
import hashlib
import os
import random
import struct
import subprocess
import unittest

import capture_files
import e1_lines
from capture_files import HAS_DPKT
from captured_packets import packets
from support import DATA, EXAMPLES, InFolder

from trau.recordings import lines, listening, unpack_line
from trau.recordings.e1_line import LineBlock
from trau.recordings.scan_rows import ScanRow
from trau.recordings.unpacked_folder import UnpackedCall, UnpackedLine, number_calls
from trau.rules.frame import bits_of, octets_of
from trau.runs import report
from trau.runs.recording_times import RecordingClock

PERIODS = 500
PROGRAM = os.environ.get("TRAU_PROGRAM")
HAS_LIBRARY = listening.library_beside() is not None
SEED = 8
GSM_CAPTURES = ("gsm.pcap", "osmo.pcap", "sources.pcap")
ALL_CAPTURES = (*GSM_CAPTURES, "ffmpeg.pcap", "pcma.pcapng", "pcmu.pcap", "gstreamer.pcap")


def joined_captures(names):
    """Captures as one, each packet at its time, in pcap of nanoseconds. (This is what mergecap of
    Wireshark does, but no test has run it: its package brings 110 MB.)"""
    found = sorted(
        (each for name in names for each in packets((DATA / name).read_bytes())),
        key=lambda each: each.time,
    )
    head = struct.pack("<IHHiIII", 0xA1B23C4D, 2, 4, 0, 0, 65535, found[0].link)
    parts = [head]
    for each in found:
        seconds, part = divmod(round(each.time * 10**9), 10**9)
        parts.append(struct.pack("<IIII", seconds, part, len(each.octets), each.sent))
        parts.append(each.octets)
    return b"".join(parts)


class Unpacks(InFolder):
    """A test of the command in a folder of its own."""

    def unpack(self, name, *words, said=""):
        """The folder that the command makes of a recording, what it says, on standard error
        besides, and the rows of its table."""
        folder = self.folder / "calls"
        status, out, err = self.run_tool(lines.main, "unpack", name, folder, *words)
        note = f"{name}: no pairs are sought: that needs the C library, which clib/build makes\n"
        with open(folder / "calls.csv", newline="") as file:
            rows = list(csv.DictReader(file))
        has_both = {"up", "pcm"} <= {row["line"] for row in rows} and rows[0]["slot"]
        note = "" if HAS_LIBRARY or not has_both else note
        self.assertEqual((status, err), (0, said + note))
        for row in rows:
            octets = (folder / f"{row['call']}.{row['line']}").read_bytes()
            self.assertEqual(row["sha256"], hashlib.sha256(octets).hexdigest())
            self.assertEqual(row["recording_sha256"], hashlib.sha256(name.read_bytes()).hexdigest())
        return folder, out, rows

    def run_calls(self, folder):
        """The report of a run in the folder, by the program; without one the orders alone are
        checked."""
        orders = folder / "orders.txt"
        if not PROGRAM:
            self.skipTest("TRAU_PROGRAM names no program")
        with open(orders, "rb") as given:
            run = subprocess.run([PROGRAM, "run"], cwd=folder, stdin=given, capture_output=True)
        self.assertEqual((run.returncode, run.stderr), (0, b""))
        (folder / "report.txt").write_bytes(run.stdout)
        return run.stdout.decode()


class OfLines(Unpacks):
    """E1 lines."""

    def made(self):
        """A line with two calls in a channel, others beside them, a downlink, and sound of both
        laws."""
        down = (EXAMPLES / "farm" / "wanted" / "2.down").read_bytes()
        voice = (EXAMPLES / "farm" / "1.pcm").read_bytes()
        first = {
            0: e1_lines.channel(
                PERIODS, (10, e1_lines.uplink(150)), (300, e1_lines.uplink(100, 50)), bits=3
            ),
            3: e1_lines.channel(PERIODS, (5, e1_lines.uplink(400, 7))),
        }
        slots = {
            1: e1_lines.slot(PERIODS, first),
            2: e1_lines.slot(PERIODS, {1: e1_lines.channel(PERIODS, (20, down))}),
            31: b"\xd5" * 20_000 + voice + b"\xd5" * 80_000,
        }
        return e1_lines.line(PERIODS, slots)

    def test_as_the_single_commands(self):
        name = self.path("line.e1", self.made())
        folder, out, rows = self.unpack(name)
        self.assertEqual(out, "unpack calls 5 up 3 pcm 1 down 1 pairs 0 left 0\n")
        for row in rows:
            new = self.folder / f"one.{row['line']}"
            words = ["--slot", row["slot"], "--of", "32"]
            words += ["--channel", row["channel"]] if row["channel"] else []
            self.assertEqual(self.run_tool(lines.main, "slot", name, new, *words)[0], 0)
            size = 160 if row["line"] == "pcm" else 40
            start, count = size * int(row["period"]), size * int(row["periods"])
            unpacked = (folder / f"{row['call']}.{row['line']}").read_bytes()
            self.assertEqual(len(unpacked), count)
            self.assertEqual(unpacked, new.read_bytes()[start : start + count])
            self.assertEqual(int(row["offset"]), 160 * int(row["period"]))

    def test_a_run(self):
        name = self.path("line.e1", self.made())
        folder, _, rows = self.unpack(name, "--begins", "2026-05-04T13:00:00.500")
        report_text = self.run_calls(folder)
        for row in rows:
            if row["line"] == "up":
                self.assertIn(f"counts {row['call']} good {row['frames']} ", report_text)
        self.assertEqual((folder / "clock.txt").read_text(), "0 at 2026-05-04T13:00:00.500+00:00\n")
        status, out, err = self.run_tool(report.main, "calls", folder, "--csv")
        self.assertEqual((status, err), (0, ""))
        last = next(row for row in csv.DictReader(out.splitlines()) if row["periods"] == "101")
        self.assertEqual(last["utc"], "2026-05-04T13:00:06.500+00:00")
        self.assertEqual(RecordingClock(folder).said(50), "2026-05-04T13:00:01.500+00:00")

    def test_any_alignment(self):
        line = self.made()
        wanted = None
        for bits, is_turned in ((0, False), (512, True), (165 + 512, True)):
            name = self.path("line.e1", e1_lines.recorded(line, bits, is_turned))
            _, _, rows = self.unpack(name)
            found = [(row["slot"], row["channel"], row["frames"]) for row in rows]
            wanted = wanted or sorted(found)
            self.assertEqual(sorted(found), wanted)
            self.clear()

    def clear(self):
        """Removes what was unpacked."""
        for path in (self.folder / "calls").iterdir():
            path.unlink()

    def test_octets_lost(self):
        line = self.made()
        name = self.path("line.e1", line[:1_000_000] + line[1_000_033:])
        said = f"{name}: octets were lost or gained, times 1, at 3.906 s\n"
        folder, _, rows = self.unpack(name, said=said)
        report_text = self.run_calls(folder)
        counts = [each for each in report_text.splitlines() if each.startswith("counts ")]
        good = {each.split()[1]: int(each.split()[3]) for each in counts}
        row = next(row for row in rows if row["channel"] == "3")
        self.assertGreater(good[row["call"]], 390)

    def test_refused(self):
        name = self.path("line.e1", self.made())
        taken = self.folder / "taken"
        taken.mkdir()
        (taken / "file").write_bytes(b"")
        self.assert_refused(lines.main, ["unpack", name, taken], "has files")
        self.assert_refused(lines.main, ["unpack", name, name], "isn't a folder")
        noise = self.path("noise", random.Random(SEED).randbytes(90_000))
        self.assert_refused(lines.main, ["unpack", noise, self.folder / "new"], "no E1 line")
        self.assertEqual(
            {path.name for path in self.folder.iterdir()}, {"line.e1", "taken", "noise"}
        )


@unittest.skipUnless(HAS_DPKT, "pcap needs the library dpkt")
class OfCaptures(Unpacks):
    """Captures of other programs, joined."""

    def test_as_the_single_commands(self):
        name = self.path("all.pcap", joined_captures(ALL_CAPTURES))
        folder, out, rows = self.unpack_with_notes(name)
        self.assertEqual(out, "unpack calls 8 up 5 pcm 3 down 0 pairs 0 left 0\n")
        words = ["--type", "98=gsm", "--partial", "--restart"]
        for row in rows:
            law = ["--law", "mulaw"] if row["kind"] == "mulaw" else []
            stream = self.number_of(name, row["ssrc"])
            new = self.folder / f"one.{row['line']}"
            status = self.run_tool(lines.main, "pcap", name, new, *words, *law, "--stream", stream)
            self.assertEqual(status[0], 0, status)
            unpacked = (folder / f"{row['call']}.{row['line']}").read_bytes()
            self.assertEqual(unpacked, new.read_bytes(), row)
        self.run_calls(folder)

    def unpack_with_notes(self, name):
        """The same of a capture of which some packets aren't read."""
        folder = self.folder / "calls"
        words = ("unpack", name, folder, "--type", "98=gsm")
        status, out, err = self.run_tool(lines.main, *words)
        self.assertEqual((status, err), (0, f"{name}: not read: 2 not RTP\n"))
        with open(folder / "calls.csv", newline="") as file:
            return folder, out, list(csv.DictReader(file))

    def number_of(self, name, ssrc):
        """The number that `pcap` gives a stream."""
        words = ("pcap", name, self.folder / "none", "--type", "98=gsm", "--partial")
        listed = self.run_tool(lines.main, *words)[2].split("; ")
        said = next(each for each in listed if ssrc in each)
        return said.split(": ")[-1].split(" ")[0]

    def test_trau_frames_of_gsmtap(self):
        """The frames of a sub-slot and way, one after another; nothing of what isn't whole."""
        up = (EXAMPLES / "7.up").read_bytes()[:4000]
        down = (EXAMPLES / "farm" / "wanted" / "2.down").read_bytes()[40:80] * 100
        frames = [
            (at, line[at : at + 40], line is up) for line in (up, down) for at in range(0, 4000, 40)
        ]
        given = [(5, 1, is_up, frame) for _, frame, is_up in sorted(frames)]
        given += [(6, 2, True, bytes(40)) for _ in range(20)]
        name = self.path("tap.pcap", capture_files.gsmtap_capture(given))
        folder, out, rows = self.unpack(name)
        self.assertEqual(out, "unpack calls 2 up 1 pcm 0 down 1 pairs 0 left 1\n")
        for row in rows:
            wanted = {"up": up, "down": down}[row["line"]]
            self.assertEqual((folder / f"{row['call']}.{row['line']}").read_bytes(), wanted)
            self.assertEqual(row["kind"], {"up": "uplink", "down": "downlink"}[row["line"]])

    def test_trau_frames_that_were_cut(self):
        frame = (EXAMPLES / "7.up").read_bytes()[:40]
        given = capture_files.gsmtap_capture([(5, 1, True, frame)] * 20, most=80)
        name = self.path("cut.pcap", given)
        said = "unpack calls 0 up 0 pcm 0 down 0 pairs 0 left 1\n"
        words = ("unpack", name, self.folder / "calls")
        self.assertEqual(self.run_tool(lines.main, *words)[:2], (0, said))
        out = self.run_tool(lines.main, "scan", name)[1]
        self.assertTrue(out.endswith("GSMTAP slot 5 channel 1; cut off 20\n"), out)

    def test_orders_and_clock(self):
        name = self.path("gsm.pcap", joined_captures(("sources.pcap",)))
        folder, _, rows = self.unpack(name)
        orders = (folder / "orders.txt").read_text()
        self.assertEqual(orders, "0 open 1\n32 open 2\n")
        self.assertEqual((folder / "clock.txt").read_text()[:5], "0 at ")
        self.assertEqual(rows[1]["utc"], RecordingClock(folder).said(32)[:20] + rows[1]["utc"][20:])

    def test_truncated(self):
        name = self.path("cut.pcap", (DATA / "gsm.pcap").read_bytes()[:2000])
        words = ["unpack", name, self.folder / "calls"]
        self.assert_refused(lines.main, words, "ends within packet")
        self.assertEqual(self.run_tool(lines.main, *words, "--partial")[0], 0)


class DoubtfulStreams(Unpacks):
    """Streams of which no line can be made for sure: each is named, and none is made."""

    def refused(self, capture):
        """What standard error says of a capture of which nothing is unpacked."""
        name = self.path("odd.pcap", capture)
        status, out, err = self.run_tool(lines.main, "unpack", name, self.folder / "calls")
        said = "unpack calls 0 up 0 pcm 0 down 0 pairs 0 left 1\n"
        self.assertEqual((status, out), (0, said))
        self.assertFalse(list((self.folder / "calls").glob("*.up")))
        return err

    def test_two_senders_with_one_ssrc(self):
        said = "0x00000007: not unpacked: two senders with one SSRC, as it seems\n"
        self.assertIn(said, self.refused(capture_files.two_senders()))

    def test_no_packet_captured_whole(self):
        given = [(3, number, capture_files.GSM_FRAME, 7) for number in range(20)]
        err = self.refused(capture_files.rtp_capture(given, most=60))
        self.assertIn("0x00000007: not unpacked: none of its packets was captured whole\n", err)

    def test_some_packets_captured_whole(self):
        given = [(8, n, (160 if n % 2 else 240) * b"\x35", 7) for n in range(20)]
        name = self.path("some.pcap", capture_files.rtp_capture(given, most=214))
        status, out, err = self.run_tool(lines.main, "unpack", name, self.folder / "calls")
        self.assertEqual((status, out.split()[2]), (0, "1"))
        said = "some.pcap: 10 packets of speech weren't captured whole; they count as lost\n"
        self.assertTrue(err.endswith(said), err)


class BothWays(Unpacks):
    """Streams that go both ways between the same addresses and ports."""

    def capture(self, flows):
        """A capture of streams (from, to, payload type, first period, packets), at 10.0.0.N."""
        found = []
        for ssrc, (source, target, kind, first, count) in enumerate(flows):
            for at in range(count):
                body = b"\xd0" + bytes(32) if kind == 3 else b"\x35" * 160
                rtp = struct.pack(">BBHII", 0x80, kind, at, 160 * at, ssrc) + body
                udp = struct.pack(">HHHH", 5004, 5004, 8 + len(rtp), 0) + rtp
                ends = bytes([10, 0, 0, source, 10, 0, 0, target])
                ip = struct.pack(">BBHHHBBH", 0x45, 0, 20 + len(udp), 0, 0, 64, 17, 0) + ends + udp
                found.append((20_000 * (first + at), ip))
        head = struct.pack("<IHHiIII", 0xA1B2C3D4, 2, 4, 0, 0, 65535, 101)
        parts = [
            struct.pack("<IIII", time // 10**6, time % 10**6, len(ip), len(ip)) + ip
            for time, ip in sorted(found, key=lambda each: each[0])
        ]
        return head + b"".join(parts)

    def test_an_uplink_and_a_pcm_line_are_one_call(self):
        capture = self.capture([(1, 2, 3, 0, 50), (2, 1, 8, 10, 60)])
        folder, out, rows = self.unpack(self.path("two.pcap", capture))
        self.assertEqual(out, "unpack calls 1 up 1 pcm 1 down 0 pairs 1 left 0\n")
        self.assertEqual([(row["call"], row["line"]) for row in rows], [("1", "up"), ("1", "pcm")])
        pcm = (folder / "1.pcm").read_bytes()
        self.assertEqual(pcm, b"\xd5" * 1600 + b"\x35" * 9600)
        self.assertEqual((folder / "1.up").stat().st_size, 40 * 70)

    def test_two_of_a_kind_are_two_calls(self):
        capture = self.capture([(1, 2, 8, 0, 50), (2, 1, 8, 0, 50), (3, 4, 8, 0, 50)])
        _, out, rows = self.unpack(self.path("three.pcap", capture))
        self.assertEqual(out, "unpack calls 3 up 0 pcm 3 down 0 pairs 2 left 0\n")
        self.assertEqual([row["pair"] for row in rows], ["2", "1", ""])

    def test_several_at_a_time_are_not_sure(self):
        capture = self.capture([(1, 2, 3, 0, 50), (2, 1, 8, 0, 50), (2, 1, 8, 0, 50)])
        _, _, rows = self.unpack(self.path("three.pcap", capture))
        self.assertEqual([row["paired_by"] for row in rows], ["", "", ""])

    def test_one_after_the_other(self):
        capture = self.capture([(1, 2, 8, 0, 50), (2, 1, 8, 0, 50), (1, 2, 8, 80, 50)])
        _, _, rows = self.unpack(self.path("three.pcap", capture))
        self.assertEqual([row["pair"] for row in rows], ["2", "1", ""])


class Channels(unittest.TestCase):
    """The channels of all slots together."""

    def channel(self, slot, number):
        """A channel of a slot, pair of bits by pair of bits."""
        bits = bits_of(slot)
        return octets_of("".join(bits[at : at + 2] for at in range(2 * number, len(bits), 8)))

    def test_blocks_of_any_length(self):
        source, frames = random.Random(SEED), 407
        line = bytearray(source.randbytes(32 * frames))
        line[32 * 200 : 32 * 203] = b"\xff" * 96  # frames that the recording doesn't have
        groups, parts, at = unpack_line.ChannelGroups(32), [], 0
        while at < frames:
            end = 200 if at < 200 <= at + 50 else min(frames, at + source.randrange(1, 50))
            found = groups.take(LineBlock(bytes(line[32 * at : 32 * end]), at, False))
            self.assertEqual(found.first, sum(map(len, parts)) // 128)
            parts.append(found.octets)
            at = 203 if end == 200 else end
        whole = b"".join([*parts, groups.rest().octets])
        line += b"\xff" * (-len(line) % 128)
        for slot in range(32):
            for number in range(4):
                wanted = self.channel(bytes(line[slot::32]), number)
                self.assertEqual(whole[32 * number + slot :: 128], wanted)


class ManyCalls(unittest.TestCase):
    """More calls than a run takes."""

    def test_several_folders(self):
        row = ScanRow("uplink", 0.0, 1.0, 1, 0)
        calls = [
            UnpackedCall({"up": UnpackedLine(row, "up", 9000 - at, 50, 0)}) for at in range(9000)
        ]
        number_calls(calls)
        self.assertEqual(
            [(calls[at].folder, calls[at].number) for at in (0, 4095, 4096, 8999)],
            [("1", 1), ("1", 4096), ("2", 1), ("3", 808)],
        )
        self.assertLess(calls[0].period(), calls[1].period())


if __name__ == "__main__":
    unittest.main()
