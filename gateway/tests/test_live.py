"""The gateway with sockets of its own, for some seconds: how it starts and ends, kills, a full disk, bridges, hostile packets. All that is
compared is a recording with its replay, so a slow machine changes no result."""

import contextlib
import os
import pty
import random
import re
import signal
import subprocess
import sys
import time
import unittest

from live_support import (
    LOOPBACK,
    Ended,
    Peers,
    WithLive,
    bound,
    hostile_packet,
    hostile_report,
    playing,
    talk,
    with_loopback,
)
from support import GATEWAY, with_program

from trau.gateway.rtp import ALAW, GSM
from spoiler import Faults

SPOILED = Faults(loss=0.05, jitter=0.04, swapped=0.05, doubled=0.1)


@with_loopback
class Starts(WithLive):
    def with_file(self, name):
        """A gateway with a file of lines. (Somebody may have taken a port in the meantime.)"""
        peers = Peers()
        self.addCleanup(peers.close)
        for turn in range(20):
            lines = self.folder / "calls.txt"
            lines.write_text(f"# the first call\n\n{peers.line(7, 'dtx on')}\n")
            with contextlib.suppress(Ended):
                return self.live(self.folder / f"{name}-{turn}", "--calls", str(lines))
        raise AssertionError("twenty times no ports")

    def test_a_file_of_lines_and_both_signals(self):
        for number in (signal.SIGTERM, signal.SIGINT):
            live = self.with_file(f"rec{number}")
            live.wait_for_periods(7, 3)
            self.assertEqual(live.end(number), 0)
            self.assertRegex(
                live.said[-1],
                r"^end period \d+ late \d+ latest \d+ ms given-up \d+ dropped 0 processor \d+\.\d\d s load \d+ %$",
            )
            self.assertIn("0 dtx 7 on\n", (live.folder / "orders.txt").read_text())

    def test_a_file_that_closes_a_call(self):
        peers = Peers()
        self.addCleanup(peers.close)
        for turn in range(20):
            lines = self.folder / "calls.txt"
            line = peers.line(7, "")
            lines.write_text(f"{line}\nclose 7\n{line}\n")
            with contextlib.suppress(Ended):
                live = self.live(self.folder / f"rec-{turn}", "--calls", str(lines))
                break
        self.assertRegex(live.ask("level 7 300"), r"^ok \d+ level 7$")
        self.assertEqual(live.end(), 0)
        self.assertRegex(live.said[-2], r"^call 7 from 0 to \d+ ")

    def test_a_call_begins_at_its_order(self):
        live = self.live(self.folder / "rec")
        live.open(3)
        opened = [line.split() for line in live.said if line.startswith("ok ")][-1][1]
        self.assertEqual(live.end(), 0)
        self.assertRegex(live.said[-2], rf"^call 3 from {opened} to ")
        self.assertEqual(
            (live.folder / "orders.txt").read_text().split()[:3], [opened, "open", "3"]
        )

    def refused(self, lines):
        """What is said of a file with these lines, of which one is refused."""
        (self.folder / "calls.txt").write_text(lines)
        ran = subprocess.run(
            [
                sys.executable,
                "-B",
                str(GATEWAY / "gateway.py"),
                "run",
                str(self.folder / "rec"),
                "--calls",
                str(self.folder / "calls.txt"),
            ],
            stdin=subprocess.DEVNULL,
            stdout=subprocess.PIPE,
            stderr=subprocess.PIPE,
            text=True,
        )
        self.assertEqual(
            (ran.returncode, ran.stdout, ran.stderr.count("\n")), (2, "", 1), ran.stderr
        )
        self.assertFalse((self.folder / "rec").exists())
        return ran.stderr

    def test_a_file_with_a_mistake(self):
        self.assertIn("calls.txt line 2: both sides are needed", self.refused("\nopen 7\n"))
        new, old = self.folder / "new", self.folder / "old"
        self.assertIn(
            "calls.txt line 2: both sides are needed", self.refused(f"record {new}\nopen 7\n")
        )
        old.mkdir()
        self.assertIn(
            "calls.txt line 2: File exists", self.refused(f"record {new}\nrecord {old}\n")
        )
        self.assertEqual((new.exists(), old.exists()), (False, True))

    def test_standard_input_that_cant_be_read(self):  # as nohup leaves it
        words = [
            sys.executable,
            "-B",
            str(GATEWAY / "gateway.py"),
            "run",
            str(self.folder / "rec"),
            "--seconds",
            "1",
        ]
        with open("/dev/null", "wb") as sink:
            ran = subprocess.run(
                words, stdin=sink, stdout=subprocess.DEVNULL, stderr=subprocess.PIPE, text=True
            )
        self.assertEqual(
            (ran.returncode, ran.stderr), (0, "gateway.py: standard input: Bad file descriptor\n")
        )

    def test_a_hangup(self):  # as the end of an ssh session
        live = self.live(self.folder / "rec", "--every", "250")
        live.open(1)
        live.ask("counts 1")
        while not re.search("gsm-sent [1-9]", live.said[-2]):
            live.ask("counts 1")
        self.assertEqual(live.end(signal.SIGHUP), 0)
        self.assertGreater((live.folder / "1.out").stat().st_size, 0)
        self.assertRegex((live.folder / "clock.txt").read_text(), r"\n\d+ end 4\n$")

    def test_a_terminal_that_nobody_reads(self):
        here, there = pty.openpty()
        self.addCleanup(os.close, here)
        words = [
            sys.executable,
            "-B",
            str(GATEWAY / "gateway.py"),
            "run",
            str(self.folder / "rec"),
            "--address",
            LOOPBACK,
        ]
        peers = Peers()
        self.addCleanup(peers.close)
        one = subprocess.Popen(words, stdin=subprocess.PIPE, stdout=there, text=True)
        self.addCleanup(one.kill)
        os.close(there)
        one.stdin.write("".join(f"nonsense {k}\n" for k in range(3000)))
        one.stdin.flush()
        out = self.folder / "rec/1.out"
        while not out.exists() or out.stat().st_size < 160 * 20:
            self.assertIsNone(one.poll())
            if not out.exists():
                one.stdin.write(f"{peers.line(1, '')}\n")
                one.stdin.flush()
            time.sleep(0.1)
        one.send_signal(signal.SIGTERM)
        self.assertEqual(one.wait(), 0)
        one.stdin.close()

    def test_seconds(self):
        live = self.live(self.folder / "rec", "--seconds", "1")
        self.assertEqual((live.finish(), live.said[-1][:14]), (0, "end period 50 "))

    def test_few_descriptors(self):
        live = self.live(self.folder / "rec", descriptor_limit=64 + 10 * 2)
        for call in (1, 2):
            live.open(call)
        self.assertRegex(
            live.ask("open 3 gsm 2 127.0.0.1:2 pcm 4 127.0.0.1:2"),
            r"^refused \d+ open 3 .*: 2 calls are open$",
        )
        self.assertEqual(live.end(), 0)

    def test_a_line_that_is_refused(self):
        live = self.live(self.folder / "rec")
        self.assertRegex(live.ask("bridge 1 2"), r"^refused \d+ bridge 1 2: the call isn't open$")
        self.assertRegex(live.ask("x" * 3000), r"^refused \d+ x{80}: the line is too long$")
        taken = bound()
        self.addCleanup(taken.close)
        port = taken.getsockname()[1] // 2 * 2
        said = live.ask(f"open 1 gsm {port} {LOOPBACK}:9 pcm {port} {LOOPBACK}:9")
        self.assertRegex(said, r"^refused \d+ open 1 .*: 127\.0\.0\.1:\d+: Address already in use$")
        self.assertEqual(live.end(), 0)


@with_loopback
@with_program
class Calls(WithLive):
    def test_spoiled_calls_and_a_bridge(self):
        live = self.live(self.folder / "rec", "--every", "5")
        rows = []
        for call in (1, 2, 3):
            rows += talk(
                live.open(call, "mulaw dtx on level 2000" if call == 2 else ""),
                call,
                400,
                SPOILED,
                call == 2,
            )
        with playing(rows):
            live.wait_for_periods(1, 20)
            self.assertRegex(live.ask("bridge 1 2"), "^ok ")
            live.wait_for_periods(1, 50)
            self.assertRegex(live.ask("close 2"), "^ok ")
            live.wait_for_periods(1, 70)
        self.assertEqual(live.end(), 0)
        self.assert_replays(live.folder)

    def test_bridges_that_are_to_end_at_once(self):
        for turn, line in enumerate(("", "unbridge 1", "close 2", "unbridge 1")):
            live = self.live(self.folder / f"rec{turn}")
            rows = [row for call in (1, 2) for row in talk(live.open(call), call, 400)]
            with playing(rows):
                live.wait_for_periods(1, 10)
                live.process.stdin.write(f"bridge 1 2\n{line}\n")
                if turn < 3:
                    live.wait_for_reply()
            self.assertEqual(live.end(), 0)
            self.assert_replays(live.folder)

    def test_kills(self):
        draw = random.Random(11)
        for turn in range(3):
            live = self.live(self.folder / f"rec{turn}", "--every", "1")
            rows = [
                row for call in (1, 2, 3, 4) for row in talk(live.open(call, "dtx on"), call, 400)
            ]
            with playing(rows):
                live.wait_for_periods(1, 10)
                live.ask("bridge 1 2")
                live.ask("close 4")
                live.wait_for_periods(1, 20 + draw.randrange(30))
                self.assertEqual(live.end(signal.SIGKILL), -signal.SIGKILL)
            lines = self.assert_replays(live.folder)
            self.assertRegex(
                lines[0], r"^cut at period \d+, \d+ recorded periods of calls not compared$"
            )

    def test_a_full_disk(self):
        live = self.live(self.folder / "rec", file_limit=160 * 40 + 7)
        rows = [row for call in (1, 2) for row in talk(live.open(call), call, 400)]
        with playing(rows):
            live.wait_until_said(f"recording {live.folder} ended: ")
            self.assertRegex(live.ask("level 1 300"), "^ok ")
            self.assertRegex(live.ask("close 2"), "^ok ")
            self.assertEqual(live.end(), 1)
        lines = self.assert_replays(live.folder)
        self.assertRegex(
            lines[0], r"^cut at period \d+, \d+ recorded periods of calls not compared$"
        )

    def test_lines_that_come_at_once(self):
        live = self.live(self.folder / "rec", "--every", "1")
        rows = [row for call in (1, 2) for row in talk(live.open(call), call, 400)]
        (gsm, pcm), peers = live.peers[1].ports, (live.peers[1].gsm, live.peers[1].pcm)
        one, other = (f"{LOOPBACK}:{each.getsockname()[1]}" for each in peers)
        opening = f"open 1 gsm {gsm} {one} pcm {pcm} {other}"  # with the same ports
        lines = ["bridge 1 2", "unbridge 1", "bridge 1 2", "close 1", opening, "counts 2"]
        with playing(rows):
            live.wait_for_periods(1, 20)
            live.process.stdin.write("".join(f"{line}\n" for line in lines))
            replies = [live.wait_for_reply() for _ in lines]
            live.wait_for_periods(2, 60)
        self.assertEqual(live.end(), 0)
        said = [" ".join(reply.split()[::2][:2]) for reply in replies]
        wanted = "ok bridge, ok unbridge, refused bridge, ok close, ok open, ok counts"
        self.assertEqual(", ".join(said), wanted)
        for name in ("rec", "rec-2"):
            self.assert_replays(self.folder / name)

    def test_hostile_packets(self):
        live = self.live(self.folder / "rec")
        rows = [
            row
            for call, words in ((1, ""), (2, "strict off"), (3, ""))
            for row in talk(live.open(call, words), call, 400)
        ]
        draw = random.Random(5)
        stranger = bound("127.0.0.2")
        self.addCleanup(stranger.close)
        with playing(rows):
            for k in range(2000):
                peers, kind = live.peers[1 + k % 2], draw.choice((GSM, ALAW))
                port = peers.ports[0 if kind == GSM else 1]
                sender = draw.choice((stranger, peers.gsm, peers.pcm))
                sender.sendto(hostile_packet(draw, kind), (LOOPBACK, port))
                sender.sendto(hostile_report(draw), (LOOPBACK, port + 1))
                if k % 50 == 0:
                    live.wait_for_periods(3, k // 50)
        self.assertEqual(live.end(), 0)
        self.assert_replays(live.folder)

    def test_a_packet_of_rtcp_without_a_source(self):
        live = self.live(self.folder / "rec")
        peers, report = live.open(1, "strict off"), bytes.fromhex("80c9000100000001")
        live.ask("counts 1")
        while not re.search(r" gsm-rtcp [1-9]", live.said[-2]):
            peers.gsm.sendto(
                report + bytes.fromhex("80cb0000") + report, (LOOPBACK, peers.ports[0] + 1)
            )
            live.ask("counts 1")
        self.assertEqual(live.end(), 0)


if __name__ == "__main__":
    unittest.main()
