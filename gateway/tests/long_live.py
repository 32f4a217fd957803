"""Minutes with real sockets: ten kills of thirty calls, 100,000 hostile packets beside calls that lose nothing, senders that begin anew, a
gateway that is stopped, a disk that is full (as root). Counts of packets depend on the machine and are printed; replays are compared."""

import os
import random
import re
import signal
import subprocess
import time
import unittest

from live_support import LOOPBACK, WithLive, bound, hostile_packet, hostile_report, playing, talk
from support import LINE, SPEECH, repeated, with_program

from trau.gateway.rtp import ALAW, GSM
from spoiler import SECOND, Faults, header, schedule


@with_program
class Long(WithLive):
    def test_ten_kills(self):
        draw = random.Random(3)
        for turn in range(10):
            live = self.live(self.folder / f"rec{turn}", "--every", str(draw.choice((1, 20))))
            rows = [
                row
                for call in range(1, 31)
                for row in talk(live.open(call, "dtx on"), call, 400, Faults(loss=0.1))
            ]
            with playing(rows):
                live.wait_for_periods(1, 20)
                for line in ("bridge 1 2", "close 9", "level 3 900"):
                    live.ask(line)
                time.sleep(2 * draw.random())
                live.end(signal.SIGKILL)
            print(f"kill {turn}: {self.assert_replays(live.folder)[0]}", flush=True)

    def test_hostile_packets(self):
        live = self.live(self.folder / "rec")
        rows = [
            row
            for call, words in ((1, ""), (2, "strict off"), (3, ""))
            for row in talk(live.open(call, words), call, 3000)
        ]
        draw, stranger = random.Random(5), bound("127.0.0.2")
        self.addCleanup(stranger.close)
        with playing(rows):
            for k in range(100_000):
                peers, kind = live.peers[1 + k % 2], draw.choice((GSM, ALAW))
                sender = draw.choices((stranger, peers.gsm, peers.pcm), (8, 1, 1))[0]
                port = peers.ports[0 if kind == GSM else 1]
                sender.sendto(hostile_packet(draw, kind), (LOOPBACK, port))
                sender.sendto(hostile_report(draw), (LOOPBACK, port + 1))
                if k % 100 == 0:
                    time.sleep(0.01)
            print(live.ask("close 3"))
        self.assertEqual(live.end(), 0)
        ends = [line for line in live.said if re.match(r"call \d+ from", line)]
        print(*ends, sep="\n")
        alone = next(line for line in ends if line.startswith("call 3 "))
        self.assertNotRegex(
            alone,
            "stranger|not-rtp|rtcp|other|odd|empty|too-long|probation|new-source|far|jumps|doubled|unreachable",
        )
        played, came = (
            int(re.search(rf" {name} (\d+)", alone)[1]) for name in ("speech", "gsm-packets")
        )
        self.assertGreater(played, came * 0.9)  # a busy machine makes some late
        self.assert_replays(live.folder)

    def test_senders_that_change(self):
        live = self.live(self.folder / "rec")
        speech, line = repeated(SPEECH, 200), b"".join(repeated(LINE, 200))
        rows = []
        one, other = schedule(speech, GSM, 1), schedule(speech, GSM, 2, start=4.1)
        paired = [
            (
                40 * k * SECOND // 1000,
                header(GSM, k, 320 * k, 7) + speech[2 * k] + speech[2 * k + 1],
            )
            for k in range(100)
        ]
        sizes = [
            [
                (at * SECOND // 8000, header(ALAW, at // size, at, 78) + line[at : at + size])
                for at in range(0, len(line), size)
            ]
            for size in (80, 240, 1066)
        ]
        for call, (gsm, pcm) in enumerate(
            ((one + other, sizes[0]), (paired, sizes[1]), (one, sizes[2])), 1
        ):
            rows += live.open(call, f"depth {8 if call == 3 else 3}").rows(gsm, pcm)
        with playing(rows):
            live.wait_for_periods(1, 100)
            live.process.send_signal(signal.SIGSTOP)
            time.sleep(1.5)
            live.process.send_signal(signal.SIGCONT)
            live.wait_for_periods(1, 400)
        self.assertEqual(live.end(), 0)
        print(*(said for said in live.said if said.startswith(("call", "end"))), sep="\n")
        self.assert_replays(live.folder)

    @unittest.skipUnless(os.geteuid() == 0, "a small disk is mounted by root alone")
    def test_a_full_disk(self):
        disk = self.folder / "disk"
        disk.mkdir()
        mount = ["mount", "-t", "tmpfs", "-o", "size=200k", "tmpfs", str(disk)]
        if subprocess.run(mount, stderr=subprocess.DEVNULL).returncode:
            self.skipTest("nothing can be mounted here")
        self.addCleanup(subprocess.run, ["umount", str(disk)], check=True)
        live = self.live(disk / "rec")
        with playing([row for call in (1, 2) for row in talk(live.open(call), call, 800)]):
            print(live.wait_for(f"recording {live.folder} ended"))
            self.assertRegex(live.ask("level 1 300"), "^ok ")
            self.assertEqual(live.end(), 1)
        print(self.assert_replays(live.folder)[0])


if __name__ == "__main__":
    unittest.main()
