"""The gateway as a service has it: ten minutes of live calls with 3 % loss, a million hostile packets beside calls, 20,000 calls one after the
other on a turned clock, and 2,000 (or TRAU_RECORDINGS) with a recording each. Each recording is replayed. Some twenty minutes; counts depend on the
machine, and are printed."""

import os
import random
import re
import time
import unittest
from collections import Counter, defaultdict

from live_support import LOOPBACK, WithLive, bound, hostile_packet, hostile_report, playing, talk
from support import LINE, PERIOD, SPEECH, InFolder, Turned, open_line, repeated, with_program

from trau.gateway.rtp import ALAW, GSM
from trau.rules.profile import MOST_CALLS
from spoiler import Faults, schedule

MINUTES, LIVE_CALLS = 10, 20
HOSTILE, DIFFERENT = 1_000_000, 20_000  # packets that are sent, and those that are drawn
CALLS, LENGTH = 20_000, 10  # calls, and the periods of each
AT_ONCE = 4  # calls that are opened in a period
RECORDINGS = int(os.environ.get("TRAU_RECORDINGS", 2_000))  # of one call each
HARMLESS = "stranger|not-rtp|rtcp|other|odd|empty|too-long|probation|new-source|far|jumps|doubled"
LOSS = Faults(loss=0.03, jitter=0.02)


@with_program
class Minutes(WithLive):
    def test_ten_minutes_with_loss(self):
        live, periods = self.live(self.folder / "rec"), 3000 * MINUTES
        rows = []
        for call in range(1, LIVE_CALLS + 1):
            rows += talk(live.open(call), call, periods, LOSS)
        with playing(rows):
            for period in range(500, periods, 500):
                live.wait_for_periods(1, period)
                one = 1 + 2 * (period // 500 % (LIVE_CALLS // 2))
                live.ask(f"bridge {one} {one + 1}")
                live.ask(f"unbridge {one}")
        self.assertEqual(live.end(), 0)
        print(*(said for said in live.said if said.startswith(("call 1 ", "end"))), sep="\n")
        self.assert_replays(live.folder)

    def test_a_million_hostile_packets(self):
        live, draw, stranger = self.live(self.folder / "rec"), random.Random(5), bound("127.0.0.2")
        self.addCleanup(stranger.close)
        opened = [
            (call, live.open(call, words)) for call, words in ((1, ""), (2, "strict off"), (3, ""))
        ]
        kinds = (GSM, ALAW)
        packets = {kind: [hostile_packet(draw, kind) for _ in range(DIFFERENT)] for kind in kinds}
        reports = [hostile_report(draw) for _ in range(DIFFERENT)]
        with playing([row for call, peers in opened for row in talk(peers, call, 20_000)]):
            for k in range(HOSTILE):
                peers, kind = live.peers[1 + k % 2], draw.choice(kinds)
                sender = draw.choices((stranger, peers.gsm, peers.pcm), (8, 1, 1))[0]
                port = peers.ports[kinds.index(kind)]
                sender.sendto(draw.choice(packets[kind]), (LOOPBACK, port))
                if k % 10 == 0:
                    sender.sendto(draw.choice(reports), (LOOPBACK, port + 1))
                if k % 100 == 0:
                    time.sleep(0.005)
            live.ask("close 3")
        self.assertEqual(live.end(), 0)
        ends = [said for said in live.said if re.match(r"call \d+ from", said)]
        print(*ends, sep="\n")
        alone = next(said for said in ends if said.startswith("call 3 "))
        self.assertNotRegex(alone, HARMLESS)
        self.assert_replays(live.folder)


@with_program
class Numbers(InFolder):
    """Calls one after the other in one process, some of them bridged."""

    def carried(self, calls, bridges, has_own):
        """Carries so many calls, and says what the gateway said. has_own: each has a recording of its own, in whose folder its number is."""
        turned, lines = Turned(self.folder / "rec", every=5), defaultdict(list)
        for number in range(calls):
            call, begun = number % MOST_CALLS + 1, number // AT_ONCE
            start = begun * PERIOD / 8000
            turned.bring(
                call,
                schedule(repeated(SPEECH, LENGTH, number), GSM, number, start=start),
                schedule(repeated(LINE, LENGTH, number), ALAW, number + calls, start=start),
            )
            lines[begun] += [f"record {self.folder}/rec-{number}"] if has_own else []
            lines[begun].append(open_line(call))
            if bridges and number % 3 == 1 and number % AT_ONCE:
                lines[begun + 2].append(f"bridge {call - 1} {call}")
            lines[begun + LENGTH].append(f"close {call}")
        said = turned.run(lines, calls // AT_ONCE + LENGTH + 1)
        self.assertEqual([each for each in said if each.startswith("refused")], [])

    def replayed(self):
        """The last line of the check of each recording."""
        return [self.assert_replays(folder)[-1] for folder in sorted(self.folder.glob("rec*"))]

    def test_calls_one_after_the_other(self):
        self.carried(CALLS, bridges=True, has_own=False)
        calls = self.replayed()
        print(*calls, sep="\n")
        self.assertEqual(sum(int(each.split()[1]) for each in calls), CALLS)

    def test_a_recording_for_each_call(self):
        self.carried(RECORDINGS, bridges=False, has_own=True)
        counts = Counter(self.replayed())
        print(dict(counts))
        self.assertEqual(counts, {"calls 1 differ 0": RECORDINGS, "calls 0 differ 0": 1})


if __name__ == "__main__":
    unittest.main()
