"""A hostile network and a hostile host beside calls that speak: datagrams of each size, forged sources, a gateway that is stopped again and again,
a folder that is moved, descriptors that are used up. Afterwards each call plays what its peers say, as before, and each recording is replayed.
Some minutes; what is counted depends on the machine, and is printed."""

import random
import resource
import shutil
import signal
import time
import unittest
from pathlib import Path

from live_support import (
    LOOPBACK,
    Peers,
    WithLive,
    bound,
    hostile_packet,
    hostile_report,
    playing,
    talk,
)
from support import LINE, SPEECH, with_program

from trau.gateway.rtp import ALAW, GSM
from trau.rules.frame import FrameKind, bits_of
from trau.rules.lines import OCTETS_OF_SIDE
from trau.rules.search import search
from spoiler import header

MOST_DATAGRAM = 65_507  # octets that UDP carries in IPv4
TALK = 9_000  # periods, more than any test takes
LAST = 100  # periods at the end of a call, in which it has to play again what comes
MOSTLY = 80  # of them; a busy machine makes some late
STOPS, LONGEST_STOP = 12, 2.5  # seconds
FORGED = 20_000  # packets of each forger
SIZES = [*range(9_100), *range(9_100, MOST_DATAGRAM, 211), MOST_DATAGRAM]


def played(folder, call):
    """How many of a recorded call's last periods are speech."""
    up = (folder / f"{call}.up").read_bytes()[-LAST * OCTETS_OF_SIDE["up"] :]
    return sum(each.kind() is FrameKind.SPEECH for each in search(bits_of(up)))


def sized(draw, kind, size):
    """A datagram of this size, which begins as a packet of RTP, as RTCP, or anyhow."""
    content = (SPEECH if kind == GSM else LINE)[0] * (size // 33 + 1)
    head = draw.choice(
        (header(kind, size, 160 * size, 9), bytes.fromhex("80c90007"), draw.randbytes(12))
    )
    return (head + content)[:size]


@with_program
class Hostile(WithLive):
    def opened(self, live, calls):
        """Opens calls with these words, and what their peers say."""
        return [row for call, words in calls for row in talk(live.open(call, words), call, TALK)]

    def assert_carried(self, live, calls):
        """Once what is hostile is over, these calls play what comes. The recording is replayed, but for calls whose files couldn't be made."""
        begun = (live.folder / "3.out").stat().st_size // OCTETS_OF_SIDE["out"]
        live.wait_for_periods(3, begun + 4 * LAST)
        status, (checked, lines) = live.end(), self.checked(live.folder)
        print(*(each for each in live.said if each.startswith(("call", "end"))), sep="\n")
        without = [call.split()[1] for call in live.said if " isn't recorded: " in call]
        named = [line for line in lines if line.endswith(" a line is short or missing")]
        self.assertEqual([line.split()[1] for line in named], without)
        self.assertRegex("\n".join(lines), rf"calls \d+ differ {len(named)}\b")
        self.assertEqual((status, checked), (int(named != []),) * 2, live.said)
        if checked:
            shutil.rmtree(lines[-1].rpartition(" ")[2])
        for call in calls:
            self.assertGreater(played(live.folder, call), MOSTLY, call)

    def test_datagrams_of_each_size(self):
        live, draw = self.live(self.folder / "rec"), random.Random(3)
        rows = self.opened(live, ((1, ""), (2, "strict off"), (3, ""), (4, "from any")))
        with playing(rows):
            for k, size in enumerate(SIZES):
                peers, side = live.peers[(1, 2, 4)[k % 3]], k // 3 % 2
                sender, kind = ((peers.gsm, GSM), (peers.pcm, ALAW))[side]
                for port in (peers.ports[side], peers.ports[side] + 1):
                    sender.sendto(sized(draw, kind, size), (LOOPBACK, port))
                if k % 6 == 5:  # the loop reads few octets of a socket in a period
                    live.wait_for_periods(3, k // 6)
            self.assert_carried(live, (1, 2, 3, 4))

    def test_forged_sources(self):
        live, draw = self.live(self.folder / "rec"), random.Random(4)
        calls = (1, ""), (2, "strict off"), (3, ""), (4, "from any")
        rows = self.opened(live, calls)
        sources = [[sent[0][1][8:12] for _, _, sent in rows[2 * k : 2 * k + 2]] for k in range(4)]
        forgers = bound(), bound("127.0.0.2"), bound("127.0.0.3")
        for each in forgers:
            self.addCleanup(each.close)
        with playing(rows):
            live.wait_for_periods(3, 50)
            for k in range(FORGED):
                call, side = draw.choice((0, 1, 3)), draw.randrange(2)
                fields = draw.getrandbits(16), draw.getrandbits(32)
                content = draw.randbytes(160) if side else draw.choice(SPEECH)
                packet = header((GSM, ALAW)[side], *fields, 0)[:8] + sources[call][side] + content
                port = live.peers[call + 1].ports[side]
                draw.choice(forgers).sendto(packet, (LOOPBACK, port))
                if k % 50 == 0:
                    live.wait_for_periods(3, 50 + k // 50)
            self.assert_carried(live, (1, 2, 3, 4))

    def test_a_gateway_that_is_stopped(self):
        live, draw = self.live(self.folder / "rec"), random.Random(5)
        rows = self.opened(live, ((1, ""), (2, "strict off"), (3, "")))
        with playing(rows):
            for _ in range(STOPS):
                live.process.send_signal(signal.SIGSTOP)
                until = time.monotonic() + draw.random() * LONGEST_STOP
                while time.monotonic() < until:
                    peers, side = live.peers[draw.choice((1, 2))], draw.randrange(2)
                    sender, kind = ((peers.gsm, GSM), (peers.pcm, ALAW))[side]
                    sender.sendto(hostile_packet(draw, kind), (LOOPBACK, peers.ports[side]))
                    sender.sendto(hostile_report(draw), (LOOPBACK, peers.ports[side]))
                live.process.send_signal(signal.SIGCONT)
                live.ask("bridge 1 2")
                live.ask("unbridge 1")
            self.assert_carried(live, (1, 2, 3))

    def test_a_folder_that_is_moved_and_no_descriptors(self):
        live, moved = self.live(self.folder / "rec"), self.folder / "elsewhere"
        rows = self.opened(live, ((1, ""), (2, "strict off"), (3, "")))
        with playing(rows):
            live.wait_for_periods(3, 50)
            (self.folder / "rec").rename(moved)
            pid, kind = live.process.pid, resource.RLIMIT_NOFILE
            limits = resource.prlimit(pid, kind)
            used = len(list(Path(f"/proc/{pid}/fd").iterdir()))
            for more in range(12):  # the next call has sockets and files up to here
                resource.prlimit(pid, kind, (used + more, limits[1]))
                peers = live.peers[10 + more] = Peers()
                said = live.ask(peers.line(10 + more, ""))
                if said.startswith("ok"):
                    self.assertRegex(live.ask(f"close {10 + more}"), "^ok ")
            resource.prlimit(pid, kind, limits)
            live.folder = moved
            self.assertRegex(live.ask(live.peers[10].line(30, "")), "^ok ")
            self.assert_carried(live, (1, 2, 3))


if __name__ == "__main__":
    unittest.main()
