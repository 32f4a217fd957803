"""The gateway's loop in C: its core beside Python on random networks, its clock, its rings, its sockets; and the tests of calls on a turned clock
once more, with the loop in place of Python."""

import contextlib
import ctypes
import errno
import os
import select
import socket
import subprocess
import sys
import unittest
import unittest.mock
from collections import Counter
from pathlib import Path

import core_networks
import loop_library
from live_support import bound, even_port, with_loopback
from support import GATEWAY, InFolder, Kept, with_program

from spoiler import header
from trau import trau_fr
from trau.command_line.words import Refusal
from trau.gateway import pump
from trau.gateway.clock import PERIOD, PHASE
from trau.gateway.network import Network
from trau.gateway.pump import RECORD
from trau.gateway.recorder import Recorder
from trau.gateway.settings import Settings

TESTS = Path(__file__).resolve().parent
FRAME = b"\xd0" + bytes(32)
BLOCKS = 100  # of records, besides one for each slot


def packet(number):
    """A packet of the base station."""
    return header(3, number, 160 * number, 5) + FRAME


class Networks(unittest.TestCase):
    def test_the_core_does_as_python(self):
        core, counts = core_networks.load(loop_library.given()), Counter()
        for seed in range(6):
            run = core_networks.Run(core, seed)
            self.assertIsNone(run.differs_at(400), f"seed {seed}")
            counts += run.counts()
            run.end()
        for name in ("late", "doubled", "far", "jumps", "probation", "slips-back", "given-up"):
            self.assertGreater(counts[name], 0, name)


class Clocks(unittest.TestCase):
    def turns(self, times):
        """The turns of a clock that begins at 0 and is woken at these times, or when a turn is due."""
        library = pump.load(Path(loop_library.given()))
        library.pump_clock_new.restype = ctypes.c_void_p
        library.pump_clock_due.restype = ctypes.c_int64
        library.pump_clock_due.argtypes = [ctypes.c_void_p]
        library.pump_clock_turn.restype = pump.LoopTurn
        library.pump_clock_turn.argtypes = [ctypes.c_void_p, ctypes.c_int64, ctypes.c_int64]
        clock = ctypes.c_void_p(library.pump_clock_new(ctypes.c_int64(0)))
        for time in times:
            due = library.pump_clock_due(clock)
            woken = due if time is None else time
            turn = library.pump_clock_turn(clock, woken, woken)
            yield turn.period, turn.phase, turn.behind, turn.given_up, due

    def test_four_phases(self):
        wanted = [(*divmod(n, 4), 0, 0, n * PHASE) for n in range(9)]
        self.assertEqual(list(self.turns([None] * 9)), wanted)

    def test_late_turns_are_made_up_for(self):
        late = 10 * PERIOD
        behind = [turn[2] for turn in self.turns([0] + [late] * 45)]
        self.assertEqual(behind, [0] + [max(0, (late - n * PHASE) // PERIOD) for n in range(1, 46)])

    def test_more_than_a_second_is_given_up(self):
        turns = list(self.turns([0, 100 * PERIOD, None]))
        self.assertEqual([turn[:4] for turn in turns[:2]], [(0, 0, 0, 0), (0, 1, 0, 99)])
        self.assertEqual(turns[2], (0, 2, 0, 0, 99 * PERIOD + 2 * PHASE))


class Looped(InFolder):
    """A loop with sockets, which the test turns."""

    every = 1  # periods of a block

    def setUp(self):
        super().setUp()
        self.say = Kept()
        self.recorder = Recorder(self.folder / "rec", self.every, self.say)
        self.recorder.make()
        library = pump.load(Path(loop_library.given()))
        parts = Network("127.0.0.1"), self.recorder, 4, self.say
        with unittest.mock.patch.object(pump, "MOST_WAITING", RECORD * BLOCKS):
            self.board = pump.PumpBoard(*parts, library)
        self.addCleanup(self.board.end_recordings, None)
        self.addCleanup(self.board.end, 0)
        self.peers = [bound(), bound()]
        for peer in self.peers:
            self.addCleanup(peer.close)
            peer.settimeout(60)

    def open(self, call=1, words=""):
        """Opens a call; the result is its ports."""
        gsm, pcm = (peer.getsockname()[1] for peer in self.peers)
        while True:
            ports = even_port(), even_port()
            sides = f"gsm {ports[0]} 127.0.0.1:{gsm} pcm {ports[1]} 127.0.0.1:{pcm}"
            with contextlib.suppress(OSError):  # somebody may have one of the ports
                self.board.execute(f"open {call} {sides} {words}", 0)
                return ports

    def counts(self, call=1, period=0):
        """The counts of the base station's side."""
        self.board.ask(self.board.connections[call])
        self.board.when_done(period)
        return +self.board.connections[call].call.gsm.counts

    def turn(self, period):
        """A turn of the first phase, of which Python takes no events."""
        loop, turn = self.board.pump, pump.LoopTurn(period, 0, 0, 0)
        loop.library.pump_process(loop.pump, ctypes.byref(turn))

    def process(self, period):
        for phase in range(4):
            self.board.process(phase, period, 0)


@with_loopback
class Blocks(Looped):
    every = 4

    def test_each_call_has_periods_of_its_own(self):
        self.open(1)
        slot = self.board.connections[1].call.slot
        for period in range(3 * self.every):
            self.turn(period)
        events = self.board.pump.events()
        blocks = [(each.number, each.period) for each in events if each.kind == pump.BLOCK]
        first = -slot % self.every  # in which its number and the period's are whole blocks
        wanted = list(range(first, 3 * self.every, self.every))
        self.assertEqual([period for _, period in blocks], wanted)
        lines = [self.board.pump.lines(number) for number, _ in blocks]
        self.assertEqual({each for each, _ in lines}, {slot})
        periods = [len(out) // 160 for _, (_, _, _, out) in lines]
        self.assertEqual(periods, [first + 1] + [self.every] * (len(wanted) - 1))


@with_loopback
class Loops(Looped):
    def test_it_wakes_python_in_each_fifth_period_and_at_its_end(self):
        loop, count = self.board.pump, 0
        loop.start(20)
        while not loop.state().has_ended:
            select.select([loop.wakes], [], [])
            count += len(os.read(loop.wakes, 4096))
        with contextlib.suppress(BlockingIOError):
            count += len(os.read(loop.wakes, 4096))
        loop.stop()
        self.assertIn(count, range(1, 6))  # fewer, if it gives up time

    def test_packets_go_where_two_of_the_peer_came_from(self):
        gsm, _ = self.open(words="from any")
        with bound("127.0.0.2") as peer:
            peer.settimeout(60)
            for number in range(2):
                peer.sendto(packet(number), ("127.0.0.1", gsm))
            period = 0
            while not self.counts(period=period)["moved"]:
                self.process(period)
                period += 1
            self.process(period)
            self.assertEqual(len(peer.recv(100)), 12 + 33)
            self.assertEqual(self.board.connections[1].endpoints["gsm"].peer, peer.getsockname())

    def test_strangers_and_other_ports(self):
        gsm, _ = self.open(words="strict off")
        peer = self.peers[0]
        with bound() as other, bound("127.0.0.2") as stranger:
            peer.sendto(packet(0), ("127.0.0.1", gsm))
            while not self.counts()["other-port"] or not self.counts()["stranger"]:
                self.process(0)
                other.sendto(packet(1), ("127.0.0.1", gsm))
                stranger.sendto(packet(1), ("127.0.0.1", gsm))
        self.assertEqual(self.board.connections[1].call.gsm.heard, 0)

    def test_a_closed_port_of_the_peer_is_counted(self):
        for call, words in ((1, ""), (2, "strict off")):
            self.peers[0] = bound()
            gsm, _ = self.open(call, words)
            self.peers[0].close()
            period = 0
            while (counts := self.counts(call, period))["unreachable"] < 5:
                self.process(period)
                period += 1
            sent = self.board.connections[call].call.to_gsm.packets
            self.assertLessEqual(counts["unreachable"], sent)
            with bound() as other:  # what comes is heard all the same
                while words and self.board.connections[call].call.gsm.heard is None:
                    other.sendto(packet(1), ("127.0.0.1", gsm))
                    self.process(period)
                    self.counts(call, period)
                    period += 1

    def test_what_cant_be_sent_is_named(self):
        gsm, pcm = even_port(), even_port()
        sides = f"gsm {gsm} 192.0.2.1:6 pcm {pcm} 192.0.2.1:8"
        self.board.execute(f"open 1 {sides} strict off", 0)  # no way leads there from 127.0.0.1
        self.process(0)
        self.assertEqual(self.counts()["unsent"], 1)
        call = self.board.connections[1].call
        reason = call.gsm.faults["unsent"]
        self.assertIn(reason, ("Invalid argument", "Network is unreachable"))
        self.assertIn(f"gsm-unsent: {reason}", call.summary("at 1"))

    def test_a_call_that_cant_be_watched_is_closed(self):
        library, gsm = self.board.pump.library, even_port()
        sides = f"gsm {gsm} 127.0.0.1:6 pcm {even_port()} 127.0.0.1:8"
        with unittest.mock.patch.object(library, "pump_watch", return_value=errno.ENOSPC):
            with self.assertRaisesRegex(OSError, "No space left on device"):
                self.board.execute(f"open 1 {sides}", 0)
        self.assertEqual((len(self.board.pump.free), self.board.connections), (8, {}))
        with socket.socket(socket.AF_INET, socket.SOCK_DGRAM) as one:
            one.bind(("127.0.0.1", gsm))

    def test_a_call_without_memory_is_refused(self):
        library, sides = self.board.pump.library, "gsm 6000 127.0.0.1:6 pcm 6002 127.0.0.1:8"
        with unittest.mock.patch.object(library, "pump_prepare", return_value=1):
            with self.assertRaisesRegex(Refusal, "no memory for the call"):
                self.board.execute(f"open 1 {sides}", 0)
        self.assertEqual((len(self.board.pump.free), self.board.connections), (8, {}))

    def test_what_is_read_at_a_tick_is_bounded(self):
        gsm, _ = self.open()
        for octets, count, most in ((12, 150, 4 * 25), (8000, 12, 1500 * 25 // 8000 + 1)):
            came = [self.counts()["not-rtp"]]
            wanted = came[0] + count
            for _ in range(count):
                self.peers[0].sendto(bytes(octets), ("127.0.0.1", gsm))
            while came[-1] < wanted:
                self.board.process(0, 0, 0)
                came.append(self.counts()["not-rtp"])
            self.assertLessEqual(max(b - a for a, b in zip(came, came[1:])), most)

    def test_a_datagram_of_any_size_is_taken(self):
        gsm, pcm = self.open()
        for octets in (0, 1, 11, 9000, 9001, 60_000):
            for peer, port in zip(self.peers, (gsm, pcm)):
                peer.sendto(b"\x7f" * octets, ("127.0.0.1", port))
        while self.counts()["not-rtp"] < 6:
            self.process(0)

    def test_what_is_old_is_dropped(self):
        gsm, _ = self.open()
        self.peers[0].sendto(packet(0), ("127.0.0.1", gsm))
        while not self.board.connections[1].call.gsm.reception:
            self.process(0)
            self.counts()
        for number in range(1, 61):
            self.peers[0].sendto(packet(number), ("127.0.0.1", gsm))
        self.board.give_up(100, 1)
        while self.counts()["given-up"] < 60:
            self.process(1)
        self.assertEqual(self.board.connections[1].call.gsm.came(), {"packets": 61, "missing": 0})

    def test_a_disk_that_is_too_slow_ends_the_recording_without_a_gap(self):
        self.open()
        loop, kept = self.board.pump, []
        blocks = []
        while not kept or kept[-1] != pump.OVERFLOW:
            self.turn(len(kept))
            event = next(loop.events())
            kept.append(event.kind)
            if event.kind == pump.BLOCK:
                blocks.append((event.number, event.period))
            self.assertLess(len(kept), 2 * BLOCKS)
        self.assertEqual([period for _, period in blocks], list(range(len(blocks))))
        self.assertEqual(len({number for number, _ in blocks}), len(blocks))
        self.turn(len(kept))
        self.assertEqual(list(loop.events()), [])

    def test_a_loop_that_nobody_looks_after_ends_the_recording(self):
        self.open()
        for period in range(2 * BLOCKS):
            self.turn(period)
        self.board.collect()
        self.assertEqual(
            self.say.said[-1], f"recording {self.folder / 'rec'} ended: the disk is too slow"
        )

    def test_too_many_commands(self):
        loop = self.board.pump
        with self.assertRaisesRegex(Refusal, "too many lines wait"):
            for _ in range(100_000):
                loop.stage(verb=pump.NOTHING)
        self.board.execute_batch(7)
        self.assertEqual((loop.staged, len(loop.works)), (loop.answered, 0))
        loop.stage(verb=pump.NOTHING)
        self.board.execute_batch(8)

    def test_slots_serve_again(self):
        for period in range(40):
            self.open(1)
            self.process(period)
            self.board.execute("close 1", period)
        self.assertEqual(len(self.board.pump.free), 8)


class Counts(unittest.TestCase):
    def test_they_go_on_modulo_2_to_the_32nd(self):
        call, report = pump.PumpCall(Settings(1, "alaw", 256, False), 0), pump.Report()
        far, missing = (pump.REASONS.index(name) for name in ("far", "missing"))
        for counts in (
            (0xFFFFFFFF, 5),
            (2, 0xFFFFFFFE),
        ):  # a packet came twice, so 2 fewer are missing
            report.core[0].counts[far], report.core[0].counts[missing] = counts
            call.take(report)
        self.assertEqual(call.gsm.counts, {"far": 2, "missing": -2})


class Libraries(InFolder):
    def test_it_is_the_one_for_this_processor(self):
        usual = self.folder / "lib" / "trau-gateway" / pump.LIBRARY
        best = usual.parent / "glibc-hwcaps" / "x86-64-v3" / pump.LIBRARY
        best.parent.mkdir(parents=True)
        surroundings = {"TRAU_CLIB": str(self.folder), "TRAU_PUMP": ""}
        with unittest.mock.patch.dict(os.environ, surroundings):
            for is_v3 in (True, False):
                with unittest.mock.patch.object(pump, "has_v3", return_value=is_v3):
                    self.assertEqual(pump.library_path(), usual)  # nothing is there yet
            usual.touch()
            best.touch()
            for is_v3, wanted in ((True, best), (False, usual)):
                with unittest.mock.patch.object(pump, "has_v3", return_value=is_v3):
                    self.assertEqual(pump.library_path(), wanted)

    def test_one_that_cant_be_had_is_refused(self):
        reasons = {
            "none.so": "packages of trau have it",
            trau_fr._library._name: "undefined symbol",
        }
        for name, reason in reasons.items():
            words = ["gateway.py", "run", str(self.folder / "rec")]
            ran = subprocess.run(
                [sys.executable, str(GATEWAY / words[0]), *words[1:]],
                env={**os.environ, "TRAU_PUMP": name},
                stdout=subprocess.PIPE,
                stderr=subprocess.PIPE,
                text=True,
            )
            self.assertEqual((ran.returncode, ran.stdout, ran.stderr.count("\n")), (2, "", 1))
            self.assertIn(reason, ran.stderr)
            self.assertFalse((self.folder / "rec").exists())


@with_program
class Again(unittest.TestCase):
    """The tests of calls on a turned clock, with the loop."""

    def test_turned(self):
        ran = subprocess.run(
            [sys.executable, str(TESTS / "test_turned.py")],
            env=loop_library.environment(),
            stdout=subprocess.PIPE,
            stderr=subprocess.STDOUT,
            text=True,
        )
        self.assertEqual(ran.returncode, 0, ran.stdout)


if __name__ == "__main__":
    unittest.main()
