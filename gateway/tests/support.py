"""What the tests of the gateway share: speech, and a gateway on a clock that the test turns, with a network of packets at given times."""

from __future__ import annotations

import contextlib
import ctypes
import heapq
import io
import os
import socket
import sys
import tempfile
import unittest
from collections import defaultdict
from pathlib import Path
from typing import Callable, Dict, Iterable, List, Optional, Set, Tuple

GATEWAY = Path(__file__).resolve().parents[1]
TOP = GATEWAY.parent

from trau.gateway import replay
from trau import trau_fr
from trau.gateway.clock import Clock
from trau.gateway.incoming import Incoming
from trau.gateway.live import Commands, Gateway, Speaker
from trau.gateway import pump
from trau.gateway.pump import NAMES, PumpBoard
from trau.gateway.recorder import Recorder
from trau.gateway.rtcp import Reports
from trau.gateway.settings import Address, Side
from hearing import HearingEndpoint
from spoiler import Sent
from trau.gateway.switchboard import Connection, Switchboard

# The program that replays; ./trau alone would prove and build one.
PROGRAM = os.environ.get("TRAU_PROGRAM")
with_program = unittest.skipUnless(PROGRAM, "TRAU_PROGRAM names no program")
# The library of the loop in C; without it, calls are processed in Python.
PUMP = os.environ.get("TRAU_PUMP")
in_python = unittest.skipIf(PUMP, "the loop in C has no such part")

FRAMES = 33
PERIOD = 160


def cut(data: bytes, size: int) -> List[bytes]:
    """The whole parts of this size."""
    return [data[at : at + size] for at in range(0, len(data) - size + 1, size)]


# Speech of an exchange, and the same as a base station sends it.
LINE = cut((TOP / "checks/vectors/speech-en-m3.pcm").read_bytes(), PERIOD)
SPEECH = cut(trau_fr.Encoder().encode(trau_fr.expand(b"".join(LINE))), FRAMES)


def repeated(contents: List[bytes], periods: int, first: int = 0) -> List[bytes]:
    """This number of periods of a recording, again and again, from its period `first` on."""
    return [contents[(first + k) % len(contents)] for k in range(periods)]


class TurnedClock:
    """Time that passes only where the gateway waits."""

    def __init__(self) -> None:
        self.time = 0
        self.clock = Clock(lambda: self.time, self.sleep)

    def sleep(self, wait: int) -> None:
        """Time passes."""
        self.time += wait


class TurnedEndpoint(HearingEndpoint):
    """An endpoint without a socket."""

    def __init__(self, side: Side, is_strict: bool, incoming: Incoming) -> None:
        super().__init__(side, is_strict, incoming)
        self.address = side.port
        self.sent: List[bytes] = []

    def report(self, reports: Reports, period: int) -> None:
        """As SocketEndpoint.report."""

    def count_losses(self) -> None:
        """As SocketEndpoint.count_losses."""

    def send(self, datagram: bytes) -> None:
        """Keeps what is sent."""
        self.sent.append(datagram)


class TurnedNetwork:
    """Packets that come at given times, to endpoints by their ports."""

    Endpoint = TurnedEndpoint

    def __init__(self, clock: TurnedClock) -> None:
        self.clock = clock
        self.phases: Dict[int, int] = {}
        self.endpoints: Dict[int, TurnedEndpoint] = {}
        self.coming: Dict[int, List[Tuple[int, int, bytes, Address]]] = defaultdict(list)
        self.count = 0

    def bring(self, port: int, sender: Address, packets: Iterable[Sent]) -> None:
        """Packets that come to a port."""
        for time, packet in packets:
            self.count += 1
            heapq.heappush(self.coming[port], (time, self.count, packet, sender))

    def open(self, side: Side, is_strict: bool, incoming: Incoming, phase: int) -> TurnedEndpoint:
        """As Network.open."""
        self.endpoints[side.port], self.phases[side.port] = (
            self.Endpoint(side, is_strict, incoming),
            phase,
        )
        return self.endpoints[side.port]

    def move(self, endpoint: TurnedEndpoint, old: int, new: int) -> None:
        """Another phase of an endpoint, as of the loop."""
        assert self.phases[endpoint.address] == old
        self.phases[endpoint.address] = new

    def close(self, endpoint: TurnedEndpoint, phase: int) -> None:
        """As Network.close."""
        assert self.phases.pop(endpoint.address) == phase

    def drop(self) -> None:
        """What came in time that was given up, as the loop drops it."""
        for port in self.phases:
            while self.coming[port] and self.coming[port][0][0] <= self.clock.time:
                _, _, packet, sender = heapq.heappop(self.coming[port])
                self.endpoints[port].outdated(packet, sender)

    def read(self, phase: int, tick: int, behind: int) -> None:
        """What came for the endpoints of a phase, as the loop reads it."""
        for port in [port for port, each in self.phases.items() if each == phase]:
            queue = self.coming[port]
            while queue and queue[0][0] <= self.clock.time:
                _, _, packet, sender = heapq.heappop(queue)
                self.endpoints[port].arrived(packet, sender, tick, behind)


class LoopEndpoint(TurnedEndpoint):
    """An endpoint of the loop in C: what it sends comes out of a socket."""

    def __init__(self, side: Side, is_strict: bool, incoming: Incoming) -> None:
        super().__init__(side, is_strict, incoming)
        self.socket, self.far = socket.socketpair(socket.AF_UNIX, socket.SOCK_DGRAM)
        for each in (self.socket, self.far):
            each.setblocking(False)
        self.is_connected = True

    def drain(self) -> None:
        """Takes what was sent."""
        with contextlib.suppress(BlockingIOError):
            while True:
                self.sent.append(self.far.recv(2048))

    def close(self) -> None:
        """Closes both sockets."""
        self.socket.close()
        self.far.close()


class LoopNetwork(TurnedNetwork):
    """Packets that come at given times, to the loop."""

    Endpoint = LoopEndpoint
    board: "LoopBoard"

    def close(self, endpoint: LoopEndpoint, phase: int) -> None:
        """As TurnedNetwork.close. The phases are the loop's own."""
        endpoint.drain()
        endpoint.close()
        del self.phases[endpoint.address]

    def drop(self) -> None:
        """What came up to now is old."""
        for port in self.phases:
            self.bring_to(port, self.board.tick, 1)

    def read(self, phase: int, tick: int, behind: int) -> None:
        """As TurnedNetwork.read, for the calls that the loop has in this phase."""
        for connection in list(self.board.by_slot.values()):
            for endpoint in connection.endpoints.values():
                endpoint.drain()
                if connection.phase == phase:
                    self.bring_to(endpoint.address, tick, behind)

    def bring_to(self, port: int, tick: int, behind: int) -> None:
        """Gives the loop what came to a port."""
        queue, (slot, side) = self.coming[port], self.board.place_of(port)
        loop, turn = self.board.pump, ctypes.byref(pump.LoopTurn(tick, 0, behind, 0))
        while queue and queue[0][0] <= self.clock.time:
            _, _, packet, (host, far) = heapq.heappop(queue)
            address = int.from_bytes(socket.inet_aton(host), sys.byteorder), socket.htons(far)
            loop.library.pump_arrived(loop.pump, slot, side, packet, len(packet), *address, turn)


class OracleBoard(Switchboard):
    """The switchboard over calls in Python."""

    def move(self, connection: Connection, phase: int) -> None:
        """As Switchboard.move."""
        if phase != connection.phase:
            for endpoint in connection.endpoints.values():
                self.network.move(endpoint, connection.phase, phase)
        super().move(connection, phase)

    def process(self, phase: int, period: int, behind: int) -> None:
        """As Switchboard.process. Both calls of a bridge hear before one speaks."""
        self.network.read(phase, period, behind)
        connections = [each for each in self.connections.values() if each.phase == phase]
        for connection in connections:
            connection.call.hear(period)
            if behind:
                connection.call.counts["held-up"] += 1
        for connection in connections:
            sends = (connection.endpoints[side].send for side in NAMES)
            lines = connection.call.speak(period, *sends)
            connection.recorder.period(connection.call.number, lines)
        for recorder in self.recorders:
            recorder.write()

    def give_up(self, periods: int, period: int) -> None:
        """As Switchboard.give_up."""
        self.say_given_up(periods, period)
        self.network.drop()
        for connection in self.connections.values():
            connection.call.give_up(periods, period)


class LoopBoard(PumpBoard):
    """The switchboard over the loop in C, which the test turns."""

    tick = 0

    def process(self, phase: int, period: int, behind: int) -> None:
        """As PumpBoard.process."""
        self.network.read(phase, period, behind)
        super().process(phase, period, behind)

    def give_up(self, periods: int, period: int) -> None:
        """As PumpBoard.give_up."""
        self.tick = period
        super().give_up(periods, period)
        self.network.drop()

    def end_recordings(self, period: Optional[int]) -> bool:
        """As PumpBoard.end_recordings; calls that a fault has left open have no sockets then."""
        left = [each for each in self.by_slot.values()]
        is_whole = super().end_recordings(period)
        for connection in left:
            for endpoint in connection.endpoints.values():
                endpoint.close()
        return is_whole

    def place_of(self, port: int) -> Tuple[int, int]:
        """The slot and the side of a port."""
        return next(
            (slot, NAMES.index(side))
            for slot, connection in self.by_slot.items()
            for side, endpoint in connection.endpoints.items()
            if endpoint.address == port
        )


class GivenCommands(Commands):
    """Lines at given periods."""

    def __init__(self, lines: Dict[int, List[str]]) -> None:
        super().__init__(None)
        self.given, self.period = lines, 0

    def taken(self) -> List[str]:
        """The lines of the next period."""
        self.period += 1
        return self.given.get(self.period - 1, [])


def ports_of(call: int) -> Tuple[int, int]:
    """The gateway's ports of a call, from the base station and from the exchange; the peers' are the next ones."""
    return 10000 + 4 * call, 10002 + 4 * call


def open_line(call: int, words: str = "") -> str:
    """The line that opens a call."""
    gsm, pcm = ports_of(call)
    return (
        f"open {call} gsm {gsm} 127.0.0.1:{gsm + 1} pcm {pcm} 127.0.0.1:{pcm + 1} {words}".strip()
    )


class Kept(Speaker):
    """Keeps what is said."""

    def __init__(self) -> None:
        self.dropped, self.said = 0, []

    def __call__(self, text: str) -> None:
        self.said.append(text)


class Turned:
    """A gateway on a turned clock."""

    def __init__(self, folder: Path, every: int = 1) -> None:
        self.say = Kept()
        self.time = TurnedClock()
        self.network = LoopNetwork(self.time) if PUMP else TurnedNetwork(self.time)
        self.recorder = Recorder(folder, every, self.say)
        self.recorder.make()
        parts = self.network, self.recorder, 100, self.say
        self.board = LoopBoard(*parts, pump.load(Path(PUMP))) if PUMP else OracleBoard(*parts)
        self.network.board = self.board

    def bring(
        self, call: int, from_station: Iterable[Sent] = (), from_exchange: Iterable[Sent] = ()
    ) -> None:
        """Packets that come to a call from its peers."""
        for port, packets in zip(ports_of(call), (from_station, from_exchange)):
            self.network.bring(port, ("127.0.0.1", port + 1), packets)

    def sent(self, call: int) -> Tuple[List[bytes], List[bytes]]:
        """What went out to both sides of a call."""
        return tuple(self.network.endpoints[port].sent for port in ports_of(call))

    def run(self, lines: Dict[int, List[str]], periods: int) -> List[str]:
        """Runs the lines at their periods; the result is what the gateway said."""
        Gateway(self.board, self.time.clock, GivenCommands(lines), self.say).run(periods)
        return self.say.said


class InFolder(unittest.TestCase):
    """A test with an empty folder of its own."""

    def setUp(self) -> None:
        folder = tempfile.TemporaryDirectory()
        self.addCleanup(folder.cleanup)
        self.folder = Path(folder.name).resolve()

    def checked(self, folder: Path) -> Tuple[int, List[str]]:
        """The status of the check of a recording, and what it prints."""
        out = io.StringIO()
        with contextlib.redirect_stdout(out):
            status = replay.check(folder, PROGRAM, None)
        return status, out.getvalue().splitlines()

    def assert_replays(self, folder: Path) -> List[str]:
        """A run makes the lines of the recording again, and each bridge has a period."""
        status, lines = self.checked(folder)
        self.assertEqual(status, 0, lines)
        self.assert_bridges_have_periods(folder)
        return lines

    def assert_bridges_have_periods(self, folder: Path) -> None:
        """Each bridge of a recording has at least one period, and one is between two of a call."""
        bridges: Dict[int, Tuple[int, Set[int]]] = {}  # of each call, with the period of its order
        parted: Dict[int, int] = {}
        for order in replay.whole_orders(folder):
            if order.verb == "bridge":
                for call in order.calls:
                    self.assertGreater(order.stamp, parted.get(call, -1), order.line())
                    bridges[call] = order.stamp, set(order.calls)
            elif order.verb in ("unbridge", "close") and order.calls[0] in bridges:
                begun, calls = bridges[order.calls[0]]
                self.assertGreater(order.stamp, begun, order.line())
                for call in calls:
                    del bridges[call]
                    parted[call] = order.stamp

    def run_tool(self, main: Callable[[List[str]], int], words: List[str]) -> Tuple[int, str, str]:
        """The status of a tool, and what it said on standard output and standard error."""
        out, err = io.StringIO(), io.StringIO()
        with contextlib.redirect_stdout(out), contextlib.redirect_stderr(err):
            try:
                status = main(words)
            except SystemExit as end:
                status = end.code
        return status, out.getvalue(), err.getvalue()
