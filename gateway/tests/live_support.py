"""A gateway with sockets on the loopback interface, and senders that play packets at their times. Nothing here waits for a fixed time: what
is waited for is what the gateway says, or what its recording has."""

from __future__ import annotations

import contextlib
import random
import resource
import signal
import socket
import struct
import subprocess
import sys
import threading
import time
import unittest
from pathlib import Path
from typing import Any, Callable, Dict, Iterable, Iterator, List, Optional, Tuple

from support import GATEWAY, LINE, SPEECH, InFolder, repeated

from trau.gateway.rtp import ALAW, GSM, MULAW
from spoiler import CLEAN, Faults, Sent, schedule

LOOPBACK = "127.0.0.1"


def bound(address: str = LOOPBACK) -> socket.socket:
    """A UDP socket with some port."""
    one = socket.socket(socket.AF_INET, socket.SOCK_DGRAM)
    one.bind((address, 0))
    return one


def has_loopback() -> bool:
    """Whether datagrams can be sent on the loopback interface."""
    try:
        with bound() as one:
            one.sendto(b"", one.getsockname())
    except OSError:
        return False
    return True


with_loopback = unittest.skipUnless(has_loopback(), "no loopback interface")


def even_port() -> int:
    """An even port that nobody has just now."""
    while True:
        with bound() as one:
            if one.getsockname()[1] % 2 == 0:
                return one.getsockname()[1]


def limited(file_octets: Optional[int], descriptors: Optional[int]) -> Callable[[], None]:
    """Limits the size of files, as a full disk does, and the number of descriptors; and a hangup ends the process, also under nohup."""

    def limit() -> None:
        signal.signal(signal.SIGHUP, signal.SIG_DFL)
        for kind, most in (
            (resource.RLIMIT_FSIZE, file_octets),
            (resource.RLIMIT_NOFILE, descriptors),
        ):
            if most is not None:
                resource.setrlimit(kind, (most, most))

    return limit


class Ended(AssertionError):
    """A gateway has ended by itself."""


class Peers:
    """The two peers of a call, and the gateway's ports for them."""

    def __init__(self) -> None:
        self.gsm, self.pcm = bound(), bound()
        self.ports: Tuple[int, int] = (0, 0)

    def line(self, call: int, words: str) -> str:
        """A line that opens the call, with ports that are free just now."""
        self.ports = even_port(), even_port()
        (gsm, pcm), peers = self.ports, [each.getsockname()[1] for each in (self.gsm, self.pcm)]
        return f"open {call} gsm {gsm} {LOOPBACK}:{peers[0]} pcm {pcm} {LOOPBACK}:{peers[1]} {words}".strip()

    def rows(self, from_station: List[Sent], from_exchange: List[Sent]) -> "List[Row]":
        """What both peers send."""
        return [(self.gsm, self.ports[0], from_station), (self.pcm, self.ports[1], from_exchange)]

    def close(self) -> None:
        """Closes the sockets."""
        self.gsm.close()
        self.pcm.close()


Row = Tuple[socket.socket, int, List[Sent]]


class Live:
    """A gateway in a process of its own."""

    def __init__(
        self,
        folder: Path,
        *words: str,
        file_limit: Optional[int] = None,
        descriptor_limit: Optional[int] = None,
        address: str = LOOPBACK,
    ) -> None:
        self.folder = folder
        command = [
            sys.executable,
            "-B",
            str(GATEWAY / "gateway.py"),
            "run",
            str(folder),
            "--address",
            address,
            *words,
        ]
        pipe, limit = subprocess.PIPE, limited(file_limit, descriptor_limit)
        self.process = subprocess.Popen(
            command, stdin=pipe, stdout=pipe, text=True, bufsize=1, preexec_fn=limit
        )
        self.said: List[str] = []
        self.peers: Dict[int, Peers] = {}
        self.wait_for("ready")

    def read(self) -> str:
        """The next line that it says; empty at its end."""
        line = self.process.stdout.readline()
        self.said += [line.strip()] if line else []
        return line.strip()

    def wait_for(self, beginning: str) -> str:
        """Reads until a line begins so."""
        while True:
            line = self.read()
            if line.startswith(beginning):
                return line
            if not line and self.process.poll() is not None:
                self.finish()
                raise Ended(f"it ended with {self.process.returncode}: {self.said}")

    def wait_until_said(self, beginning: str) -> str:
        """The line that begins so, which it says or has said, perhaps before a reply."""
        said = (line for line in self.said if line.startswith(beginning))
        return next(said, "") or self.wait_for(beginning)

    def ask(self, line: str) -> str:
        """Its reply to a line, which is asked again while the gateway is late."""
        while True:
            self.process.stdin.write(f"{line}\n")
            said = self.wait_for_reply()
            if "behind its clock" not in said:
                return said

    def wait_for_reply(self) -> str:
        """Its next reply to a line; empty at its end."""
        said = self.read()
        while said and not said.startswith(("ok ", "refused ")):
            said = self.read()
        return said

    def open(self, call: int, words: str = "") -> Peers:
        """Opens a call. (Somebody may have taken a port in the meantime.)"""
        peers = self.peers[call] = Peers()
        while "in use" in (said := self.ask(peers.line(call, words))):
            pass
        assert said.startswith("ok"), said
        return peers

    def wait_for_periods(self, call: int, periods: int) -> None:
        """Waits until the recording has so many periods of a call."""
        line = self.folder / f"{call}.out"
        while (
            not line.exists() or line.stat().st_size < 160 * periods
        ) and self.process.poll() is None:
            time.sleep(0.005)

    def end(self, number: int = signal.SIGTERM) -> int:
        """Ends it by a signal; the result is its status."""
        self.process.send_signal(number)
        return self.finish()

    def kill(self) -> None:
        """Ends it if it still runs."""
        if self.process.poll() is None:
            self.end(signal.SIGKILL)

    def finish(self) -> int:
        """Reads the rest of what it says; the result is its status."""
        self.said += self.process.stdout.read().splitlines()
        status = self.process.wait()
        self.process.stdin.close()
        self.process.stdout.close()
        for peers in self.peers.values():
            peers.close()
        return status


class WithLive(InFolder):
    """A test of gateways in processes of their own, which don't outlive it."""

    def live(self, folder: Path, *words: str, **limits: Any) -> Live:
        """A gateway, as Live."""
        live = Live(folder, *words, **limits)
        self.addCleanup(live.kill)
        return live


@contextlib.contextmanager
def playing(rows: Iterable[Row]) -> Iterator[None]:
    """Plays packets at their times, while the block goes on; at its end the rest isn't sent."""
    packets = sorted(
        ((at, row, packet) for row, (_, _, sent) in enumerate(rows) for at, packet in sent),
        key=lambda each: each[:2],
    )
    is_over = threading.Event()

    def play() -> None:
        begun = time.monotonic_ns()
        for at, row, packet in packets:
            if is_over.wait(max(0, (begun + at - time.monotonic_ns()) / 1e9)):
                return
            one, port, _ = rows[row]
            with contextlib.suppress(OSError):
                one.sendto(packet, (LOOPBACK, port))

    rows = list(rows)
    player = threading.Thread(target=play)
    player.start()
    try:
        yield
    finally:
        is_over.set()
        player.join()


def talk(
    peers: Peers, call: int, periods: int, faults: Faults = CLEAN, is_mulaw: bool = False
) -> List[Row]:
    """Both peers of a call speak."""
    from_station = schedule(repeated(SPEECH, periods, 20 * call), GSM, call, faults)
    from_exchange = schedule(
        repeated(LINE, periods, 30 * call), MULAW if is_mulaw else ALAW, call + 5000, faults
    )
    return peers.rows(from_station, from_exchange)


def hostile_packet(draw: random.Random, kind: int) -> bytes:
    """A packet that nobody should send."""
    content = bytes(draw.randrange(256) for _ in range(33 if kind == GSM else 160))
    number, stamp = draw.getrandbits(16), draw.getrandbits(32)
    fields = struct.pack(">BHII", kind, number, stamp, draw.choice((5, draw.getrandbits(32))))
    return draw.choice(
        (
            bytes(draw.randrange(256) for _ in range(draw.randrange(200))),
            (b"\x80" + fields + content)[: draw.randrange(40)],
            bytes([0x80 | draw.randrange(64)]) + fields + content,
            b"\x80" + fields + content,
            b"\x90" + fields + b"\xff\xff\xff\xff" + content,
            b"\xa0" + fields + content,
            bytes([0x80, 200 + draw.randrange(8)]) + content,
            b"\x80" + fields + content * draw.randrange(12),
        )
    )


def hostile_report(draw: random.Random) -> bytes:
    """A datagram that is nearly RTCP: packets with lengths, types and counts at random, mostly a report at first."""
    report = b""
    for _ in range(draw.randrange(1, 5)):
        length, kind = draw.choice((0, 0, 1, 2, 6, 7, 12, 13)), draw.choice(
            (200, 201, 201, 202, 203, 204, 7)
        )
        report += struct.pack(">BBH", 0x80 | draw.randrange(64), kind, length) + draw.randbytes(
            max(0, 4 * length + draw.choice((0,) * 9 + (-4, 4)))
        )
    return report
