"""Random networks into a call of the loop's core (trau_call.h) and into the same call in Python: the four lines and all packets out of both
are compared, octet for octet, and all counts. Python is the oracle: the rules once more, without proof and without haste."""

from __future__ import annotations

import ctypes
import random
import struct
from collections import Counter
from typing import Dict, List, Optional, Tuple

from support import LINE, SPEECH

from trau import trau_fr
from trau.gateway import pump
from trau.gateway.calls import LiveCall
from trau.gateway.rtcp import signed
from trau.gateway.rtp import STAMPS
from trau.gateway.settings import Settings

MOST_DATAGRAM = 9000
DEPTHS = 0, 1, 3, 3, 10, 25
JUMPS = 16_000, 80_000, -80_000, 80 * 160, 60 * 160  # of time stamps
CODES = 0, 3, 8, 13, 72, 101  # of other payload types
_u32, _bytes, _pointer = ctypes.c_uint32, ctypes.c_char_p, ctypes.c_void_p
_Record = ctypes.c_uint8 * 400


class _Datagrams(ctypes.Structure):
    _fields_ = [("gsm", ctypes.c_uint8 * 45), ("pcm", ctypes.c_uint8 * 172)]


def descriptor() -> bytes:
    """A silence descriptor."""
    sender = trau_fr.Sender()
    frames = [sender.send(bytes(320), 256, True) for _ in range(11)]
    return frames[-1].octets


DESCRIPTOR = descriptor()


def load(path: str) -> ctypes.CDLL:
    """The core in the library of the loop."""
    core = ctypes.CDLL(path)
    core.trau_call_begin.argtypes = [_pointer, _pointer]
    core.trau_call_packet.argtypes = [_pointer, _u32, _bytes, ctypes.c_size_t, _u32, _u32]
    core.trau_call_turn.argtypes = [_pointer, _u32, ctypes.c_int16, ctypes.c_bool] + [_pointer] * 2
    core.trau_call_turn.restype = ctypes.c_bool
    core.trau_call_turn_pair.argtypes = [_pointer, _pointer, _u32] + [_pointer] * 2
    core.trau_call_turn_pair.restype = None
    core.trau_call_give_up.argtypes = [_pointer, _u32, _u32]
    core.trau_call_end.argtypes = [_pointer]
    core.trau_call_reports.argtypes = [_pointer, _u32, _pointer]
    return core


class Sender:
    """A sender of a side: packets of one to three periods, or of odd sizes, with jitter, loss, reordering, doubling, jumps, restarts, drift."""

    def __init__(self, draw: random.Random, is_gsm: bool, kind: int) -> None:
        self.draw, self.is_gsm, self.kind = draw, is_gsm, kind
        self.number, self.stamp = draw.getrandbits(16), draw.getrandbits(32)
        self.source, self.clock, self.at = draw.getrandbits(32), 0.0, 0
        self.queue: List[Tuple[int, bytes]] = []
        self.loss, self.jitter = draw.choice((0, 0, 0.02, 0.2)), draw.choice((0, 0, 1, 3, 8))
        self.speed = draw.choice((1, 1, 1, 0.98, 1.02))
        self.sizes = (1,) if draw.random() < 0.6 else (1, 2, 3)
        self.is_odd, self.has_pauses, self.is_pausing = (
            draw.random() < 0.3,
            draw.random() < 0.3,
            False,
        )

    def restart(self) -> None:
        """Now and then the source, the stamps, the numbers or the time go on elsewhere."""
        draw = self.draw
        if draw.random() < 0.002:
            self.source = draw.getrandbits(32)
        if draw.random() < 0.002:
            self.stamp += draw.choice(JUMPS)
        if draw.random() < 0.002:
            self.number += draw.randrange(65536)
        if draw.random() < 0.002:
            self.clock -= draw.randrange(200)  # a silence of the network

    def frames(self, count: int) -> bytes:
        """Frames; some are none, and in a pause there are descriptors or nothing."""
        draw = self.draw
        if self.is_pausing:
            return DESCRIPTOR * count if draw.random() < 0.1 else b""
        return b"".join(
            draw.choice(SPEECH) if draw.random() < 0.99 else draw.randbytes(33)
            for _ in range(count)
        )

    def line(self, count: int) -> bytes:
        """Octets of a line."""
        octets = b"".join(LINE[(self.at + k) % len(LINE)] for k in range(count))
        octets = octets[: self.draw.randrange(1, len(octets) + 1)] if self.is_odd else octets
        return b"\xd5" * len(octets) if self.is_pausing else octets

    def packet(self, payload: bytes) -> bytes:
        """The packet of a payload; some have more in their header, some are damaged."""
        draw, first, extra, tail = self.draw, 0x80, b"", b""
        if draw.random() < 0.03:
            first |= (count := draw.randrange(16))
            extra += bytes(4 * count)
        if draw.random() < 0.03:
            count = draw.randrange(5)
            first |= 16
            extra += struct.pack(">HH", 1, count) + bytes(4 * count)
        if draw.random() < 0.03:
            first |= 32
            tail = bytes(draw.randrange(8))
            tail += bytes((len(tail) + 1,))
        kind = self.kind if draw.random() < 0.99 else draw.choice(CODES)
        fields = first, kind | draw.choice((0, 0, 128)), self.number & 0xFFFF
        head = struct.pack(">BBHII", *fields, self.stamp & 0xFFFFFFFF, self.source)
        return self.damaged(head + extra + payload + tail)

    def damaged(self, packet: bytes) -> bytes:
        """A packet; one in a hundred has wrong octets, and is cut."""
        draw = self.draw
        if draw.random() >= 0.01:
            return packet
        octets = bytearray(packet)
        for _ in range(draw.randrange(1, 4)):
            octets[draw.randrange(len(octets))] = draw.getrandbits(8)
        return bytes(octets[: draw.randrange(1, len(octets) + 1)])

    def send(self, tick: int) -> None:
        """Sends the packet that is due."""
        draw, count = self.draw, self.draw.choice(self.sizes)
        self.clock -= count
        if self.has_pauses and draw.random() < 0.02:
            self.is_pausing = not self.is_pausing
        payload = self.frames(count) if self.is_gsm else self.line(count)
        self.at += count
        packet = self.packet(payload)
        self.stamp += 160 * count if self.is_gsm else len(payload)
        if not payload and draw.random() < 0.9:
            return
        self.number += 1
        if draw.random() < self.loss:
            return
        for _ in range(2 if draw.random() < 0.01 else 1):
            self.queue.append((tick + draw.randrange(self.jitter + 1), packet))

    def come(self, tick: int) -> List[bytes]:
        """The packets that come at a tick."""
        self.clock += self.speed
        self.restart()
        while self.clock >= 1:
            self.send(tick)
        due = [packet for at, packet in self.queue if at <= tick]
        self.queue = [each for each in self.queue if each[0] > tick]
        return due


class Both:
    """One call in both."""

    def __init__(self, core: ctypes.CDLL, draw: random.Random, number: int) -> None:
        law = draw.choice(("alaw", "mulaw"))
        self.settings = Settings(number, law, draw.choice((0, 256, 2000)), draw.random() < 0.5)
        self.settings.depth, self.settings.prime = draw.choice(DEPTHS), draw.random() < 0.5
        if draw.random() < 0.2:
            self.settings.types = {"gsm": draw.randrange(96, 128), "pcm": draw.randrange(96, 128)}
        self.core, self.call = core, LiveCall(self.settings, 0)
        for out in (self.call.to_gsm, self.call.to_pcm):
            out.number, out.stamp = draw.getrandbits(16), draw.getrandbits(32)
            out.source = draw.getrandbits(32)
        self.handle = ctypes.pointer(_pointer())
        assert core.trau_call_begin(self.handle, ctypes.byref(pump.beginning_of(self.call))) == 0
        self.peers = Sender(draw, True, self.call.gsm.kind), Sender(draw, False, self.call.pcm.kind)

    def end(self) -> None:
        """Frees the memory of the core."""
        self.core.trau_call_end(self.handle)

    def give_up(self, periods: int, tick: int) -> None:
        """The clock has given up time."""
        self.call.give_up(periods, tick)
        self.core.trau_call_give_up(self.handle, periods, tick)

    def take_packets(self, tick: int, behind: int) -> None:
        """All that comes from both sides."""
        for side, (peer, incoming) in enumerate(zip(self.peers, (self.call.gsm, self.call.pcm))):
            for packet in peer.come(tick):
                incoming.packet(packet, tick, behind)
                octets = packet.ljust(MOST_DATAGRAM, b"\xa5")
                self.core.trau_call_packet(self.handle, side, octets, len(packet), tick, behind)

    def spoken(self, tick: int) -> Tuple[bytes, bytes, bytes]:
        """The four lines of a period and the packets to both sides, in Python, after `hear`."""
        sent = {"gsm": b"", "pcm": b""}
        lines = self.call.speak(
            tick, lambda packet: sent.update(gsm=packet), lambda packet: sent.update(pcm=packet)
        )
        return b"".join(lines), sent["gsm"], sent["pcm"]

    def reported(self, side: int) -> Tuple[object, ...]:
        """The counts of a side and of the call's periods, what came of the source that is heard,
        and what was sent, by the core."""
        core = pump.CoreReports()
        self.core.trau_call_reports(self.handle, side, ctypes.byref(core))
        counts = Counter(dict(zip(pump.REASONS[1:], list(core.counts)[1:])))
        counts["missing"] = signed(counts["missing"], 32)
        came = core.source, core.received, core.highest - core.first & STAMPS, core.jitter
        sent = core.stamp, core.sender, core.packets, core.octets
        heard = core.heard if core.was_heard else None
        periods = Counter(dict(zip(pump.PERIODS, core.periods)))
        return not_0(counts), not_0(periods), heard, came if core.is_known else None, sent

    def counted(self, side: int) -> Tuple[object, ...]:
        """As `reported`, in Python."""
        incoming, out, _ = list(self.call.sides.values())[side]
        counts, reception = Counter(incoming.counts), incoming.reception
        counts.update(incoming.buffer.counts)
        came = reception and (
            *(reception.source, reception.received),
            *(reception.highest - reception.first & STAMPS, reception.jitter),
        )
        sent = out.stamp, out.source, out.packets, out.octets
        periods = Counter(self.call.counts)
        del periods["held-up"]
        return not_0(counts), not_0(periods), incoming.heard, came, sent


def not_0(counts: Counter[str]) -> Dict[str, int]:
    """The counts that aren't 0."""
    return {name: count for name, count in counts.items() if count}


def of_core(
    core: ctypes.CDLL, calls: List[Both], tick: int, is_pair: bool
) -> List[Tuple[bytes, ...]]:
    """The four lines of a period and the packets to both sides, by the core, of each call."""
    handles = [call.handle for call in calls]
    records, datagrams = (_Record * len(calls))(), (_Datagrams * len(calls))()
    to_gsm = True
    if is_pair:
        core.trau_call_turn_pair(*handles, tick, records, datagrams)
    else:
        (one,) = calls
        state = one.settings.level, one.settings.dtx
        to_gsm = core.trau_call_turn(one.handle, tick, *state, records, datagrams)
    return [
        (bytes(record), bytes(each.gsm) if to_gsm else b"", bytes(each.pcm))
        for record, each in zip(records, datagrams)
    ]


class Run:
    """Two calls on random networks, now and then bridged, on a clock that is late at times and gives up time."""

    def __init__(self, core: ctypes.CDLL, seed: int) -> None:
        self.core, self.draw = core, random.Random(seed)
        number = 2 * (seed % 2000) + 1
        self.calls = [Both(core, self.draw, number + k) for k in range(2)]
        self.is_pair, self.behind = False, 0

    def change(self, tick: int) -> None:
        """Bridges and parts them, makes the clock late, gives up time."""
        draw, (one, other) = self.draw, self.calls
        if draw.random() < 0.003:
            self.is_pair = not self.is_pair
            for mine, partner in ((one, other), (other, one)):
                mine.call.partner = partner.call if self.is_pair else None
        self.behind = max(0, self.behind - 1) if draw.random() < 0.99 else draw.randrange(50)
        if draw.random() < 0.001:
            periods = draw.randrange(50, 200)
            for call in self.calls:
                call.give_up(periods, tick)

    def differs_at(self, periods: int) -> Optional[int]:
        """The first period in which both differ."""
        for tick in range(periods):
            self.change(tick)
            for call in self.calls:
                call.take_packets(tick, self.behind)
            for call in self.calls:
                call.call.hear(tick)
            wanted = [call.spoken(tick) for call in self.calls]
            groups = [self.calls] if self.is_pair else [[call] for call in self.calls]
            got = [
                each for group in groups for each in of_core(self.core, group, tick, self.is_pair)
            ]
            if got != wanted or tick % 50 == 49 and self.counts_differ():
                return tick
        return None

    def counts_differ(self) -> bool:
        """Whether both count otherwise."""
        return any(
            call.reported(side) != call.counted(side) for call in self.calls for side in range(2)
        )

    def counts(self) -> Counter[str]:
        """What happened to packets, in Python."""
        counts: Counter[str] = Counter()
        for call in self.calls:
            for incoming in (call.call.gsm, call.call.pcm):
                counts.update(incoming.counts + incoming.came() + incoming.buffer.counts)
        return counts

    def end(self) -> None:
        """Frees the memory of the core."""
        for call in self.calls:
            call.end()
