"""A call, a period at a time: what the base station sends is heard, and what goes out to both sides
is made.

What is decided here is what is recorded: one frame of Up and 160 octets of Pcm a period,
whatever the network did. The gateway has its calls processed by a proved library (pump.py), and
takes only a call's settings and counts from here: the rules are the oracle of the tests.
"""

from __future__ import annotations

import sys
from collections import Counter, defaultdict
from functools import lru_cache
from typing import Callable, Container, DefaultDict, Dict, NamedTuple, Optional, Tuple

from trau.gateway import rtp
from trau.rules.parameters import GSM_MAGIC
from trau.rules.profile import TAF_PERIODS
from trau import trau_fr
from trau.gateway.incoming import Incoming
from trau.gateway.jitter_buffer import JitterBuffer
from trau.gateway.rtcp import Reports
from trau.gateway.rtp import SAMPLES
from trau.gateway.settings import Settings
from trau.trau_fr import OCTETS, Kind

SOFT = 256  # samples below it are a pause of a line, for the jitter buffer alone
SOFT_BLOCK = 4  # codes of block maxima up to it are soft speech, for the jitter buffer alone
BLOCK_MAXIMA = (
    6,
    13,
    20,
    27,
)  # octets of a frame (RFC 3551) whose last five bits begin the six of a block maximum
STILL_AFTER = 250  # periods without a packet, 5 s
SILENCE = trau_fr.Receiver().hand(None)  # a receiver that is quiet hands over the frame of silence
NO_FRAME = bytes(OCTETS)
NEVER, NOT_YET = -1, sys.maxsize  # periods of what hasn't been, and of what a line has asked for
NO_FAULTS = {"packets", "rtcp", "rtcp-sent", "far-lost"}  # counts
SPEECH, DESCRIPTOR, LOST, IDLE = Kind.SPEECH, Kind.DESCRIPTOR, Kind.LOST, Kind.IDLE
COUNTED = ("speech", "descriptor", "invalid")  # a frame, by its kind

Send = Callable[[bytes], None]


@lru_cache(maxsize=None)
def soft_octets(law: str) -> bytes:
    """The octets of a line's soft samples."""
    octets = bytes(range(256))
    return bytes(
        octet for octet, sample in zip(octets, trau_fr.expand(octets, law)) if abs(sample) < SOFT
    )


def is_soft_frame(frame: bytes) -> bool:
    """Whether a frame is soft speech, for the jitter buffer alone. A descriptor isn't: a pause
    needs it."""
    maxima = [(frame[at] & 31) << 1 | frame[at + 1] >> 7 for at in BLOCK_MAXIMA]
    return max(maxima) <= SOFT_BLOCK and trau_fr.kind_of(frame) is SPEECH


def idle_line(law: str) -> bytes:
    """A period of an idle line."""
    return trau_fr.compress(bytes(2 * SAMPLES), law)


def kinds_of(settings: Settings) -> Tuple[int, int]:
    """The payload types of both sides: those of RFC 3551, if `open` gives no others."""
    line = rtp.ALAW if settings.law == "alaw" else rtp.MULAW
    return settings.types.get("gsm", rtp.GSM), settings.types.get("pcm", line)


def buffers(settings: Settings) -> Tuple[Incoming, Incoming]:
    """The two incoming streams of a call, from the base station and from the exchange."""
    soft = soft_octets(settings.law)
    from_station = JitterBuffer(settings.depth, NO_FRAME, is_soft_frame)
    from_exchange = JitterBuffer(
        settings.depth, idle_line(settings.law), lambda line: not line.translate(None, soft)
    )
    gsm, pcm = kinds_of(settings)
    return Incoming(gsm, OCTETS, from_station), Incoming(pcm, 0, from_exchange)


class Stream(NamedTuple):
    """One side of a call: what comes, what goes out, and the reports on both."""

    incoming: Incoming
    outgoing: rtp.Outgoing
    reports: Reports

    def faults(self) -> Dict[str, int]:
        """What went wrong on the network, by reasons."""
        reception = self.incoming.reception
        missing = self.incoming.counts["missing"] + (reception.missing() if reception else 0)
        counts = {**self.incoming.counts, **self.incoming.buffer.counts, "missing": missing}
        return {
            name: count for name, count in counts.items() if count > 0 and name not in NO_FAULTS
        }


class LiveCall:
    """One phone call. `hear` and then `speak` are called once a period; in a bridge both calls hear
    before one speaks."""

    def __init__(self, settings: Settings, start: int) -> None:
        self.number, self.law, self.start = settings.number, settings.law, start
        self.level, self.dtx, self.is_to_prime = settings.level, settings.dtx, settings.prime
        self.idle = idle_line(self.law)
        self.receiver = trau_fr.Receiver(self.number)
        self.sender: Optional[
            trau_fr.Sender
        ] = None  # at home: in a bridge, in a quiet call, and at first
        self.gsm, self.pcm = buffers(settings)
        self.to_gsm, self.to_pcm = rtp.Outgoing(self.gsm.kind), rtp.Outgoing(self.pcm.kind)
        pairs = {"gsm": (self.gsm, self.to_gsm), "pcm": (self.pcm, self.to_pcm)}
        self.sides = {
            side: Stream(come, go, Reports(go, come.counts)) for side, (come, go) in pairs.items()
        }
        self.since_descriptor: Optional[int] = None  # periods, while comfort noise goes on
        self.pause: Optional[int] = None  # descriptors that the sender has made in a row
        # Of this period: its frame on Up, the octets of Out, what goes to the partner of a bridge.
        self.up = self.out = self.handed = b""
        self.is_quiet = True
        self.partner: Optional[LiveCall] = None
        self.bridged = self.parted = NEVER  # the periods at which its last bridge began and ended
        self.counts: DefaultDict[str, int] = defaultdict(int)

    def frame_of(self, period: int) -> Optional[bytes]:
        """The frame that the base station brought for a period. `prime`: if the first one isn't
        good, it is a good frame of silence."""
        frame = self.gsm.buffer.take(period)
        if self.is_to_prime:
            self.is_to_prime = False
            frame = SILENCE if frame is None or trau_fr.kind_of(frame) is LOST else frame
        if frame is not None and frame[0] >> 4 != GSM_MAGIC:
            self.counts["not-gsm"] += 1
            return None
        return frame

    def kind_of(self, frame: Optional[bytes]) -> Tuple[Kind, bool]:
        """What a period brought, and its TAF. RTP has no TAF: a descriptor was due in each 24th
        period after the last one."""
        kind = LOST if frame is None else trau_fr.kind_of(frame)
        if kind is SPEECH:
            self.since_descriptor = None
        elif kind is DESCRIPTOR:
            self.since_descriptor = 0
        elif self.since_descriptor is not None:
            self.since_descriptor += 1
        is_due = self.since_descriptor is not None and self.since_descriptor % TAF_PERIODS == 0
        self.counts["no-gsm" if frame is None else COUNTED[kind]] += 1
        return kind, is_due and frame is None

    def hear(self, period: int) -> None:
        """The uplink of a period."""
        frame = self.frame_of(period)
        kind, taf = self.kind_of(frame)
        self.up = trau_fr.write_uplink(frame, kind, taf)
        if self.partner:
            self.handed, self.out, self.is_quiet = (
                self.receiver.hand(frame, kind, taf),
                self.idle,
                True,
            )
        else:
            self.out = self.receiver.receive_line(frame, kind, taf, self.law)
            self.is_quiet = self.receiver.quiet

    def speak(
        self, period: int, send_gsm: Send, send_pcm: Send
    ) -> Tuple[bytes, bytes, bytes, bytes]:
        """The downlink of a period, after `hear`; sends both ways. The result is the period of Up,
        Pcm, Down and Out."""
        pcm = self.pcm.buffer.take(period)
        if pcm is None:
            self.counts["no-pcm"] += 1
            pcm = self.idle
        send_pcm(self.to_pcm.packet(period, self.out))
        down = (
            self.answer(period, send_gsm) if self.is_quiet else self.encode(period, pcm, send_gsm)
        )
        return self.up, pcm, down, self.out

    def answer(self, period: int, send_gsm: Send) -> bytes:
        """The downlink of a bridge, or of a quiet call: an idle frame, and nothing is sent. The
        sender is at home after both. As a bridge has a period, it needs no other reset."""
        self.sender = self.pause = None
        if self.partner is None:
            self.to_gsm.after_gap = True
            return trau_fr.write_downlink(None, IDLE)
        handed = self.partner.handed
        send_gsm(self.to_gsm.packet(period, handed))
        return trau_fr.write_downlink(handed, SPEECH)

    def encode(self, period: int, pcm: bytes, send_gsm: Send) -> bytes:
        """The downlink of what the exchange says. In a pause a descriptor is sent at its beginning
        and in each 24th period."""
        self.sender = self.sender or trau_fr.Sender()
        octets, is_speech = self.sender.send_line(pcm, self.level, self.dtx, self.law)
        self.pause = None if is_speech else 0 if self.pause is None else self.pause + 1
        if self.pause is None or self.pause % TAF_PERIODS == 0:
            send_gsm(self.to_gsm.packet(period, octets, is_speech))
        return trau_fr.write_downlink(octets, SPEECH if is_speech else DESCRIPTOR)

    def give_up(self, periods: int, tick: int) -> None:
        """The clock has given up time."""
        self.counts["held-up"] += periods
        for stream in self.sides.values():
            stream.incoming.give_up(periods, tick)
            stream.outgoing.give_up(periods)

    def summary(self, until: str) -> str:
        """The counts of a call up to now."""
        words = [f"call {self.number} from {self.start} {until}"]
        words += [f"{name} {count}" for name, count in sorted(self.counts.items())]
        for side, (incoming, outgoing, _) in self.sides.items():
            jitter = incoming.reception.jitter >> 7 if incoming.reception else 0  # milliseconds
            counts = (
                incoming.counts
                + incoming.came()
                + incoming.buffer.counts
                + Counter(sent=outgoing.packets, jitter=jitter)
            )
            words += [f"{side}-{name} {count}" for name, count in sorted(counts.items())]
        return " ".join(words) + self.faults()

    def faults(self, counts: Optional[Container[str]] = None) -> str:
        """What the latest faults of the gateway and its host were, of these counts or of all."""
        rows = (
            (f"{side}-{name}", text)
            for side, stream in self.sides.items()
            for name, text in stream.incoming.faults.items()
        )
        return "".join(
            f", {name}: {text}" for name, text in rows if counts is None or name in counts
        )
