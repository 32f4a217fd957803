"""The streams of RTP with speech in a capture: found in one pass over its packets, with little
memory; and the packets of one of them, in another pass."""

from __future__ import annotations

from collections import Counter
from dataclasses import dataclass, field
from pathlib import Path
from typing import Dict, Iterator, List, Mapping, NoReturn, Optional, Sequence

from trau.command_line.words import Refusal
from trau.recordings import udp_layers
from trau.recordings.capture_walk import CaptureOctets
from trau.recordings.rtp_packets import (
    LEAST_OF_STREAM,
    PLAIN_TYPES,
    READ_KINDS,
    Flow,
    Packet,
    payload_said,
)
from trau.recordings.rtp_streams import has_frames
from trau.recordings.rtp_walk import CapturePass, Key, PassedPacket
from trau.rules.parameters import GSM_MAGIC, GSM_OCTETS
from trau.rules.payload_types import GSM
from trau.rules.profile import PERIODS_A_SECOND

MOST_FLOWS = 1 << 16
MOST_SIZES = 64  # of payloads of a kind that are told apart
FURTHER = f"of more than {MOST_FLOWS} streams"


@dataclass
class KindPayloads:
    """The payloads of a stream that are of one type: how many have each size, one of each size, and
    the first that isn't whole frames of GSM."""

    sizes: Counter = field(default_factory=Counter)
    samples: Dict[int, bytes] = field(default_factory=dict)
    wrong: Optional[bytes] = None
    wrongs: int = 0

    def take(self, payload: bytes) -> None:
        """One more payload."""
        size = len(payload)
        if size in self.samples or len(self.samples) < MOST_SIZES:
            self.sizes[size] += 1
            self.samples.setdefault(size, payload)
        if not has_frames(payload):
            self.wrongs += 1
            self.wrong = self.wrong or payload

    def said(self, kind: int) -> str:
        """The type, which isn't read, with what its payloads seem to be."""
        payload = self.samples[self.sizes.most_common(1)[0][0]] if self.sizes else b""
        if len(payload) == GSM_OCTETS and payload[0] >> 4 == GSM_MAGIC:
            return f"{kind} ({GSM_OCTETS} octets that begin with 1101: GSM, which --type {kind}=gsm takes)"
        return f"{kind} ({payload_said(payload)})"


@dataclass
class CapturedFlow:
    """A stream: where it goes, how many packets it has, the times of its first and last one, and
    its payloads by their kinds of speech or payload types."""

    flow: Flow
    first: float
    last: float
    packets: int = 0
    kinds: Dict[int, KindPayloads] = field(default_factory=dict)

    def take(self, kind: int, payload: bytes, time: float) -> None:
        """One more packet."""
        self.packets += 1
        self.last = time
        self.kinds.setdefault(kind, KindPayloads()).take(payload)

    def speech(self) -> List[int]:
        """The kinds of speech that it has."""
        return sorted(self.kinds.keys() & READ_KINDS.keys())

    def kinds_said(self) -> str:
        """The kinds of speech in words, with what is not taken of them."""
        said = " and ".join(READ_KINDS[kind] for kind in self.speech())
        gsm = self.kinds.get(GSM)
        if gsm is None or gsm.wrong is None:
            return said
        return f"{said}, of which {gsm.wrongs} have no whole frames, but {payload_said(gsm.wrong)}"

    def types_said(self) -> str:
        """The payload types of a stream without speech, in words."""
        return ", ".join(self.kinds[kind].said(kind) for kind in sorted(self.kinds))

    def said(self) -> str:
        """A stream without speech, in words."""
        return f"{self.flow.said()}, packets {self.packets}, payload types {self.types_said()}"


@dataclass
class CapturedStreams:
    """The streams of a capture with speech, in their order; those without; how many packets with
    speech weren't captured whole; which kinds payload types are; and the pass that found them."""

    name: Path
    data: CaptureOctets
    types: Mapping[int, int]
    whole: CapturePass
    by_key: Dict[Key, CapturedFlow] = field(default_factory=dict)
    others: Dict[Key, CapturedFlow] = field(default_factory=dict)
    cut: int = 0

    def packets(self, flow: CapturedFlow) -> Iterator[Packet]:
        """The packets of a stream, as they were captured, without those that weren't captured
        whole."""
        wanted = next(key for key, each in self.by_key.items() if each is flow)
        for number, time, _, rtp in CapturePass(self.data).rtp():
            if rtp.key == wanted and rtp.payload is not None:
                kind = self.types.get(rtp.kind, rtp.kind)
                yield Packet(number, kind, rtp.sequence, rtp.stamp, rtp.payload, time)

    def listed(self) -> List[str]:
        """The streams in words, with the times of their first packets from the first one of all
        on."""
        first = min((each.first for each in self.by_key.values()), default=0.0)
        return [
            f"{place} is {each.flow.said()}, packets {each.packets}, {each.kinds_said()}, from {each.first - first:.2f} s on"
            for place, each in enumerate(self.by_key.values(), 1)
        ]

    def chosen(self, option: str, number: Optional[int]) -> CapturedFlow:
        """The stream with the number that an option gives, counted from 1, or the only one."""
        streams = list(self.by_key.values())
        if not streams:
            self.refuse_empty()
        if number is None and len(streams) == 1:
            number = 1
        if number is None or not 1 <= number <= len(streams):
            several = f"{len(streams)} streams, one of which {option} names"
            count = several if len(streams) > 1 else f"no stream {number}"
            raise Refusal(f"{self.name}: has {count}: {'; '.join(self.listed())}")
        return streams[number - 1]

    def refuse_empty(self) -> NoReturn:
        """Refuses a capture without speech."""
        others = ", ".join(each.types_said() for each in self.others.values())
        types = f"; its streams have the payload types {others}" if others else ""
        unread = self.whole.unread_said()
        raise Refusal(
            f"{self.name}: has no RTP stream with GSM, PCMA or PCMU (payload types 3, 8 and 0){types}"
            f"{f'; not read: {unread}' if unread else ''}{self.whole.cut_off()}"
        )


def streams_of(
    name: Path,
    data: CaptureOctets,
    partial: bool = False,
    types: Mapping[int, int] = PLAIN_TYPES,
) -> CapturedStreams:
    """The streams of a capture, whose payload types of speech have these kinds. A packet that
    wasn't captured whole is left out where `partial` says so."""
    found = CapturePass(data)
    streams = CapturedStreams(name, data, types, found)
    flows: Dict[Key, CapturedFlow] = {}
    first_cut: Optional[PassedPacket] = None
    for packet in found.rtp():
        _, time, _, rtp = packet
        kind = types.get(rtp.kind, rtp.kind)
        if rtp.payload is None and kind in READ_KINDS:
            streams.cut += 1
            first_cut = first_cut or packet
            continue
        flow = flows.get(rtp.key)
        if flow is None:
            if len(flows) >= MOST_FLOWS:
                found.unread[FURTHER] += 1
                continue
            ends = Flow(*udp_layers.key_said(rtp.key[0]), rtp.key[1])
            flow = flows[rtp.key] = CapturedFlow(ends, time, time)
        flow.take(kind, rtp.payload or b"", time)
    if not partial:
        refuse_broken(name, found, first_cut)
    streams.cut += bool(found.broken)  # the packet in which the capture ends
    for key, flow in flows.items():
        if flow.speech():
            streams.by_key[key] = flow
        elif flow.packets >= LEAST_OF_STREAM:
            streams.others[key] = flow
    return streams


def refuse_broken(name: Path, found: CapturePass, cut: Optional[PassedPacket]) -> None:
    """Refuses a capture that breaks off, or that has a packet with speech that wasn't captured
    whole."""
    if found.broken:
        raise Refusal(f"{name}: {found.broken}; --partial takes the packets before that")
    if cut:
        fragment = "is a fragment, and its parts aren't joined here"
        number, _, is_short, _ = cut
        why = f"wasn't captured whole{found.cut_off()}" if is_short else fragment
        raise Refusal(f"{name}: packet {number} {why}; --partial leaves such packets out")


def kind_of(flows: Sequence[CapturedFlow]) -> int:
    """The kind of speech of streams."""
    kinds = sorted({kind for flow in flows for kind in flow.speech()})
    if len(kinds) > 1:
        said = " and ".join(READ_KINDS[kind] for kind in kinds)
        raise Refusal(f"this stream has speech of several kinds: {said}")
    return kinds[0]


def periods_between(name: Path, since: CapturedFlow, flow: CapturedFlow) -> int:
    """How many periods a stream begins later in its capture than another."""
    passed = flow.first - since.first
    if passed < 0:
        raise Refusal(f"{name}: the stream begins {-passed:.2f} s before that of --since")
    return round(passed * PERIODS_A_SECOND)
