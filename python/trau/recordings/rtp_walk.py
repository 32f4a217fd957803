"""The streams of RTP in a capture, in one pass over its packets, with little memory: what each
stream carries, and what of it is missing, late or came again. What can't be read is counted by its
reason."""

import mmap
import struct
from collections import Counter
from dataclasses import dataclass, field
from types import MappingProxyType
from typing import Callable, Dict, Iterator, Mapping, NamedTuple, Optional, Tuple

from trau.recordings import trau_frames, udp_layers
from trau.recordings.capture_walk import BrokenCapture, CaptureOctets, Interfaces, walk
from trau.recordings.packet_rows import SEQUENCES, OpenRow, PacketRow
from trau.recordings.rtp_packets import TRAU_FRAMES
from trau.recordings.rtp_streams import has_frames
from trau.recordings.speech_frames import errors_of_frames
from trau.recordings.udp_layers import CUT, Unread, udp_of
from trau.rules import rtp
from trau.rules.parameters import GSM_OCTETS
from trau.rules.payload_types import GSM

RELEASED = 1 << 25  # octets of a mapped file after which those that were read are given back

# The frequent packet, by its link: IPv4 without options, UDP, and RTP without contributing sources,
# extension and padding. What is read of it: the type of IP; of IP the first octet, flags and offset
# of a fragment, and the protocol; addresses and ports; the length of UDP; and the head of RTP.
PLAIN_HEADS = {
    link: struct.Struct(f">{at}x2s{start - at - 2}xs5xHxs2x12sH2xBBHII")
    for link, (at, start) in udp_layers.TYPE_PLACES.items()
}
PLAIN = (udp_layers.IPV4_TYPE, udp_layers.PLAIN_IPV4, udp_layers.UDP, rtp.VERSION << 6)
OFFSET_BITS = udp_layers.OFFSET_BITS << 8 | 0xFF
PLAIN_LENGTH = udp_layers.UDP_HEAD + rtp.HEADER.size  # of UDP, without the payload

# Numbers that may be missing; after a further jump the sender began anew (RFC 3550, appendix A.1).
MOST_STEP = 3000
RING = 64  # numbers that are known to have come or not
RING_BITS = (1 << RING) - 1
LEAST_RETURNS = 3  # to numbers that were left, of two senders that have one SSRC

# GSMTAP, as libosmocore's gsmtap.h has it: version 2, a head of so many words of 32 bits, type E1T1.
GSMTAP_HEAD = struct.Struct(">BBBBHHIBBBB")
GSMTAP_E1, GSMTAP_PORT = b"\x02\x04\x13", (4729).to_bytes(2, "big")
GSMTAP_TRAU16, GSMTAP_UPLINK = 4, 0x4000
OTHER_GSMTAP = "of GSMTAP without TRAU frames of 16 kbit/s"

Key = Tuple[bytes, int]  # addresses and ports, and the SSRC
NO_RTP = "not RTP"
# Of packets that needn't be named: those that were cut off are counted by their lengths.
PLAIN_REASONS = (udp_layers.NOT_UDP, NO_RTP, udp_layers.CUT)
MOST_STREAMS, TOO_MANY = 1 << 16, "of more streams than are taken"


class RtpPacket(NamedTuple):
    """A packet of RTP: its octet 1 without the mark is the type; where its payload is in the
    octets, None if it was cut off."""

    key: Key
    kind: int
    sequence: int
    stamp: int
    payload: Optional[bytes]


def is_near(sequence: int, following: int) -> bool:
    """Whether a number is of a sender whose next one is another."""
    step = (sequence - following) % SEQUENCES
    return step < MOST_STEP or step >= SEQUENCES - RING


class CapturedStream:
    """What is known of a stream of a capture by its rows. Times are in seconds since 1970."""

    __slots__ = (
        *("number", "first", "last", "packets", "kinds", "missing", "late", "doubled", "restarts"),
        *("descriptors", "cut", "wrong", "following", "left", "returns", "ring", "sample", "codes"),
    )

    def __init__(self, packet: RtpPacket, number: int, time: float) -> None:
        self.number = number  # of its first packet in the capture, from 1
        self.first = self.last = time
        self.packets = self.missing = self.late = self.doubled = self.restarts = 0
        self.descriptors = self.cut = self.returns = 0
        self.wrong = 0  # packets of GSM without whole frames, and of GSMTAP without a TRAU frame
        self.codes = bytearray()  # of TRAU frames
        self.kinds: Dict[int, int] = {}  # packets by payload type
        self.sample = packet.payload or b""  # of the first packet, or of the first wrong one
        self.following = packet.sequence  # the number that is next
        self.left: Optional[int] = None  # the number that was next before the last jump
        self.ring = 0  # bit k: whether the number following - 1 - k came

    def take(self, row: PacketRow) -> None:
        """One more row."""
        self.packets += row.packets
        self.last = row.last_time
        self.kinds[row.kind] = self.kinds.get(row.kind, 0) + row.packets
        if row.kind == TRAU_FRAMES:
            self.take_trau_frame(row.payload)
            return
        self.take_numbers(row.sequence, row.packets)
        if row.payload is None:
            self.cut += row.packets
        elif row.kind == GSM:
            self.take_frames(row.payload, row.packets)

    def take_trau_frame(self, frame: Optional[bytes]) -> None:
        """One more TRAU frame of GSMTAP."""
        code = None if frame is None else trau_frames.code_of(frame)
        if code is not None:
            self.codes.append(code)
        self.cut += frame is None
        self.wrong += frame is not None and code is None

    def take_numbers(self, first: int, packets: int) -> None:
        """Counts so many packets by their numbers, which go on by one."""
        self.count_number(first)
        if self.following == first + 1:
            more = packets - 1
            self.following += more
            self.ring = (self.ring + 1 << more) - 1 & RING_BITS
        else:
            for number in range(first + 1, first + packets):
                self.count_number(number)

    def take_frames(self, payload: bytes, packets: int) -> None:
        """One more row of GSM, which has whole frames or is a packet without."""
        if not has_frames(payload):
            self.sample = payload if self.wrong == 0 else self.sample
            self.wrong += packets
        elif len(payload) == GSM_OCTETS * packets:
            errors = errors_of_frames(payload)
            self.descriptors += errors.count(0) + errors.count(1)

    def count_number(self, sequence: int) -> None:
        """Counts a packet by its number."""
        step = (sequence - self.following) % SEQUENCES
        if step < MOST_STEP:
            self.left = self.following if step >= RING else self.left
            self.missing += step
            self.ring = (self.ring << step + 1 | 1) & RING_BITS
            self.following = sequence + 1
        elif step >= SEQUENCES - RING:
            bit = 1 << SEQUENCES - 1 - step
            if self.ring & bit:
                self.doubled += 1
            else:
                self.ring |= bit
                self.late += 1
                self.missing -= self.missing > 0
        else:
            self.restarts += 1
            self.returns += self.left is not None and is_near(sequence, self.left)
            self.left = self.following
            self.following, self.ring = sequence + 1, 1

    def has_two_senders(self) -> bool:
        """Whether two senders seem to have its SSRC: the numbers of each go on in turns."""
        return self.returns >= LEAST_RETURNS

    def kind(self) -> int:
        """The payload type of most packets."""
        return max(self.kinds, key=lambda kind: self.kinds[kind])


class CaptureScan(NamedTuple):
    """The streams of a capture, in their order; packets that aren't read, by why; what is wrong
    where the capture breaks off; how many packets it has; the time of the first, in seconds since
    1970."""

    streams: Dict[Key, CapturedStream]
    unread: Dict[str, int]
    broken: str
    packets: int
    begins: float


Take = Callable[[Key, PacketRow], None]  # a row of a stream


def rtp_at(data: CaptureOctets, place: int, captured: int, link: int) -> RtpPacket:
    """The packet of RTP in so many octets of a capture from a place on."""
    head = PLAIN_HEADS.get(link)
    if head and captured >= head.size:
        found = head.unpack_from(data, place)
        ip, version, offset, protocol, flow, length, first, second, number, stamp, source = found
        if (ip, version, protocol, first) == PLAIN and not offset & OFFSET_BITS:
            kind = second & rtp.TYPE_BITS
            size = length - PLAIN_LENGTH
            if size >= 0 and not rtp.FIRST_RTCP <= kind <= rtp.LAST_RTCP:
                begin, end = place + head.size, place + head.size + size
                payload = data[begin:end] if end <= place + captured else None
                return RtpPacket((flow, source), kind, number, stamp, payload)
    return rtp_of(data[place : place + captured], link)


def rtp_of(octets: bytes, link: int) -> RtpPacket:
    """The packet of RTP in the octets of a packet."""
    flow, content, size = udp_of(octets, link)
    if content[: len(GSMTAP_E1)] == GSMTAP_E1 and flow.endswith(GSMTAP_PORT):
        return trau_frame_of(flow, content, len(content) >= size)
    try:
        kind, number, stamp, source = rtp.head_of(content)
        payload = rtp.payload_of(content) if len(content) >= size else None
    except rtp.PacketRefused:
        raise Unread(NO_RTP) from None
    return RtpPacket((flow, source), kind, number, stamp, payload)


def trau_frame_of(flow: bytes, content: bytes, is_whole: bool) -> RtpPacket:
    """The TRAU frame of 16 kbit/s that a packet of GSMTAP has, as a packet of a stream of its own:
    that of a time slot, a sub-slot and a way. It has no number."""
    head = 4 * content[1]
    if len(content) < GSMTAP_HEAD.size or len(content) < head:
        raise Unread(CUT)
    _, _, _, slot, arfcn, _, frame, sub_type, _, sub_slot, _ = GSMTAP_HEAD.unpack_from(content)
    if sub_type != GSMTAP_TRAU16:
        raise Unread(OTHER_GSMTAP)
    source = (arfcn & GSMTAP_UPLINK) << 8 | slot << 8 | sub_slot
    payload = content[head:] if is_whole else None
    return RtpPacket((flow, source), TRAU_FRAMES, 0, frame, payload)


def gsmtap_said(source: int) -> str:
    """Where the TRAU frames of a stream of GSMTAP were, in words."""
    return f"GSMTAP slot {source >> 8 & 0xFF} channel {source & 0xFF}"


# The pass

# A packet of RTP: its number in the capture from 1, its time in seconds since 1970, whether less of
# it was captured than sent, and what it says.
PassedPacket = Tuple[int, float, bool, RtpPacket]


@dataclass
class CapturePass:
    """A pass over the packets of a capture: packets that aren't read, by why; how many there are,
    and of how many a part wasn't captured; when the first was captured; what is wrong where the
    capture breaks off; and what is done from time to time, given how many octets are read."""

    data: CaptureOctets
    passed: Callable[[int], None] = lambda octets: None
    unread: Counter = field(default_factory=Counter)
    packets: int = 0
    short: int = 0
    begins: Optional[float] = None
    broken: str = ""

    def rtp(self) -> Iterator[PassedPacket]:
        """The packets of RTP."""
        interfaces: Interfaces = []
        time, release = 0.0, RELEASED
        try:
            for ticks, which, place, captured, sent in walk(self.data, interfaces):
                self.packets += 1
                self.short += captured < sent
                if place > release:
                    release = place + RELEASED
                    self.release(place)
                link, a_second, offset = interfaces[which]
                if ticks is not None:
                    time = ticks / a_second + offset
                if self.begins is None:
                    self.begins = time
                try:
                    packet = rtp_at(self.data, place, captured, link)
                except Unread as why:
                    self.unread[str(why)] += 1
                    continue
                yield self.packets, time, captured < sent, packet
        except BrokenCapture as failure:
            self.broken = str(failure)

    def release(self, place: int) -> None:
        """Gives the pages of a mapped file back that precede a place; else they would count as this
        process's memory."""
        if isinstance(self.data, mmap.mmap) and hasattr(mmap, "MADV_DONTNEED"):
            self.data.madvise(mmap.MADV_DONTNEED, 0, place & -mmap.PAGESIZE)
        self.passed(place)

    def cut_off(self) -> str:
        """How many packets were cut off, in words that follow others."""
        said = f"; {self.short} of {self.packets} packets are cut off (the captured length is below the length on the wire)"
        return said if self.short else ""

    def unread_said(self) -> str:
        """The packets that aren't read and are unusual, in words; empty without any."""
        odd = {why: count for why, count in self.unread.items() if why not in PLAIN_REASONS}
        return ", ".join(f"{count} packets {why}" for why, count in odd.items())


class StreamTable:
    """The streams so far, and their rows that may go on."""

    def __init__(self, take: Optional[Take], types: Mapping[int, int]) -> None:
        self.streams: Dict[Key, CapturedStream] = {}
        self.open: Dict[Key, OpenRow] = {}
        self.too_many = 0  # packets of streams that aren't taken
        self.take_row, self.types = take, types

    def take(self, packet: RtpPacket, number: int, time: float) -> None:
        """One more packet of the capture."""
        key, kind, sequence, stamp, payload = packet
        if kind in self.types:
            kind = self.types[kind]
        row = self.open.get(key)
        if row is not None:
            if row.takes(kind, sequence, stamp, payload, number, time):
                return
            self.close(key)
        elif key not in self.streams:
            if len(self.streams) >= MOST_STREAMS:
                self.too_many += 1
                return
            self.streams[key] = CapturedStream(packet, number, time)
        self.open[key] = OpenRow(kind, sequence, stamp, payload, number, time)

    def close(self, key: Key) -> None:
        """Ends the open row of a stream."""
        row = self.open.pop(key).row()
        self.streams[key].take(row)
        if self.take_row is not None:
            self.take_row(key, row)

    def close_all(self) -> None:
        """Ends all open rows, so that little of a capture waits in the memory."""
        for key in list(self.open):
            self.close(key)


def scan_capture(
    data: CaptureOctets,
    take: Optional[Take] = None,
    passed: Callable[[int], None] = lambda octets: None,
    types: Mapping[int, int] = MappingProxyType({}),
) -> CaptureScan:
    """The streams of a capture, in which payload types may stand for others; `take` gets the rows
    of each stream, `passed` from time to time how many octets are read."""
    table = StreamTable(take, types)

    def released(octets: int) -> None:
        """What is done each time that so many octets are read."""
        table.close_all()
        passed(octets)

    found = CapturePass(data, released)
    for number, time, _, packet in found.rtp():
        table.take(packet, number, time)
    table.close_all()
    if table.too_many:
        found.unread[TOO_MANY] += table.too_many
    return CaptureScan(
        table.streams, dict(found.unread), found.broken, found.packets, found.begins or 0.0
    )
