"""RTCP (RFC 3550, section 6): what came of a peer's packets, and the reports that answer the
peer's. Datagrams that come are never trusted.
"""

from __future__ import annotations

import base64
import os
import struct
from collections import Counter
from typing import List, Optional

from trau.gateway.rtp import NUMBERS, SAMPLES, STAMPS, Outgoing

SENDER_REPORT, RECEIVER_REPORT, DESCRIPTION = 200, 201, 202  # packet types
NAME = 1  # the item CNAME of a description
HEAD = struct.Struct(">BBHI")  # version and count, type, length, SSRC
LEAST = 4  # octets of a packet: without an SSRC, as a BYE of nobody
SENDER = struct.Struct(">QIII")  # NTP time, time stamp, packets, octets
BLOCK = struct.Struct(">IIIIII")  # SSRC, losses, highest number, jitter, last report, delay since
UNIX_EPOCH = 2_208_988_800  # seconds since 1900, with which NTP's time begins
SECOND = 1_000_000_000
MOST_LOST = 0x7FFFFF  # that a block can say
MOST_GAP = 3000  # numbers further away are of a sender that begins anew (A.1)
MOST_MOVED = 8000  # units of the time stamp; more is no jitter


def ntp_time(nanoseconds: int) -> int:
    """A time of the system's clock as NTP has it: 32 bits of seconds, 32 of their fraction."""
    return (nanoseconds + UNIX_EPOCH * SECOND << 32) // SECOND & 0xFFFFFFFFFFFFFFFF


def signed(number: int, bits: int) -> int:
    """A number of so many bits in two's complement."""
    half = 1 << bits - 1
    return (number + half & 2 * half - 1) - half


class Reception:
    """What came of one source (A.3, A.8). Packets are read at ticks, so jitter is seen in whole
    ticks."""

    def __init__(self, source: int, first: int) -> None:
        """`first` is the number of the first packet."""
        self.source, self.first, self.highest = source, first, first - 1
        self.received = self.jitter = 0  # packets; 16 times the jitter, in units of the time stamp
        self.transit: Optional[int] = None
        self.reported = 0, 0  # packets that were due, and that came, at the last report
        self.wild: Optional[int] = None  # the number with which a sender that begins anew goes on

    def count(self, number: int, stamp: int, tick: Optional[int]) -> None:
        """Counts a packet, also a late or doubled one. A late tick says nothing about its arrival,
        and is None."""
        ahead = number - self.highest & NUMBERS
        if ahead <= MOST_GAP:
            self.highest += ahead
        elif ahead < 0x10000 - MOST_GAP:
            is_next, self.wild = number == self.wild, number + 1 & NUMBERS
            if not is_next:  # a single number that is far away is dropped
                return
            self.first += ahead - 1
            self.highest += ahead
        self.received += 1
        before, self.transit = self.transit, None if tick is None else SAMPLES * tick - stamp
        if (
            (self.jitter or before != self.transit)
            and before is not None
            and self.transit is not None
        ):
            self.smooth(abs(signed(self.transit - before, 32)))

    def smooth(self, moved: int) -> None:
        """Takes how far a packet came from its time into the jitter."""
        if moved < MOST_MOVED:
            self.jitter += moved - (self.jitter + 8 >> 4)

    def missing(self) -> int:
        """The packets that are missing by their numbers; below 0 if more came twice."""
        return self.highest - self.first + 1 - self.received

    def block(self, last: int, delay: int) -> bytes:
        """The block of a report on this source, with the peer's last report and the delay since."""
        due, received = self.highest - self.first + 1, self.received
        newly_due, newly_received = due - self.reported[0], received - self.reported[1]
        self.reported = due, received
        share = (
            min(255, 256 * max(0, newly_due - newly_received) // newly_due) if newly_due > 0 else 0
        )
        losses = share << 24 | max(-MOST_LOST, min(MOST_LOST, self.missing())) & 0xFFFFFF
        return BLOCK.pack(self.source, losses, self.highest & STAMPS, self.jitter >> 4, last, delay)


def is_control(data: bytes) -> bool:
    """Whether a datagram looks like RTCP."""
    return len(data) >= HEAD.size and data[0] >> 6 == 2 and 200 <= data[1] <= 207


def packed(count: int, kind: int, source: int, content: bytes) -> bytes:
    """A packet of RTCP."""
    return HEAD.pack(0x80 | count, kind, 1 + len(content) // 4, source) + content


def packets_of(data: bytes) -> List[bytes]:
    """The packets of a datagram; none if they don't fill it, or no report is the first (A.2). Some
    may have no SSRC."""
    found, at = [], 0
    while at + LEAST <= len(data) and data[at] >> 6 == 2:
        end = at + 4 + 4 * int.from_bytes(data[at + 2 : at + 4], "big")
        found.append(data[at:end])
        at = end
    return (
        found
        if at == len(data) and found and found[0][1] in (SENDER_REPORT, RECEIVER_REPORT)
        else []
    )


class Reports:
    """The reports of one side of a call, which answer those of the peer."""

    def __init__(self, outgoing: Outgoing, counts: Counter[str]) -> None:
        self.outgoing, self.counts = outgoing, counts
        self.last = (
            0,
            0,
            0,
        )  # source, middle of the NTP time, and arrival of the peer's last sender report
        self.packets = 0  # that had been sent at the last answer
        self.name = base64.b64encode(os.urandom(12))  # a CNAME of 16 octets (RFC 7022)

    def take(self, data: bytes, arrival: int) -> bool:
        """Takes a datagram that came at a time of the system's clock; the result is whether it is
        to be answered."""
        packets = packets_of(data)
        for packet in packets:
            if len(packet) < HEAD.size:
                continue
            count, kind, _, source = HEAD.unpack_from(packet)
            at = HEAD.size + (SENDER.size if kind == SENDER_REPORT else 0)
            if kind not in (SENDER_REPORT, RECEIVER_REPORT) or len(packet) < at + BLOCK.size * (
                count & 31
            ):
                continue
            if kind == SENDER_REPORT:
                self.last = source, SENDER.unpack_from(packet, HEAD.size)[0] >> 16 & STAMPS, arrival
            for place in range(at, at + BLOCK.size * (count & 31), BLOCK.size):
                source, losses, *_ = BLOCK.unpack_from(packet, place)
                if source == self.outgoing.source:
                    self.counts["far-lost"] = signed(losses, 24)
        return bool(packets)

    def answer(self, reception: Optional[Reception], now: int, period: int) -> bytes:
        """The report at a time of the system's clock, which is the start of a period, and a
        description."""
        out, block = self.outgoing, b""
        if reception and reception.received != reception.reported[1]:
            source, middle, arrival = self.last if self.last[0] == reception.source else (0, 0, now)
            block = reception.block(middle, min(STAMPS, max(0, now - arrival << 16) // SECOND))
        kind, head = RECEIVER_REPORT, b""
        if out.packets > self.packets:
            stamp = out.stamp + SAMPLES * period & STAMPS
            kind, head = SENDER_REPORT, SENDER.pack(
                ntp_time(now), stamp, out.packets & STAMPS, out.octets & STAMPS
            )
        self.packets = out.packets
        name = bytes((NAME, len(self.name))) + self.name + bytes(2)
        return packed(len(block) // BLOCK.size, kind, out.source, head + block) + packed(
            1, DESCRIPTION, out.source, name
        )
