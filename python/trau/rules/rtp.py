"""The head of RTP packets (RFC 3550, section 5.1), and what they carry. Packets that come are never
trusted."""

import struct
from typing import NamedTuple

HEADER = struct.Struct(">BBHII")
NUMBERS, STAMPS = 0xFFFF, 0xFFFFFFFF
VERSION, TYPE_BITS = 2, 127
SOURCES_BITS, EXTENSION_BIT, PADDING_BIT = 15, 16, 32  # of the first octet
MORE_BITS = SOURCES_BITS | EXTENSION_BIT | PADDING_BIT
FIRST_RTCP, LAST_RTCP = 64, 95  # types of RTCP on the same port (RFC 5761)


class PacketRefused(Exception):
    """A packet that isn't taken; the text is the reason under which it is counted."""


class RtpHead(NamedTuple):
    """What the head of a packet says: payload type, sequence number, time stamp and source
    (SSRC)."""

    kind: int
    number: int
    stamp: int
    source: int


def head_of(data: bytes) -> RtpHead:
    """The head of the packet in a datagram. Raises PacketRefused if it is none, or RTCP."""
    if len(data) < HEADER.size:
        raise PacketRefused("not-rtp")
    first, second, number, stamp, source = HEADER.unpack_from(data)
    if first >> 6 != VERSION:
        raise PacketRefused("not-rtp")
    kind = second & TYPE_BITS
    if FIRST_RTCP <= kind <= LAST_RTCP:
        raise PacketRefused("rtcp")
    return RtpHead(kind, number, stamp, source)


def payload_of(data: bytes) -> bytes:
    """The payload between contributing sources, header extension and padding. Raises PacketRefused
    if they are longer than the packet."""
    first = data[0]
    if not first & MORE_BITS:
        return data[HEADER.size :]
    at, end = HEADER.size + 4 * (first & SOURCES_BITS), len(data)
    if first & EXTENSION_BIT:
        if end < at + 4:
            raise PacketRefused("not-rtp")
        at += 4 + 4 * int.from_bytes(data[at + 2 : at + 4], "big")
    if first & PADDING_BIT:
        if data[-1] == 0:
            raise PacketRefused("not-rtp")
        end -= data[-1]
    if at > end:
        raise PacketRefused("not-rtp")
    return data[at:end]
