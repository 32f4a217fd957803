"""UDP in the packets of a capture, with the addresses and ports of both ends.

UDP in IPv4 without options or in IPv6, on Ethernet (also with VLAN tags), Linux's cooked links or
none, is found here. Other layers (options, tunnels, other links) go to the library dpkt.
"""

import struct
from pathlib import Path
from typing import Any, Tuple

from trau.command_line.words import Refusal
from trau.recordings import rtp_packets

# Links whose head ends with the type of what follows: where the type is, and where the next layer
# begins.
TYPE_PLACES = {1: (12, 14), 113: (14, 16), 276: (0, 20)}
RAW_LINKS, LOOPBACK_LINKS, LOOPBACK_HEAD = (12, 101, 228, 229), (0, 108), 4
VLAN_TYPES, IPV4_TYPE, IPV6_TYPE = (b"\x81\x00", b"\x88\xa8"), b"\x08\x00", b"\x86\xdd"
OFFSET_BITS = 0x1F  # of the first octet of a fragment's offset
PLAIN_IPV4, UDP = b"\x45", b"\x11"  # IPv4 with a head of 20 octets; the protocol
# From the start of IP to what UDP carries.
IPV4_CONTENT, IPV6_CONTENT = 28, 48
# To the protocol, and to the addresses, which the ports of UDP follow.
IPV4_PROTOCOL, IPV6_PROTOCOL = 9, 6
IPV4_ENDS, IPV6_ENDS = 12, 8
UDP_HEAD = 8


# Why packets aren't read, in words that follow a number.
NOT_UDP, CUT, UNREADABLE, FRAGMENT = "not UDP", "cut off", "unreadable", "fragments"
NEEDS_DPKT = "need the library dpkt"


class Unread(Exception):
    """Why a packet isn't read."""


def key_said(key: bytes) -> Tuple[str, str]:
    """The addresses and ports of a stream, from and to, in words."""
    size = (len(key) - 4) // 2
    ports = struct.unpack_from(">HH", key, 2 * size)
    return rtp_packets.address(key[:size], ports[0]), rtp_packets.address(
        key[size : 2 * size], ports[1]
    )


def other_way(key: bytes) -> bytes:
    """The addresses and ports of what flows the other way."""
    size = (len(key) - 4) // 2
    ends = key[2 * size :]
    return key[size : 2 * size] + key[:size] + ends[2:] + ends[:2]


# The layers of a packet


def place_of_ip(octets: bytes, link: int) -> Tuple[bytes, int]:
    """The type of what a link carries, and where it begins."""
    place = TYPE_PLACES.get(link)
    if place is None:
        start = 0 if link in RAW_LINKS else LOOPBACK_HEAD
        if link not in RAW_LINKS and link not in LOOPBACK_LINKS or len(octets) <= start:
            return b"", 0
        return (IPV4_TYPE if octets[start] >> 4 == 4 else IPV6_TYPE), start
    at, start = place
    kind = octets[at : at + 2]
    while kind in VLAN_TYPES:
        kind = octets[start + 2 : start + 4]
        start += 4
    return kind, start


def udp_of(octets: bytes, link: int) -> Tuple[bytes, bytes, int]:
    """The addresses and ports of a packet of UDP, what it carries as far as it was captured, and
    how long that was."""
    kind, start = place_of_ip(octets, link)
    is_plain = kind == IPV4_TYPE and octets[start : start + 1] == PLAIN_IPV4
    protocol = start + (IPV4_PROTOCOL if is_plain else IPV6_PROTOCOL)
    if not (is_plain or kind == IPV6_TYPE) or octets[protocol : protocol + 1] != UDP:
        return udp_by_library(octets, link)
    content = start + (IPV4_CONTENT if is_plain else IPV6_CONTENT)
    if len(octets) < content:
        raise Unread(CUT)
    if is_plain and (octets[start + 7] or octets[start + 6] & OFFSET_BITS):
        raise Unread(FRAGMENT)  # the first one has the head, and is cut off
    size = (octets[content - 4] << 8 | octets[content - 3]) - UDP_HEAD
    key = octets[start + (IPV4_ENDS if is_plain else IPV6_ENDS) : content - 4]
    return key, octets[content : content + max(0, size)], size


def udp_by_library(octets: bytes, link: int) -> Tuple[bytes, bytes, int]:
    """The same of a packet with other layers, by the library dpkt."""
    if not rtp_packets.is_known(link):
        raise Unread(f"of a kind of link, {link}, that isn't known here")
    try:
        layers = [rtp_packets.library(part) for part in ("ip", "ip6", "udp")]
    except Refusal:
        raise Unread(NEEDS_DPKT) from None
    try:
        return udp_within(
            rtp_packets.reader_of_packets(Path(), link)(octets),
            (layers[0].IP, layers[1].IP6),
            layers[2].UDP,
        )
    except Unread:
        raise
    except Exception:  # of any kind, also of too many layers: that is how the library ends
        raise Unread(UNREADABLE) from None


def udp_within(packet: Any, ip: Tuple[type, ...], udp: type) -> Tuple[bytes, bytes, int]:
    """The same of a packet that the library has read."""
    outer = rtp_packets.within(packet, ip)
    while outer is not None and not isinstance(outer.data, udp):
        outer = rtp_packets.within(outer.data, ip)
    if outer is None:
        raise Unread(NOT_UDP)
    inner = outer.data
    key = outer.src + outer.dst + struct.pack(">HH", inner.sport, inner.dport)
    return key, bytes(inner.data), inner.ulen - 8
