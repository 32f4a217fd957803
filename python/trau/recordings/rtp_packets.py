"""Packets of RTP with speech in a capture (RFC 3550, RFC 3551): their kinds, where they go, and what
their payloads seem to be. The library dpkt reads the layers of unusual ones."""

import importlib
import io
import ipaddress
import struct
import sys
from collections import Counter
from pathlib import Path
from typing import (
    Any,
    Callable,
    Dict,
    Iterator,
    List,
    Mapping,
    NamedTuple,
    Optional,
    Sequence,
    Tuple,
)

from trau.command_line.words import Refusal
from trau.rules.parameters import GSM_MAGIC, GSM_OCTETS
from trau.rules.payload_types import GSM, PCMA, PCMU
from trau.rules.profile import PERIODS_A_SECOND


# The payload types of RFC 3551 are the kinds of speech here. A dynamic type is one of them if the
# words say so.
NAMES = {PCMU: "pcmu", GSM: "gsm", PCMA: "pcma"}
KINDS = {name: kind for kind, name in NAMES.items()}
TRAU_FRAMES = 256  # beside the payload types of RTP: the frames of 16 kbit/s of GSMTAP
READ_KINDS = {**NAMES, TRAU_FRAMES: "TRAU frames of GSMTAP"}
PLAIN_TYPES = {kind: kind for kind in NAMES}
MOST_TYPE = 127
LEAST_OF_STREAM = 10  # of other packets a few may look like RTP


def library(part: str) -> Any:
    """A part of the library dpkt."""
    try:
        return importlib.import_module(f"dpkt.{part}")
    except ImportError:
        raise Refusal(
            f"captures need the library dpkt, which {sys.executable} doesn't have; apt-get install python3-dpkt brings it to"
            f" /usr/bin/python3, and {sys.executable} -m pip install dpkt to this one"
        ) from None


# Packets of a capture


class Packet(NamedTuple):
    """An RTP packet: its number in the capture, from 1 as other programs count, what it says, and
    when it was captured. The kind is that of speech, or the payload type of anything else."""

    number: int
    kind: int
    sequence: int
    stamp: int
    payload: bytes
    time: float


class Flow(NamedTuple):
    """Where the packets of a stream go from and to, and their source's name."""

    source: str
    target: str
    name: int

    def said(self) -> str:
        """The flow in words."""
        return f"{self.source} to {self.target} ssrc 0x{self.name:08x}"


# How packets begin, by the capture's kind of link. Packets without a link begin with IP of either
# version.
LINKS = {
    0: ("loopback", "Loopback"),
    1: ("ethernet", "Ethernet"),
    9: ("ppp", "PPP"),
    108: ("loopback", "Loopback"),
    113: ("sll", "SLL"),
    276: ("sll2", "SLL2"),
}
WITHOUT_LINK = (12, 101, 228, 229)


def is_known(link: int) -> bool:
    """Whether packets with this kind of link can be read."""
    return link in WITHOUT_LINK or link in LINKS


def reader_of_packets(name: Path, link: int) -> Callable[[bytes], Any]:
    """What reads the packets of a capture with this kind of link."""
    if link in WITHOUT_LINK:
        ip, ip6 = library("ip").IP, library("ip6").IP6
        return lambda octets: (ip6 if octets[:1] and octets[0] >> 4 == 6 else ip)(octets)
    if link not in LINKS:
        raise Refusal(f"{name}: has a kind of link, {link}, that isn't known here")
    module, kind = LINKS[link]
    return getattr(library(module), kind)


MOST_LAYERS = 8


def within(packet: Any, kinds: Tuple[type, ...]) -> Any:
    """The first layer of a packet that is of one of these kinds, or None."""
    for _ in range(MOST_LAYERS):
        if isinstance(packet, kinds):
            return packet
        packet = getattr(packet, "data", None)
    return None


def address(octets: bytes, port: int) -> str:
    """An address with its port, in words."""
    read = ipaddress.ip_address(octets)
    return f"[{read}]:{port}" if read.version == 6 else f"{read}:{port}"


# What payloads are that aren't read here: EFR has the magic 1100 where full rate has 1101 (TS 101
# 318 of ETSI).
EFR_OCTETS, EFR_MAGIC = 31, 0xC


def payload_said(payload: bytes) -> str:
    """What a payload that isn't whole frames of GSM seems to be, in words."""
    size = len(payload)
    if size == EFR_OCTETS and payload[0] >> 4 == EFR_MAGIC:
        return f"{size} octets that begin with 1100: enhanced full rate, which trau doesn't decode"
    if size == GSM_OCTETS + 1 and payload[1] >> 4 == GSM_MAGIC:
        return f"{size} octets, the second of which begins with 1101: a frame of GSM after an octet of flags, which isn't read here"
    return f"{size} octet{'s' * (size != 1)}"
