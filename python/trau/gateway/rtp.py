"""RTP packets (RFC 3550) and their payload types (RFC 3551). Packets that come are never trusted."""

from __future__ import annotations

import os
import struct
from typing import Callable, Tuple

from trau.rules import payload_types
from trau.rules.profile import PCM_OCTETS
from trau.rules.rtp import HEADER as HEADER
from trau.rules.rtp import NUMBERS as NUMBERS
from trau.rules.rtp import STAMPS as STAMPS
from trau.rules.rtp import PacketRefused as PacketRefused
from trau.rules.rtp import head_of, payload_of

GSM, ALAW, MULAW = payload_types.GSM, payload_types.PCMA, payload_types.PCMU
SAMPLES = PCM_OCTETS  # of a period, in units of the time stamp
VERSION_BITS = 0xC0


Packet = Tuple[
    int, int, int, int, bytes
]  # what came: payload type, sequence number, time stamp, source (SSRC) and payload


def parse(data: bytes) -> Packet:
    """The packet in a datagram. Raises PacketRefused if it is none, or RTCP on the same port (RFC
    5761)."""
    head = head_of(data)
    return (*head, payload_of(data) if data[0] & ~VERSION_BITS else data[HEADER.size :])


class Outgoing:
    """The packets of one stream: numbered by packets, stamped by periods, also where nothing is
    sent."""

    def __init__(self, kind: int, random: Callable[[int], bytes] = os.urandom) -> None:
        self.kind = kind
        self.number, self.stamp, self.source = struct.unpack(">HII", random(10))
        self.after_gap = True
        self.packets = self.octets = 0  # that were made; of payloads alone

    def packet(self, period: int, payload: bytes, is_speech: bool = True) -> bytes:
        """The datagram for this period of the gateway. The marker says that it is the first speech
        after a gap (RFC 3551, 4.1)."""
        second = self.kind | (0x80 if self.after_gap and is_speech else 0)
        stamp = self.stamp + SAMPLES * period & STAMPS
        datagram = HEADER.pack(0x80, second, self.number, stamp, self.source) + payload
        self.number = self.number + 1 & NUMBERS
        self.packets += 1
        self.octets += len(payload)
        self.after_gap = not is_speech
        return datagram

    def give_up(self, periods: int) -> None:
        """The clock has given up time: stamps go on as if these periods had passed."""
        self.stamp = self.stamp + SAMPLES * periods & STAMPS
        self.after_gap = True
