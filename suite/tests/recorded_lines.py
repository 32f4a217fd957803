"""Recordings that the tests of check.py make of lines: E1 lines, recorded from any bit on and in either order of bits, and captures."""

import struct
from typing import Dict, Iterable, Iterator, List, NamedTuple, Optional, Sequence

from trau.rules.frame import FrameKind, bits_of
from trau.rules.parameters import gsm_of_data
from trau.rules.payload_types import GSM, PCMA
from trau.rules.slots import CHANNELS, SLOTS_OF_E1, merge, octets_from, octets_turned
from trau.suite.box_uplink import up_periods

SIGNAL, OTHER, IDLE = 0x9B, 0xDF, 0xFF
PERIOD = 160  # octets of a slot, and time stamps


def slot_of_channel(line: bytes, number: int) -> bytes:
    """A slot with a line in a channel of it."""
    idle = bytes([IDLE]) * len(line)
    return merge([line if channel == number else idle for channel in range(CHANNELS)])


def e1_line(slots: Dict[int, bytes]) -> bytes:
    """An E1 line with these slots; the others are idle."""
    frames = max(map(len, slots.values())) // 2 * 2
    octets = bytearray([IDLE]) * (SLOTS_OF_E1 * frames)
    octets[0::SLOTS_OF_E1] = bytes([SIGNAL, OTHER]) * (frames // 2)
    for number, line in slots.items():
        octets[number::SLOTS_OF_E1] = (line + bytes([IDLE]) * frames)[:frames]
    return bytes(octets)


def recorded(line: bytes, bits: int, is_turned: bool) -> bytes:
    """A line as it is recorded from one of its bits on."""
    octets = octets_from(line[bits // 8 :], bits % 8)
    return octets_turned(octets) if is_turned else octets


class Packet(NamedTuple):
    """A packet of RTP in a capture: its time in microseconds, its stream, and what it carries."""

    time: int
    ssrc: int
    kind: int
    number: int
    payload: bytes

    def octets(self) -> bytes:
        """The frame of Ethernet."""
        rtp = struct.pack(">BBHII", 0x80, self.kind, self.number & 0xFFFF, PERIOD * self.number, self.ssrc) + self.payload
        udp = struct.pack(">HHHH", 4000 + self.ssrc % 8, 5000, 8 + len(rtp), 0) + rtp
        addresses = bytes((10, 0, 0, 1, 10, 0, 0, 2))
        ip = struct.pack(">BBHHHBBH", 0x45, 0, 20 + len(udp), 0, 0, 64, 17, 0) + addresses + udp
        return bytes(12) + b"\x08\x00" + ip


def packets(ssrc: int, kind: int, payloads: Sequence[Optional[bytes]]) -> Iterator[Packet]:
    """A stream with a packet each 20 ms; a payload of None is lost."""
    for number, payload in enumerate(payloads):
        if payload is not None:
            yield Packet(20_000 * number + ssrc % 1000, ssrc, kind, number, payload)


def gsm_packets(ssrc: int, up: bytes) -> Iterator[Packet]:
    """The good frames and descriptors of an uplink as packets; the others are lost."""
    kinds = (FrameKind.SPEECH, FrameKind.VALID_SID)
    frames = [each.frame for each in up_periods(bits_of(up))]
    payloads = [gsm_of_data(frame.data) if frame and frame.kind in kinds else None for frame in frames]
    return packets(ssrc, GSM, payloads)


def alaw_packets(ssrc: int, line: bytes) -> Iterator[Packet]:
    """A line of A-law as packets."""
    return packets(ssrc, PCMA, [line[k : k + PERIOD] for k in range(0, len(line), PERIOD)])


def in_time(*streams: Iterable[Packet]) -> List[Packet]:
    """The packets of streams in the order of time."""
    return sorted((each for stream in streams for each in stream), key=lambda each: each.time)


def pcap(found: Sequence[Packet]) -> bytes:
    """A capture in the older form."""
    parts = [struct.pack("<IHHiIII", 0xA1B2C3D4, 2, 4, 0, 0, 65535, 1)]
    for each in found:
        octets = each.octets()
        seconds, part = divmod(each.time, 1_000_000)
        parts += [struct.pack("<IIII", 1_700_000_000 + seconds, part, len(octets), len(octets)), octets]
    return b"".join(parts)


def block(kind: int, content: bytes) -> bytes:
    """A block of the newer form."""
    padded = content + bytes(-len(content) % 4)
    size = struct.pack("<I", 12 + len(padded))
    return struct.pack("<I", kind) + size + padded + size


def pcapng(found: Sequence[Packet]) -> bytes:
    """A capture in the newer form, with times in microseconds."""
    parts = [block(0x0A0D0D0A, struct.pack("<IHHq", 0x1A2B3C4D, 1, 0, -1)), block(1, struct.pack("<HHI", 1, 0, 65535))]
    for each in found:
        octets = each.octets()
        time = 1_700_000_000_000_000 + each.time
        head = struct.pack("<IIIII", 0, time >> 32, time & 0xFFFFFFFF, len(octets), len(octets))
        parts.append(block(6, head + octets))
    return b"".join(parts)
