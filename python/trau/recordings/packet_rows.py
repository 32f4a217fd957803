"""Packets of a stream of RTP in rows: those that follow one another as evenly as a sender that loses
nothing sends them. What is done with packets is done with rows, and so costs little a packet."""

from typing import Iterable, Iterator, NamedTuple, Optional, Tuple

from trau.recordings.rtp_packets import NAMES, READ_KINDS, TRAU_FRAMES, Packet
from trau.rules.parameters import GSM_MAGIC, GSM_OCTETS
from trau.rules.payload_types import GSM
from trau.rules.profile import PCM_OCTETS, SAMPLES_A_SECOND

# Time stamps count samples, each of them an octet of a Pcm line.
SEQUENCES, STAMPS = 1 << 16, 1 << 32
MOST_IN_ROW = 512  # packets, some 10 s
MOST_OCTETS = SAMPLES_A_SECOND  # of a packet; a longer one is alone in its row
ALONE = -1


class PacketRow(NamedTuple):
    """Packets of one kind with payloads of one size, whose numbers go on by one and whose time
    stamps by `step` samples: what the first and the last packet say (their numbers in the capture
    from 1, and when they were captured), and all payloads, one after the other. The payload of
    packets without speech isn't kept, and None if a packet wasn't captured whole."""

    kind: int
    packets: int
    number: int
    sequence: int
    stamp: int
    time: float
    step: int
    last_number: int
    last_time: float
    payload: Optional[bytes]

    def last_stamp(self) -> int:
        """The time stamp of the last packet."""
        return self.stamp + self.step * (self.packets - 1)

    def split(self, count: int) -> Tuple["PacketRow", "PacketRow"]:
        """The first so many packets, and the others. When those next to the cut were captured isn't
        known: they count as captured with the first."""
        payload = self.payload or b""
        octets = len(payload) // self.packets * count
        first = self._replace(
            packets=count,
            payload=payload[:octets],
            last_number=self.number,
            last_time=self.time,
        )
        rest = self._replace(
            packets=self.packets - count,
            payload=payload[octets:],
            sequence=self.sequence + count,
            stamp=self.stamp + self.step * count,
        )
        return first, rest

    def singles(self) -> Iterator["PacketRow"]:
        """Each packet as a row."""
        rest = self
        while rest.packets > 1:
            first, rest = rest.split(1)
            yield first
        yield rest


def size_in_row(kind: int, payload: Optional[bytes]) -> int:
    """The size that the payloads of a row have which begins with this one; ALONE where a packet
    must be alone: what isn't a frame of GSM or wasn't captured whole, and TRAU frames, which have
    no numbers."""
    if payload is None or len(payload) > MOST_OCTETS or kind == TRAU_FRAMES:
        return ALONE
    if kind == GSM:
        is_frame = len(payload) == GSM_OCTETS and payload[0] >> 4 == GSM_MAGIC
        return GSM_OCTETS if is_frame else ALONE
    return (len(payload) or ALONE) if kind in NAMES else 0


class OpenRow:
    """A row that more packets may go on with."""

    __slots__ = (
        *("kind", "packets", "number", "sequence", "stamp", "time", "step", "size"),
        *("following", "next_stamp", "last_number", "last_time", "payload", "is_whole"),
    )

    def __init__(
        self,
        kind: int,
        sequence: int,
        stamp: int,
        payload: Optional[bytes],
        number: int,
        time: float,
    ) -> None:
        self.kind, self.packets = kind, 1
        self.number = self.last_number = number
        self.time = self.last_time = time
        self.sequence, self.following = sequence, sequence + 1
        self.size = size_in_row(kind, payload)
        self.step = self.size if kind != GSM and kind in NAMES else PCM_OCTETS
        self.stamp, self.next_stamp = stamp, stamp + self.step
        self.is_whole = payload is not None
        self.payload = bytearray(payload if payload and kind in READ_KINDS else b"")

    def takes(
        self,
        kind: int,
        sequence: int,
        stamp: int,
        payload: Optional[bytes],
        number: int,
        time: float,
    ) -> bool:
        """Takes a packet if it goes on with the row."""
        if sequence != self.following or stamp != self.next_stamp or kind != self.kind:
            return False
        if time < self.last_time or self.packets == MOST_IN_ROW:
            return False
        if self.size == ALONE or payload is None:
            return False
        if self.size:
            if len(payload) != self.size or kind == GSM and payload[0] >> 4 != GSM_MAGIC:
                return False
            self.payload += payload
        self.packets += 1
        self.following += 1
        self.next_stamp += self.step
        self.last_number, self.last_time = number, time
        return True

    def row(self) -> PacketRow:
        """The row so far."""
        return PacketRow(
            self.kind,
            self.packets,
            self.number,
            self.sequence,
            self.stamp,
            self.time,
            self.step,
            self.last_number,
            self.last_time,
            bytes(self.payload) if self.is_whole else None,
        )


def rows_of(packets: Iterable[Packet]) -> Iterator[PacketRow]:
    """The packets of a stream, as they were captured, in rows."""
    row: Optional[OpenRow] = None
    for number, kind, sequence, stamp, payload, time in packets:
        if row is None or not row.takes(kind, sequence, stamp, payload, number, time):
            if row:
                yield row.row()
            row = OpenRow(kind, sequence, stamp, payload, number, time)
    if row:
        yield row.row()
