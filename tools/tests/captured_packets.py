"""The packets of a capture with their octets, as its walk finds them."""

from typing import Iterator, NamedTuple

from trau.recordings.capture_walk import CaptureOctets, Interfaces, walk


class CapturedPacket(NamedTuple):
    """A packet: its number from 1 as other programs count, its time in seconds since 1970 (the time
    of the packet before where it has none), its link, its octets as far as they were captured, and
    how many were sent."""

    number: int
    time: float
    link: int
    octets: bytes
    sent: int


def packets(data: CaptureOctets) -> Iterator[CapturedPacket]:
    """The packets of a capture."""
    interfaces: Interfaces = []
    time = 0.0
    for number, (ticks, which, place, captured, sent) in enumerate(walk(data, interfaces), 1):
        interface = interfaces[which]
        if ticks is not None:
            time = ticks / interface.ticks + interface.offset
        yield CapturedPacket(
            number, time, interface.link, bytes(data[place : place + captured]), sent
        )
