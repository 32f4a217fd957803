"""The packets of captures, pcap and pcapng (draft-ietf-opsawg-pcap, draft-ietf-opsawg-pcapng), in
one pass over their blocks.

`walk` gives where each packet is in the capture's octets, which may be a mapped file, and the
interface that it was captured on. It gives all packets before a place where the capture is broken,
and then raises BrokenCapture, whose text says what is wrong there.
"""

import mmap
import struct
from typing import Dict, Iterator, List, NamedTuple, Optional, Tuple, Union

CaptureOctets = Union[bytes, mmap.mmap]

MOST_OCTETS = 1 << 18  # of a packet: a longer one isn't one
MICROSECONDS, NANOSECONDS = 10**6, 10**9
LITTLE, BIG = "<", ">"

# pcap: a head of the file, and a head of each packet: its time, its captured and its sent length.
PCAP_MAGICS: Dict[bytes, Tuple[str, int]] = {
    b"\xd4\xc3\xb2\xa1": (LITTLE, MICROSECONDS),
    b"\xa1\xb2\xc3\xd4": (BIG, MICROSECONDS),
    b"\x4d\x3c\xb2\xa1": (LITTLE, NANOSECONDS),
    b"\xa1\xb2\x3c\x4d": (BIG, NANOSECONDS),
}
PCAP_HEAD, PCAP_LINK, PACKET_HEAD = 24, 20, 16
LINK_BITS = 0xFFFF  # the others of the word have the length of a checksum

# pcapng: each block begins with its type and length, and ends with its length again.
SECTION_MAGIC, BIG_ENDIAN_MARK = b"\x0a\x0d\x0d\x0a", b"\x1a\x2b\x3c\x4d"
SECTION = int.from_bytes(SECTION_MAGIC, "big")  # in either order of octets
INTERFACE, PACKET, SIMPLE_PACKET, ENHANCED_PACKET = 1, 2, 3, 6
BLOCK_HEAD, LEAST_BLOCK, LEAST_INTERFACE = 8, 12, 20
PACKET_CONTENT, SIMPLE_CONTENT = 28, 12  # octets of a block before the packet
BLOCK_END = 4
OPTION_END, TICKS_OPTION, OFFSET_OPTION = 0, 9, 14
POWER_OF_TWO = 0x80
MOST_DIGITS, MOST_BINARY_DIGITS = 18, 63  # of a clock's ticks: finer ones are none


class BrokenCapture(Exception):
    """What is wrong at the place where a capture can't be read on."""


class CaptureInterface(NamedTuple):
    """Where packets were captured: the kind of link, the ticks of its clock in a second, and the
    seconds from 1970 to its zero."""

    link: int
    ticks: int = MICROSECONDS
    offset: int = 0


# A packet in a capture: its time in ticks (None where the block has none), the number of its
# interface, where its octets begin, how many were captured, and how many were sent.
PacketPlace = Tuple[Optional[int], int, int, int, int]


Interfaces = List[CaptureInterface]


def walk_pcap(data: CaptureOctets, interfaces: Interfaces) -> Iterator[PacketPlace]:
    """The packets of a pcap capture; its one interface is added to the list."""
    if len(data) < PCAP_HEAD:
        raise BrokenCapture("ends within its head")
    order, ticks = PCAP_MAGICS[bytes(data[:4])]
    link = struct.unpack_from(f"{order}I", data, PCAP_LINK)[0] & LINK_BITS
    interfaces.append(CaptureInterface(link, ticks))
    head = struct.Struct(f"{order}IIII").unpack_from
    place, end, number = PCAP_HEAD, len(data), 0
    while place + PACKET_HEAD <= end:
        seconds, part, captured, sent = head(data, place)
        place += PACKET_HEAD
        number += 1
        if captured > MOST_OCTETS:
            raise BrokenCapture(f"packet {number} would have {captured} octets")
        if place + captured > end:
            raise BrokenCapture(f"ends within packet {number}")
        yield seconds * ticks + part, 0, place, captured, sent
        place += captured
    if place != end:
        raise BrokenCapture("ends within a packet's head")


def ticks_of(octet: int) -> int:
    """The ticks in a second by the option if_tsresol; those of microseconds where it says what no
    clock has."""
    if octet & POWER_OF_TWO:
        digits = octet & ~POWER_OF_TWO
        return 1 << digits if digits <= MOST_BINARY_DIGITS else MICROSECONDS
    return 10**octet if octet <= MOST_DIGITS else MICROSECONDS


def interface_of(body: bytes, order: str) -> CaptureInterface:
    """The interface of a block, of whose options those of the clock count. One of a wrong length
    counts as absent."""
    found = CaptureInterface(struct.unpack_from(f"{order}H", body)[0])
    place = LEAST_INTERFACE - LEAST_BLOCK
    while place + 4 <= len(body):
        code, size = struct.unpack_from(f"{order}HH", body, place)
        value = body[place + 4 : place + 4 + size]
        if code == OPTION_END:
            break
        if code == TICKS_OPTION and len(value) == 1:
            found = found._replace(ticks=ticks_of(value[0]))
        elif code == OFFSET_OPTION and len(value) == 8:
            found = found._replace(offset=struct.unpack(f"{order}q", value)[0])
        place += 4 + size + -size % 4
    return found


class Section:
    """A section of a pcapng capture: its order of octets, and the numbers of its interfaces among
    all of the capture."""

    def __init__(self, order: str) -> None:
        self.order = order
        self.interfaces: List[int] = []
        self.head = struct.Struct(f"{order}II").unpack_from
        self.enhanced = struct.Struct(f"{order}IIIII").unpack_from
        self.old = struct.Struct(f"{order}HHIIII").unpack_from

    def packet(self, data: CaptureOctets, kind: int, place: int, size: int) -> PacketPlace:
        """The packet of a block of one of the three kinds."""
        content = SIMPLE_CONTENT if kind == SIMPLE_PACKET else PACKET_CONTENT
        room = size - content - BLOCK_END
        if room < 0:
            raise BrokenCapture(f"has a packet's block of {size} octets at {place}")
        if kind == SIMPLE_PACKET:
            sent = self.head(data, place + BLOCK_HEAD)[0]
            return None, self.interface(0, place), place + content, min(sent, room), sent
        if kind == ENHANCED_PACKET:
            which, high, low, captured, sent = self.enhanced(data, place + BLOCK_HEAD)
        else:
            which, _, high, low, captured, sent = self.old(data, place + BLOCK_HEAD)
        if captured > room or captured > MOST_OCTETS:
            raise BrokenCapture(
                f"has a packet of {captured} octets in a block of {size} at {place}"
            )
        interface = self.interface(which, place)
        return high << 32 | low, interface, place + content, captured, sent

    def interface(self, number: int, place: int) -> int:
        """The number among all of the capture's of an interface of this section."""
        if number >= len(self.interfaces):
            raise BrokenCapture(f"has a packet at {place} of an interface that it doesn't have")
        return self.interfaces[number]


def section_at(data: CaptureOctets, place: int) -> Section:
    """The section that begins at a place."""
    is_big = data[place + BLOCK_HEAD : place + LEAST_BLOCK] == BIG_ENDIAN_MARK
    return Section(BIG if is_big else LITTLE)


def walk_pcapng(data: CaptureOctets, interfaces: Interfaces) -> Iterator[PacketPlace]:
    """The packets of a pcapng capture; the interfaces of all its sections are added to the list as
    they come."""
    place, end = 0, len(data)
    section = section_at(data, 0)
    while place + LEAST_BLOCK <= end:
        kind, size = section.head(data, place)
        if kind == SECTION:
            section = section_at(data, place)
            size = section.head(data, place)[1]
        if size < LEAST_BLOCK or size % 4:
            raise BrokenCapture(f"has a block of {size} octets at {place}")
        if place + size > end:
            raise BrokenCapture(f"ends within the block at {place}")
        if kind in (ENHANCED_PACKET, SIMPLE_PACKET, PACKET):
            yield section.packet(data, kind, place, size)
        elif kind == INTERFACE:
            if size < LEAST_INTERFACE:
                raise BrokenCapture(f"has an interface's block of {size} octets at {place}")
            section.interfaces.append(len(interfaces))
            body = bytes(data[place + BLOCK_HEAD : place + size - BLOCK_END])
            interfaces.append(interface_of(body, section.order))
        place += size
    if place != end:
        raise BrokenCapture("ends within a block")


def is_capture(head: bytes) -> bool:
    """Whether a file that begins with these octets is one of the two kinds of captures."""
    return head[:4] == SECTION_MAGIC or head[:4] in PCAP_MAGICS


def walk(data: CaptureOctets, interfaces: Interfaces) -> Iterator[PacketPlace]:
    """The places of the packets of a capture of either kind. The list of interfaces, empty at
    first, has the interface of a packet when the packet comes."""
    magic = bytes(data[:4])
    if not is_capture(magic):
        raise BrokenCapture("begins as no capture does")
    return (walk_pcapng if magic == SECTION_MAGIC else walk_pcap)(data, interfaces)
