"""What the tests of captures share: what tshark reads of them, what `lines.py pcap` makes of them, and packets that were changed."""

import importlib.util
import struct

from support import DATA, InFolder

from trau.recordings import captures
from trau.recordings import lines
from trau.rules.frame import bits_of
from trau.rules.search import search

HAS_DPKT = importlib.util.find_spec("dpkt") is not None

GSM_FRAME = b"\xd0" + bytes(32)
TICK = 20_000  # microseconds
LINK_OF_IP = 101


GSMTAP_PORT = 4729


def rtp_capture(packets, most=65_535):
    """A capture of so much of each packet of RTP (its type, number, payload and SSRC); time stamps
    go on with the numbers."""
    contents = (
        struct.pack(">BBHII", 0x80, kind, number, 160 * number, ssrc) + body
        for kind, number, body, ssrc in packets
    )
    return udp_capture(5006, contents, most)


def gsmtap_capture(frames, most=65_535):
    """A capture of so much of each TRAU frame (its slot, sub-slot, whether it goes up, octets)."""
    contents = (
        struct.pack(">BBBBHHIBBBB", 2, 4, 0x13, slot, 0x4000 * up, 0, 0, 4, 0, sub, 0) + frame
        for slot, sub, up, frame in frames
    )
    return udp_capture(GSMTAP_PORT, contents, most)


def udp_capture(port, contents, most):
    """A capture of so much of each packet of UDP, 20 ms apart, from 10.0.0.1 to 10.0.0.2."""
    parts = [struct.pack("<IHHiIII", 0xA1B2C3D4, 2, 4, 0, 0, most, LINK_OF_IP)]
    for at, content in enumerate(contents):
        udp = struct.pack(">HHHH", 5004, port, 8 + len(content), 0) + content
        ends = bytes([10, 0, 0, 1, 10, 0, 0, 2])
        ip = struct.pack(">BBHHHBBH", 0x45, 0, 20 + len(udp), 0, 0, 64, 17, 0) + ends + udp
        seconds, part = divmod(TICK * at, 10**6)
        parts.append(struct.pack("<IIII", seconds, part, min(len(ip), most), len(ip)) + ip[:most])
    return b"".join(parts)


def two_senders():
    """A capture of two senders with one SSRC between the same ports, in turns."""
    numbers = [first + at for at in range(50) for first in (100, 30_000)]
    return rtp_capture([(3, number, GSM_FRAME, 7) for number in numbers])


def fields(name):
    """What tshark tells of each RTP packet: its number, payload type, sequence number, time stamp and payload."""
    rows = [line.split("\t") for line in (DATA / name).read_text().splitlines()]
    return [(*map(int, row[:4]), bytes.fromhex(row[4])) for row in rows]


def kinds_of(line):
    """The kind of each frame of an uplink."""
    return [each.kind().value for each in search(bits_of(line))]


def rewritten(octets, change):
    """An Ethernet frame whose RTP packet was changed."""
    ethernet = captures.library("ethernet").Ethernet(octets)
    rtp = captures.library("rtp").RTP(bytes(ethernet.data.data.data))
    change(rtp)
    ethernet.data.data.data = bytes(rtp)
    ethernet.data.data.ulen = 8 + len(rtp)
    ethernet.data.len = 28 + len(rtp)
    ethernet.data.sum = ethernet.data.data.sum = 0
    return bytes(ethernet)


class InCaptures(InFolder):
    """A test of captures in a folder of its own."""

    def pcap(self, given, *words):
        """What the command says of a capture, and the line that it makes."""
        status, out, err = self.run_tool(lines.main, "pcap", given, self.folder / "line", *words)
        self.assertEqual((status, err), (0, ""))
        return out, (self.folder / "line").read_bytes()
