"""Packets of a stream in rows (trau.recordings.packet_rows): rows change nothing of what a stream
carried, whatever its packets are."""

import random
import unittest
from pathlib import Path

from trau.command_line.words import Refusal
from trau.recordings.code_word import Marker
from trau.recordings.captures import PcmOfStream, UplinkOfStream
from trau.recordings.packet_rows import MOST_IN_ROW, rows_of
from trau.recordings.rtp_packets import Packet
from trau.recordings.rtp_streams import Counts, stretches, without_wrong
from trau.recordings.rtp_walk import CapturedStream, RtpPacket
from trau.rules.g711 import Law
from trau.rules.payload_types import GSM, PCMA

SEED = 12
NAME = Path("packets")
EVENT = 101  # a payload type without speech


def body_of(kind, source):
    """A payload, the samples that it takes, and its type."""
    chance = source.random()
    if chance < 0.02:
        return bytes(4), 160, EVENT
    if kind == PCMA:
        octets = source.randbytes(source.choice((80, 160)) if chance < 0.05 else 160)
        return octets, len(octets), kind
    frame = bytes([0xD0 | source.randrange(16)]) + source.randbytes(32)
    if chance < 0.04:
        return b"\xd0" + bytes(32), 160, kind
    if chance < 0.06:
        return b"", 160, kind
    if chance < 0.07:
        return source.randbytes(33), 160, kind
    return (2 * frame, 320, kind) if chance < 0.08 else (frame, 160, kind)


def packets_of(kind, source):
    """Packets as a sender loses, repeats and delays them, whose time stamps jump at times."""
    sequence, stamp, time = source.randrange(1 << 16), source.randrange(1 << 32), 0.0
    found = []
    for _ in range(source.randrange(20, 700)):
        payload, samples, said = body_of(kind, source)
        if source.random() < 0.97:
            found.append((said, sequence % (1 << 16), stamp % (1 << 32), payload, time))
        if found and source.random() < 0.01:
            found.append(found[-1])
        sequence, stamp, time = sequence + 1, stamp + samples, time + samples / 8000
        if source.random() < 0.01:
            stamp += source.choice((80, 1600, -480, 160 * 60 * 8000))
            time += source.choice((0.0, 1.5, -0.01))
    for _ in range(source.randrange(4)):
        at, count = source.randrange(len(found)), source.choice((1, 1, 30))
        late = found[at : at + count]
        del found[at : at + count]
        place = at + source.choice((1, 3, 50, 300))
        found[place:place] = late
    found.sort(key=lambda each: each[-1] // 3)
    return [Packet(number, *each) for number, each in enumerate(found, 1)]


def alone(packets):
    """Each packet as a row."""
    for packet in packets:
        yield from rows_of([packet])


def line_of(rows, kind, restart):
    """The line of a stream, what is said of it, and the counts; or why there is none."""
    counts = Counts()
    try:
        right = without_wrong(NAME, rows, True, counts)
        found = stretches(NAME, [right], kind, restart, counts)
        if kind == GSM:
            line = UplinkOfStream(found, 3, Marker(), False)
        else:
            line = PcmOfStream(found, 3, Law.A, Law.A)
        return b"".join(line.chunks()), line.said(), counts
    except Refusal as refusal:
        return str(refusal)


def counted(rows):
    """What a scan counts of rows."""
    stream = None
    for row in rows:
        if stream is None:
            first = RtpPacket((b"", 0), row.kind, row.sequence, row.stamp, b"")
            stream = CapturedStream(first, row.number, row.time)
        stream.take(row)
    names = ("packets", "kinds", "missing", "late", "doubled", "restarts", "descriptors", "last")
    return [getattr(stream, name) for name in names]


class Rows(unittest.TestCase):
    """Streams with all that senders and networks do to them."""

    def test_the_same_as_packet_by_packet(self):
        source = random.Random(SEED)
        for _ in range(40):
            kind = source.choice((GSM, PCMA))
            packets = packets_of(kind, source)
            for restart in (False, True):
                together = line_of(rows_of(packets), kind, restart)
                self.assertEqual(together, line_of(alone(packets), kind, restart))
            self.assertEqual(counted(rows_of(packets)), counted(alone(packets)))

    def test_how_long_they_are(self):
        frame = b"\xd5" + bytes(32)
        packets = [Packet(at, GSM, at, 160 * at, frame, at / 50) for at in range(2 * MOST_IN_ROW)]
        self.assertEqual([row.packets for row in rows_of(packets)], [MOST_IN_ROW, MOST_IN_ROW])
        lost = packets[:100] + packets[101:]
        self.assertEqual([row.packets for row in rows_of(lost)], [100, MOST_IN_ROW, 411])
        first, rest = next(rows_of(packets)).split(2)
        self.assertEqual(
            (first.packets, first.payload, rest.packets), (2, 2 * frame, MOST_IN_ROW - 2)
        )
        self.assertEqual((rest.sequence, rest.stamp, rest.last_time), (2, 320, 511 / 50))

    def test_stamps_between_two_periods(self):
        # Half a period's jump moves all that follows alike: nothing overlaps, and nothing lacks.
        frame = b"\xd5" + bytes(32)
        packets = [
            Packet(at, GSM, at, 160 * at + 80 * (at > 9), frame, at / 50) for at in range(60)
        ]
        _, said, counts = line_of(alone(packets), GSM, False)
        self.assertIn("frames 60 sid", said)
        self.assertEqual(counts.over, 0)


if __name__ == "__main__":
    unittest.main()
