"""The parts of the gateway one by one: packets, jitter buffer, streams, clock, settings, endpoints, recorder."""

import contextlib
import errno
import io
import itertools
import os
import random
import select
import socket
import struct
import tempfile
import threading
import time
import unittest
import unittest.mock
from collections import Counter
from pathlib import Path

from live_support import bound, even_port, hostile_packet, hostile_report, with_loopback
from support import SPEECH, InFolder, TurnedClock

from trau.gateway import recorder
from trau.gateway import rtp
from trau.gateway import switchboard
from trau.gateway.calls import (
    SILENCE,
    SOFT_BLOCK,
    idle_line,
    is_soft_frame,
    kinds_of,
    soft_octets,
)
from trau.gateway.clock import PERIOD, Clock
from trau.rules.profile import MOST_ORDERS
from trau.command_line.words import Refusal
from trau.gateway.incoming import Incoming
from trau.gateway.jitter_buffer import LIMIT, MOST_MARGIN, PATIENCE, WINDOW, JitterBuffer
from trau.gateway import clock
from trau.gateway import live
from trau.gateway.live import Commands, Gateway, Speaker
from trau.gateway.network import Network
from trau.gateway.recorder import CLOSE_OCTETS, Recorder
from trau.gateway.rtcp import Reception, Reports
from trau.gateway.settings import Side, read_open
from hearing import KEEPS_PORT, HearingEndpoint
from spoiler import header
from trau.gateway.switchboard import Switchboard
from trau.trau_fr import Kind, kind_of

ONE = bytes(33)


def is_loud(content):
    """No period is soft for this jitter buffer."""
    return False


def at_once(period, *works):
    """As Switchboard.when_done."""
    for work in works:
        work(period)


def blocks_of(blocks):
    """Blocks of a report: each the source and its losses."""
    return b"".join(struct.pack(">II16x", *block) for block in blocks)


def sender_report(source, time, blocks=()):
    """A sender report at a time of NTP."""
    return struct.pack(
        ">BBHIQ12x", 0x80 | len(blocks), 200, 6 + 6 * len(blocks), source, time
    ) + blocks_of(blocks)


def receiver_report(source, blocks):
    """A receiver report."""
    return struct.pack(">BBHI", 0x80 | len(blocks), 201, 1 + 6 * len(blocks), source) + blocks_of(
        blocks
    )


def buffer_of(depth=3):
    return JitterBuffer(depth, ONE, is_loud)


def gsm_stream(depth=3):
    return Incoming(rtp.GSM, 33, buffer_of(depth))


class Packets(unittest.TestCase):
    def refused(self, data):
        with self.assertRaises(rtp.PacketRefused) as said:
            rtp.parse(data)
        return str(said.exception)

    def test_a_packet(self):
        self.assertEqual(rtp.parse(header(3, 7, 160, 9) + ONE), (3, 7, 160, 9, ONE))

    def test_what_stands_before_and_after_the_payload(self):
        fields = header(3, 7, 160, 9)[1:]
        sources = b"\x82" + fields + bytes(8)
        extension = b"\x90" + fields + b"\xbe\xde\x00\x01" + bytes(4)
        padding = b"\xa0" + fields
        for data in (sources + ONE, extension + ONE, padding + ONE + b"\0\0\3"):
            self.assertEqual(rtp.parse(data)[-1], ONE)

    def test_no_packets(self):
        fields = header(3, 7, 160, 9)[1:]
        for data in (
            b"",
            b"\x80" * 11,
            b"\x40" + fields,
            b"\x8f" + fields,
            b"\x90" + fields,
            b"\x90" + fields + b"\0\0\xff\xff",
        ):
            self.assertEqual(self.refused(data), "not-rtp")
        self.assertEqual(self.refused(b"\xa0" + fields + b"\0"), "not-rtp")
        self.assertEqual(self.refused(b"\xa0" + fields + b"\5"), "not-rtp")
        self.assertEqual(self.refused(bytes([0x80, 200]) + bytes(26)), "rtcp")

    def test_what_is_sent(self):
        out = rtp.Outgoing(rtp.GSM, lambda size: struct.pack(">HII", 0xFFFF, 0xFFFFFF60, 5))
        self.assertEqual(
            out.packet(0, b"a"), struct.pack(">BBHII", 0x80, 0x83, 0xFFFF, 0xFFFFFF60, 5) + b"a"
        )
        out.give_up(2)
        self.assertEqual(out.packet(3, b"b"), struct.pack(">BBHII", 0x80, 0x83, 0, 640, 5) + b"b")
        self.assertEqual(out.packet(4, b"c"), struct.pack(">BBHII", 0x80, 3, 1, 800, 5) + b"c")

    def test_the_marker_is_of_the_first_speech_after_a_gap(self):
        out = rtp.Outgoing(rtp.GSM)
        markers = [
            out.packet(period, b"a", is_speech)[1] >> 7
            for period, is_speech in enumerate((1, 1, 0, 0, 1, 1))
        ]
        self.assertEqual(markers, [1, 0, 0, 0, 1, 0])


class Buffers(unittest.TestCase):
    def test_depth_and_order(self):
        buffer = buffer_of()
        buffer.start(10)
        for period in (0, 2, 1):
            self.assertEqual(buffer.put(period, 0, bytes([period]) * 33, 10), "")
        self.assertEqual(
            [buffer.take(tick) for tick in range(10, 17)],
            [None] * 3 + [bytes([p]) * 33 for p in range(3)] + [None],
        )

    def test_late_and_doubled(self):
        buffer = buffer_of(0)
        buffer.start(0)
        self.assertEqual(buffer.put(0, 0, ONE, 0), "")
        self.assertEqual((buffer.put(0, 0, ONE, 0), buffer.take(0)), ("doubled", ONE))
        self.assertEqual(buffer.put(0, 0, ONE, 1), "doubled")
        self.assertEqual(buffer.put(1, 0, ONE, 2), "late")

    def test_the_second_late_packet_in_a_row_moves_the_playing(self):
        for depth in (0, 3):
            buffer = buffer_of(depth)
            buffer.start(0)
            for margin in (-4, 0, -1):
                buffer.follow(margin, 9)
            buffer.owed = 2  # slips on
            self.assertEqual(buffer.counts["slips-back"], 0)
            buffer.follow(-2, 9)
            self.assertEqual(buffer.owed, 0)
            for margin in (-2, 0, -2):
                buffer.follow(margin, 9)
                self.assertEqual(
                    (buffer.counts["slips-back"], -buffer.shift), (2 + depth, 2 + 2 * depth)
                )

    def moved(self, margin, is_sent):
        """The slips of a stream whose packets stand so far ahead, and the ticks until the first one."""
        buffer = buffer_of(3)
        buffer.start(0)
        before, first = buffer.shift, None
        for tick in range(WINDOW + PATIENCE + 5):
            period = tick + before + margin
            if is_sent(period):
                buffer.put(period, 0, ONE, tick, True)
            buffer.take(tick)
            if buffer.shift != before and first is None:
                first = tick
        return buffer.shift - before, first

    def test_a_slip_on_waits_for_a_pause(self):
        slips, first = self.moved(4, lambda period: True)
        self.assertEqual((slips, first), (1, WINDOW + PATIENCE - 1))
        slips, first = self.moved(4, lambda period: period % 100 != 0)
        self.assertEqual(slips, 1)
        self.assertLess(first, WINDOW + 101)

    def test_a_slip_back(self):
        slips, first = self.moved(0, lambda period: True)
        self.assertEqual((slips, first), (-1, WINDOW + PATIENCE - 1))

    def test_time_that_is_given_up(self):
        buffer = buffer_of(0)
        buffer.start(0)
        for period in range(10):
            buffer.put(period, 0, bytes([period]) * 33, 0)
        buffer.give_up(4, 0)
        self.assertEqual((len(buffer.periods), buffer.take(0)), (6, bytes([4]) * 33))


class Streams(unittest.TestCase):
    def taken(self, stream, ticks):
        return [stream.buffer.take(tick) for tick in ticks]

    def test_packets_of_several_frames(self):
        stream = gsm_stream(0)
        stream.packet(header(3, 1, 0, 5) + SPEECH[0] + SPEECH[1], 0, 0)
        stream.packet(header(3, 2, 320, 5) + SPEECH[2], 0, 0)
        self.assertEqual(self.taken(stream, range(4)), SPEECH[:3] + [None])

    def test_octets_of_any_length(self):
        line = bytes(range(1, 251)) * 4
        for size in (80, 160, 240, 999):
            stream = Incoming(rtp.ALAW, 0, JitterBuffer(0, idle_line("alaw"), is_loud))
            for number, at in enumerate(range(0, len(line), size)):
                stream.packet(header(8, number, 0xFFFFFF00 + at, 5) + line[at : at + size], 0, 0)
            got = b"".join(self.taken(stream, range(7)))
            self.assertEqual(got, line + b"\xd5" * 120, size)

    def test_counts(self):
        stream = gsm_stream()
        stream.packet(header(3, 1, 0, 5) + ONE, 0, 0)
        for packet in (
            header(8, 2, 160, 5) + ONE,
            b"",
            *(header(3, 2, 160, 5) + part for part in (b"", ONE[1:], 51 * ONE)),
        ):
            stream.packet(packet, 0, 0)
        wanted = {"other-type": 1, "empty": 1, "odd-size": 1, "not-rtp": 1, "too-long": 1}
        self.assertEqual(stream.counts, wanted)

    def test_what_isnt_played_isnt_lost(self):
        stream = gsm_stream()
        stream.packet(header(3, 1, 0, 5) + ONE, 0, 0)
        event, noise = header(101, 2, 160, 5) + bytes(4), header(13, 3, 320, 5) + b"\x40"
        others = (
            header(3, 4 + k, 480, 5) + part for k, part in enumerate((b"", ONE[1:], 51 * ONE))
        )
        for packet in (event, noise, *others, header(101, 40, 0, 6) + bytes(4)):
            stream.packet(packet, 0, 0)
        stream.packet(header(3, 7, 960, 5) + ONE, 0, 0)
        self.assertEqual(stream.came(), {"packets": 7, "missing": 0})
        _, losses, highest, *_ = struct.unpack(">IIIIII", stream.reception.block(0, 0))
        self.assertEqual((losses, highest, stream.source), (0, 7, 5))
        self.assertEqual(stream.counts["other-type"], 3)

    def test_what_is_dropped_isnt_missing(self):
        stream = gsm_stream()
        stream.packet(header(3, 1, 0, 5) + ONE, 0, 0)
        for number, source in ((2, 5), (3, 5), (77, 6)):
            stream.drop(header(3, number, 160 * number, source) + ONE)
        stream.drop(b"")
        stream.packet(header(3, 4, 480, 5) + ONE, 0, 0)
        self.assertEqual(stream.came(), {"packets": 4, "missing": 0})
        self.assertEqual(stream.counts, {"given-up": 4})

    def test_a_jump_ends_time_that_was_given_up(self):
        stream = gsm_stream(0)
        stream.packet(header(3, 1, 80000, 5) + ONE, 0, 0)
        stream.give_up(10, 1)
        for number, stamp in ((2, 48000), (3, 48160), (4, 47840)):  # the last one is late
            stream.packet(header(3, number, stamp, 5) + ONE, 1, 0)
        self.assertEqual(stream.counts, {"far": 1, "jumps": 1, "late": 1})

    def test_a_packet_that_is_far_away_doesnt_end_time_that_was_given_up(self):
        stream = gsm_stream(0)
        stream.packet(header(3, 1, 0, 5) + ONE, 0, 0)
        stream.give_up(100, 1)
        for number, place in ((900, 9000), (2, 1), (3, 2), (102, 101), (4, 3)):
            stream.packet(header(3, number, 160 * place, 5) + ONE, 1, 0)
        self.assertEqual(stream.counts, {"far": 2, "given-up": 2})

    def test_another_source_brings_two_packets(self):
        stream = gsm_stream()
        stream.packet(header(3, 1, 160, 5) + ONE, 0, 0)
        self.assertEqual(self.taken(stream, range(5))[3], ONE)
        for tick, source, number in (
            (5, 6, 99),
            (5, 6, 100),
            (6, 7, 3),
            (6, 6, 101),
            (6, 6, 102),
            (6, 6, 103),
        ):
            stream.packet(header(3, number, 160 * number, source) + ONE, tick, 0)
        self.assertEqual(
            (stream.source, stream.counts["probation"], stream.counts["new-source"]), (6, 3, 1)
        )

    def test_of_new_sources_that_take_turns_one_is_heard(self):
        for sources in ((6, 7), (6, 7, 8), (7, 6, 6)):
            stream = gsm_stream()
            stream.packet(header(3, 1, 160, 5) + ONE, 0, 0)
            numbers = Counter()
            for tick in range(1, 20):
                for source in sources:
                    numbers[source] += 1
                    number = numbers[source]
                    stream.packet(header(3, number, 160 * number, source) + ONE, tick, 0)
            self.assertEqual((stream.source, stream.counts["new-source"]), (sources[0], 1), sources)

    def test_a_source_that_brings_nothing_more_loses_its_place(self):
        stream = gsm_stream()
        stream.packet(header(3, 1, 160, 5) + ONE, 0, 0)
        stream.packet(header(3, 1, 160, 7) + ONE, 10, 0)
        heard = []
        for tick in range(11, 20):
            stream.packet(header(3, tick, 160 * tick, 6) + ONE, tick, 0)
            heard.append(stream.source)
        self.assertEqual(heard, 5 * [5] + 4 * [6])

    def test_two_senders_that_take_turns_as_one_source(self):
        stream, played = gsm_stream(1), []
        for tick in range(60):
            if tick < 40:
                stream.packet(header(3, tick, 160 * tick, 5) + SPEECH[tick], tick, 0)
            stream.packet(header(3, 700 + tick, 160 * (9000 + tick), 5) + ONE, tick, 0)
            played.append(stream.buffer.take(tick))
        self.assertEqual(played, [None, *SPEECH[:39], None, *[ONE] * 19])
        self.assertEqual((stream.counts["far"], stream.counts["jumps"]), (40, 1))

    def test_a_jump_is_believed_if_the_next_packet_follows_it(self):
        stream = gsm_stream()
        for number, stamp in (
            (1, 0),
            (2, 160 * 500),
            (2, 160),
            (3, 160 * 900),
            (4, 160 * 901),
            (5, 160 * 902),
        ):
            stream.packet(header(3, number, stamp, 5) + ONE, 0, 0)
        self.assertEqual(
            (stream.counts["far"], stream.counts["jumps"], len(stream.buffer.periods)), (2, 1, 2)
        )

    def nearly(self, draw, kind):
        """A packet of one of two sources, with a number and a stamp that may follow one another."""
        stamp = draw.choice((80 * draw.randrange(400), draw.getrandbits(32)))
        return header(kind, draw.randrange(3), stamp, draw.randrange(2)) + ONE * draw.randrange(60)

    def test_nonsense(self):
        draw = random.Random(4)
        line = JitterBuffer(3, idle_line("alaw"), is_loud)
        for stream in (gsm_stream(), Incoming(rtp.ALAW, 0, line)):
            count = 20_000
            for k in range(count):
                packet = draw.choice((hostile_packet, self.nearly))(draw, stream.kind)
                tick = k // 20 + k // 2000 * 3 * LIMIT  # so sometimes all are still
                stream.packet(packet, tick, draw.randrange(3))
                if k % 20 == 0:
                    stream.buffer.take(tick)
                    self.assertLessEqual(len(stream.buffer.periods), 3 * LIMIT)
            self.assertGreater(sum(stream.counts.values()), count // 2)
            self.assertGreater(stream.counts["new-source"], 0)

    def test_what_is_held_is_bounded(self):
        stream = gsm_stream()
        for number in range(3000):
            stream.packet(
                header(3, number, 160 * number % 30000, 5) + ONE * (number % 7), 0, number % 50
            )
        self.assertLessEqual(len(stream.buffer.periods), 3 * LIMIT)


class Receptions(unittest.TestCase):
    """What is reported of the packets that came."""

    def reception(self, numbers, first=0):
        """What came of packets with these numbers, each in the tick of its number."""
        came = Reception(5, first)
        for number in numbers:
            came.count(number & 0xFFFF, 160 * number & rtp.STAMPS, number)
        return came

    def block(self, came):
        """The share that was lost, the packets that were lost, the highest number and the jitter."""
        source, losses, highest, jitter, _, _ = struct.unpack(">IIIIII", came.block(0, 0))
        self.assertEqual(source, 5)
        return losses >> 24, losses & 0xFFFFFF, highest, jitter

    def test_losses(self):
        numbers = range(0xFFF0, 0x10010)
        self.assertEqual(self.block(self.reception(numbers, 0xFFF0)), (0, 0, 0x1000F, 0))
        came = self.reception([n for n in numbers if n % 4], 0xFFF0)
        self.assertEqual((came.missing(), self.block(came)), (8, (64, 8, 0x1000F, 0)))
        for _ in range(9):
            came.count(15, 0, None)
        self.assertEqual(self.block(came), (0, 0xFFFFFF, 0x1000F, 0))

    def test_a_late_packet_isnt_lost(self):
        self.assertEqual(self.reception([0, 2, 1, 3]).missing(), 0)

    def test_a_sender_that_begins_anew(self):
        came = self.reception(
            [*range(5), *range(40_000, 40_010), 7, 8]
        )  # two numbers in a row are believed
        self.assertEqual((came.received, came.missing()), (15, 0))

    def test_a_single_wild_number_is_dropped(self):
        came = self.reception([*range(100), 40_000, *range(100, 200), 9_000, 40_001, 200])
        self.assertEqual((came.received, came.missing(), self.block(came)[2]), (201, 0, 200))

    def test_jitter(self):
        came = Reception(5, 0)
        for number in range(1000):
            came.count(number, 160 * number, number + number % 2)
        self.assertEqual(self.block(came)[3], 159)  # it comes up to 160, and is cut down
        before = came.jitter
        for tick in (None, 5000, 9000):  # late ticks and jumps aren't jitter
            came.count(1000, 160_000, tick)
        self.assertEqual(came.jitter, before)


class Answers(unittest.TestCase):
    NOW = 1_000_000_000_500_000_000  # nanoseconds; in NTP's time 3,208,988,800.5 seconds

    def answer(self, count, came=None, reports=None):
        out = (
            reports.outgoing
            if reports
            else rtp.Outgoing(rtp.GSM, lambda size: struct.pack(">HII", 0, 100, 9))
        )
        reports = reports or Reports(out, Counter())
        for period in range(count):
            out.packet(period, ONE)
        return reports, reports.answer(came, self.NOW, 7)

    def test_a_sender(self):
        reports, answer = self.answer(3)
        report = struct.pack(
            ">BBHIQIII", 0x80, 200, 6, 9, 3_208_988_800 << 32 | 1 << 31, 100 + 7 * 160, 3, 99
        )
        self.assertEqual(
            answer, report + struct.pack(">BBHIBB16s2x", 0x81, 202, 6, 9, 1, 16, reports.name)
        )
        self.assertEqual(
            self.answer(0, None, reports)[1][:8], struct.pack(">BBHI", 0x80, 201, 1, 9)
        )

    def test_the_block(self):
        came = Receptions().reception(range(5))
        reports = Reports(rtp.Outgoing(rtp.GSM), Counter())
        self.assertTrue(
            reports.take(sender_report(5, 0x1122334455667788), self.NOW - 1_500_000_000)
        )
        wanted = struct.pack(">IIIIII", 5, 0, 4, 0, 0x33445566, 3 << 15)
        self.assertEqual(self.answer(1, came, reports)[1][28:52], wanted)
        reports.take(sender_report(6, 0x1122334455667788), self.NOW)  # of a source that isn't heard
        came.count(5, 800, 5)
        self.assertEqual(self.answer(1, came, reports)[1][44:52], bytes(8))
        self.assertEqual(
            self.answer(1, came, reports)[1][:4], bytes((0x80, 200, 0, 6))
        )  # nothing came since

    def test_what_the_peer_lost(self):
        reports = Reports(rtp.Outgoing(rtp.GSM), Counter())
        blocks = [(8, 99), (reports.outgoing.source, 7 << 24 | 123)]
        for report in (sender_report(5, 0, blocks), receiver_report(5, blocks)):
            reports.counts.clear()
            self.assertTrue(reports.take(report + bytes((0x80, 203, 0, 1)) + bytes(4), 0))
            self.assertEqual(reports.counts, {"far-lost": 123})

    def test_packets_without_a_source(self):
        reports, nobody = Reports(rtp.Outgoing(rtp.GSM), Counter()), bytes((0x80, 203, 0, 0))
        lost = receiver_report(5, [(reports.outgoing.source, 7)])
        for data, is_taken in (
            (lost + nobody, True),
            (lost + nobody + lost, True),
            (nobody, False),
            (nobody + lost, False),
        ):
            reports.counts.clear()
            self.assertEqual(
                (reports.take(data, 0), reports.counts["far-lost"]),
                (is_taken, 7 if is_taken else 0),
            )

    def test_nonsense(self):
        reports, draw = Reports(rtp.Outgoing(rtp.GSM), Counter()), random.Random(2)
        whole = sender_report(5, 0, [(reports.outgoing.source, 1)]) + receiver_report(5, [])
        for cut in range(len(whole)):
            reports.take(whole[:cut], 0)
        self.assertFalse(
            any(
                reports.take(data, 0)
                for data in (b"", whole[1:], whole + b"\0", b"\x40" + whole[1:], bytes(28))
            )
        )
        for _ in range(20_000):
            data = bytearray(whole)
            for _ in range(draw.randrange(4)):
                data[draw.randrange(len(data))] = draw.choice(
                    (0, 0x80, 0x9F, 0xFF, 200, 201, draw.randrange(256))
                )
            reports.take(bytes(data), 0)
            self.assertEqual(len(reports.answer(None, 0, 0)), 8 + 28)


class Fuzz(unittest.TestCase):
    """100,000 datagrams at random, and such as are nearly right: what takes them refuses, or takes, but doesn't fail."""

    def mutated(self, draw, whole):
        """A datagram with some octets changed, taken out, or put in twice."""
        data = bytearray(whole)
        for _ in range(draw.randrange(4)):
            at = draw.randrange(len(data) or 1)
            data[at : at + draw.choice((0, 1, 1, 4))] = draw.choice(
                (b"", b"\0", b"\xff", data[: draw.randrange(9)], draw.randbytes(1))
            )
        return bytes(data)

    def datagrams(self, count, made, whole):
        """Datagrams that are made, mutated, or nothing but random octets."""
        draw = random.Random(count)
        for _ in range(count // 4):
            yield made(draw)
            yield self.mutated(draw, made(draw))
            yield self.mutated(draw, whole)
            yield draw.randbytes(draw.randrange(80))

    def test_rtcp(self):
        reports = Reports(rtp.Outgoing(rtp.GSM), Counter())
        whole = sender_report(5, 0, [(reports.outgoing.source, 1)]) + receiver_report(5, [(6, 1)])
        taken = sum(reports.take(data, 0) for data in self.datagrams(50_000, hostile_report, whole))
        self.assertGreater(taken, 5_000)

    def test_rtp(self):
        whole, came, taken = (
            b"\xb2"
            + header(3, 7, 160, 9)[1:]
            + bytes(8)
            + b"\xbe\xde\0\1"
            + bytes(4)
            + ONE
            + b"\0\0\3",
            None,
            0,
        )
        for data in self.datagrams(50_000, lambda draw: hostile_packet(draw, 3), whole):
            with contextlib.suppress(rtp.PacketRefused):
                _, number, stamp, source, _ = rtp.parse(data)
                came = came or Reception(source, number)
                came.count(number, stamp, taken)
                came.block(0, 0)
                taken += 1
        self.assertGreater(taken, 5_000)


class Playing(unittest.TestCase):
    """What is played of the packets that come at each tick. A frame carries its number."""

    def frame(self, number):
        return b"\xd0" + number.to_bytes(4, "big") + bytes(28)

    def packet(self, number, stamp=None):
        return header(3, number, 160 * number if stamp is None else stamp, 5) + self.frame(number)

    def played(self, stream, packets, ticks):
        for tick in range(ticks):
            for packet in packets(tick):
                stream.packet(packet, tick, 0)
            yield stream.buffer.take(tick)

    def numbers(self, stream, packets, ticks):
        return [
            int.from_bytes(frame[1:5], "big")
            for frame in self.played(stream, packets, ticks)
            if frame
        ]

    def test_depth_0_has_no_slips_on_a_perfect_network(self):
        stream = gsm_stream(0)
        self.numbers(stream, lambda tick: [self.packet(tick)], 6000)
        self.assertEqual(dict(stream.buffer.counts), {})

    def test_late_doubles_move_nothing(self):
        def packets(tick):
            return [self.packet(tick)] + ([self.packet(tick - 40)] if tick in (100, 101) else [])

        stream = gsm_stream()
        self.assertEqual(self.numbers(stream, packets, 300), list(range(297)))
        self.assertEqual((stream.counts["doubled"], stream.counts["late"]), (2, 0))

    def test_doubles_say_nothing_about_the_path(self):
        stream = gsm_stream()
        for tick in range(100):
            for number in {tick, max(0, tick - 2), max(0, tick - 30)}:
                stream.packet(self.packet(number), tick, 0)
            stream.buffer.take(tick)
        self.assertEqual(set(stream.buffer.margins), {3})

    def test_stamps_of_frames_that_are_one_unit_off(self):
        numbers = self.numbers(
            gsm_stream(), lambda tick: [self.packet(tick, 1000 + 160 * tick - tick % 2)], 103
        )
        self.assertEqual(numbers, list(range(100)))

    def test_stamps_of_octets_that_are_one_unit_off(self):
        stream = Incoming(rtp.ALAW, 0, JitterBuffer(3, idle_line("alaw"), is_loud))
        played = list(
            self.played(
                stream,
                lambda tick: [header(8, tick, 160 * tick + tick % 2, 5) + b"\x11" * 160],
                103,
            )
        )
        self.assertEqual([period.count(0xD5) for period in played[3:]], [0, 1] * 50)

    def test_one_late_packet_of_three_frames_is_no_slip(self):
        def packets(tick):
            number = (tick - 5 if tick == 127 else tick) // 3
            frames = b"".join(self.frame(3 * number + k) for k in range(3))
            return (
                [header(3, number, 480 * number, 5) + frames]
                if tick % 3 == 2 and tick != 122 or tick == 127
                else []
            )

        stream = gsm_stream()
        self.numbers(stream, packets, 300)
        self.assertEqual(stream.buffer.counts["slips-back"], 0)

    def test_a_longer_path_moves_the_playing_by_its_periods(self):
        for place, late in (
            (0, 1),
            (80, 2),
        ):  # in a period, and the periods that are touched by a late packet

            def packets(tick):
                numbers = [] if 100 <= tick < 110 else [tick - 10 if tick >= 110 else tick]
                return [
                    header(8, n, 160 * n + (place if n else 0), 5) + b"\x11" * 160 for n in numbers
                ]

            stream = Incoming(rtp.ALAW, 0, JitterBuffer(3, idle_line("alaw"), is_loud))
            list(self.played(stream, packets, 200))
            self.assertEqual(
                (stream.counts["late"], stream.buffer.counts), (late, {"slips-back": 10}), place
            )

    def test_lone_stragglers_dont_raise_the_delay(self):
        def packets(tick):
            numbers = [tick] if tick % 400 else []
            numbers += [tick - 48] if tick > 48 and (tick - 48) % 400 == 0 else []
            return [header(3, n & 0xFFFF, 160 * n, 5) + self.frame(n) for n in numbers]

        stream = gsm_stream()
        self.assertEqual(39_999 - self.numbers(stream, packets, 40_000)[-1], 3)
        self.assertEqual(stream.counts["late"], 99)

    def test_the_delay_has_an_end(self):
        def packets(tick):  # one in fifty comes late
            numbers = [tick] if tick % 50 else []
            numbers += [tick - 45] if tick > 45 and (tick - 45) % 50 == 0 else []
            return [self.packet(n, 160 * n) for n in numbers]

        stream = gsm_stream()
        self.assertEqual(39_999 - self.numbers(stream, packets, 40_000)[-1], MOST_MARGIN)

    def test_margins_are_watched_by_ticks_too(self):
        def packets(tick):  # each sixth period, in time but for the last tick
            return (
                [self.packet(tick)]
                if tick % 6 == 0 and tick < 3
                else [self.packet(tick - 3)]
                if tick % 6 == 3
                else []
            )

        stream = gsm_stream()
        self.numbers(stream, packets, WINDOW + PATIENCE + 1)
        self.assertEqual(stream.buffer.counts["slips-back"], 1)


class Clocks(unittest.TestCase):
    def test_four_phases(self):
        turned = TurnedClock()
        turns = list(itertools.islice(turned.clock.turns(), 9))
        self.assertEqual(
            [(turn.period, turn.phase) for turn in turns], [divmod(n, 4) for n in range(9)]
        )
        self.assertEqual(
            (turned.time, turned.clock.late, turned.clock.given_up), (2 * PERIOD, 0, 0)
        )

    def test_late_turns_are_made_up_for(self):
        turned = TurnedClock()
        turns = turned.clock.turns()
        next(turns)
        turned.time += 10 * PERIOD
        self.assertEqual(
            [next(turns).behind for _ in range(45)], [max(0, 9 - k // 4) for k in range(45)]
        )
        self.assertEqual(turned.clock.given_up, 0)

    def test_more_than_a_second_is_given_up(self):
        turned = TurnedClock()
        turns = turned.clock.turns()
        next(turns)
        turned.time += 100 * PERIOD
        turn = next(turns)
        self.assertEqual((turn, turned.clock.given_up), ((0, 1, 0, 99), 99))
        self.assertEqual(next(turns).behind, 0)

    def test_a_suspended_machine_is_late(self):
        times = {time.CLOCK_BOOTTIME: 7}
        with unittest.mock.patch.object(clock.time, "clock_gettime_ns", times.__getitem__):
            self.assertEqual(Clock().now(), 7)

    def test_time_passes(self):
        clock = Clock()
        begun = clock.now()
        for turn in clock.turns():
            if turn.period == 1:
                break
        self.assertGreaterEqual(clock.now() - begun, PERIOD)


class OpenLines(unittest.TestCase):
    LINE = "7 gsm 6000 127.0.0.1:6002 pcm 6004 10.0.0.1:6006"

    def test_what_is_left_out(self):
        settings = read_open(self.LINE.split())
        self.assertEqual(
            (settings.law, settings.level, settings.dtx, settings.prime, settings.is_strict),
            ("alaw", 256, False, True, True),
        )
        self.assertEqual(settings.sides["pcm"], Side(6004, ("10.0.0.1", 6006)))

    def test_all_words(self):
        settings = read_open(
            f"{self.LINE} mulaw level 0 dtx on depth 5 prime off strict off".split()
        )
        self.assertEqual(
            (settings.law, settings.level, settings.dtx, settings.depth), ("mulaw", 0, True, 5)
        )
        self.assertEqual((settings.prime, settings.is_strict), (False, False))

    def test_packets_of_any_address(self):
        settings = read_open(f"{self.LINE} from any".split())
        self.assertEqual((settings.is_strict, settings.sides["gsm"].is_any), (False, True))
        for words in ("", "from peer", "strict off from peer", "from any from peer"):
            settings = read_open(f"{self.LINE} {words}".split())
            self.assertFalse(settings.sides["pcm"].is_any, words)

    def test_payload_types(self):
        for words, wanted in (
            ("", (3, 8)),
            ("mulaw", (3, 0)),
            ("pcm-type 127 mulaw", (3, 127)),
            ("gsm-type 96 pcm-type 97", (96, 97)),
        ):
            self.assertEqual(kinds_of(read_open(f"{self.LINE} {words}".split())), wanted)

    def test_the_addresses_of_both_networks(self):
        settings = read_open(
            "7 gsm 10.0.1.1:6000 10.0.1.2:6002 pcm 10.0.2.1:6004 10.0.2.2:6006".split()
        )
        self.assertEqual(settings.sides["gsm"], Side(6000, ("10.0.1.2", 6002), "10.0.1.1"))
        self.assertEqual(settings.sides["pcm"], Side(6004, ("10.0.2.2", 6006), "10.0.2.1"))

    def test_refusals(self):
        bad = (
            ("", "missing"),
            ("0", "isn't 1 to 4,096"),
            ("7 gsm 6000", "missing"),
            ("7 gsm 6001 127.0.0.1:6002", "is odd"),
            ("7 gsm 6000 host:6002", "host isn't an IPv4 address"),
            ("7 gsm 6000 0.0.0.0:6002", "0.0.0.0 isn't the address of a peer"),
            ("7 gsm 6000 224.0.0.1:6002", "isn't the address of a peer"),
            ("7 gsm 6000 255.255.255.255:6002", "isn't the address of a peer"),
            ("7 gsm 6000 6002", " isn't an IPv4 address"),
            ("7 gsm here:6000 127.0.0.1:6002", "here isn't an IPv4 address"),
            ("7 gsm 6000 127.0.0.1:0", "isn't 1 to 65,534"),
            ("7 gsm 6000 127.0.0.1:65535", "isn't 1 to 65,534"),
            ("7 gsm 6000 127.0.0.1:6002", "both sides"),
            (f"{self.LINE} level 32768", "isn't 0 to 32,767"),
            (f"{self.LINE} dtx maybe", "isn't on or off"),
            (f"{self.LINE} loud", "the form is"),
            (f"{self.LINE} from all", "isn't peer or any"),
            (f"{self.LINE} strict on from any", "from any"),
            (f"{self.LINE} from any strict on", "from any"),
            (f"{self.LINE} gsm-type 95", "isn't 96 to 127"),
            (f"{self.LINE} pcm-type 128", "isn't 96 to 127"),
            (f"{self.LINE} pcm-type", "missing"),
        )
        for line, part in bad:
            with self.assertRaisesRegex(Refusal, part, msg=line):
                read_open(line.split())


class Endpoints(unittest.TestCase):
    PEER = ("127.0.0.1", 6002)

    def packet(self, number):
        return header(3, number, 160 * number, 5) + ONE

    def test_strict(self):
        endpoint = HearingEndpoint(Side(6000, self.PEER), True, gsm_stream())
        for number, sender in enumerate((self.PEER, ("127.0.0.1", 6004), ("127.0.0.2", 6002))):
            endpoint.arrived(self.packet(number), sender, 0, 0)
        self.assertEqual(
            (endpoint.incoming.counts["stranger"], len(endpoint.incoming.buffer.periods)), (2, 1)
        )

    def arrivals(self, endpoint, rows):
        """Packets that arrive, each with its tick, sender, source and number; where packets go then."""
        for tick, sender, source, number in rows:
            endpoint.arrived(header(3, number, 160 * number, source) + ONE, sender, tick, 0)
            endpoint.incoming.buffer.take(tick)
            yield endpoint.peer

    def test_packets_go_where_two_of_the_peer_came_from(self):
        endpoint = HearingEndpoint(Side(6000, self.PEER, is_any=True), False, gsm_stream())
        here, other = ("10.0.0.7", 4000), ("10.0.0.8", 5000)
        rows = [(0, here, 5, 0), (1, other, 6, 9), (1, here, 5, 1), (2, other, 5, 2)]
        went = list(self.arrivals(endpoint, rows))
        self.assertEqual(went, [self.PEER, self.PEER, here, here])
        self.assertEqual(endpoint.incoming.counts, {"stranger": 2, "moved": 1})

    def test_another_sender_takes_over_once_its_source_stood_probation(self):
        endpoint = HearingEndpoint(Side(6000, self.PEER, is_any=True), False, gsm_stream())
        here, other = ("10.0.0.7", 4000), ("10.0.0.8", 5000)
        speaks = [(tick, here, 5, tick) for tick in range(5)]
        rows = [(4 + KEEPS_PORT + k, other, 6, 9 + k) for k in range(4)]
        late = [(4 + KEEPS_PORT + 4, here, 5, 5)]
        went = list(self.arrivals(endpoint, [*speaks, *rows, *late]))
        self.assertEqual(went, [self.PEER, *[here] * 6, *[other] * 3][: len(went)])
        wanted = {"moved": 2, "probation": 1, "new-source": 1, "stranger": 1, "packets": 5}
        self.assertEqual(+endpoint.incoming.counts, wanted)

    def test_one_packet_moves_nothing(self):
        endpoint = HearingEndpoint(Side(6000, self.PEER, is_any=True), False, gsm_stream())
        there, still = ("10.0.0.7", 4000), KEEPS_PORT
        rows = [(still, there, 5, still), (2 * still, self.PEER, 5, 2 * still)]
        rows += [(3 * still, there, 5, 3 * still), (4 * still, ("10.0.0.7", 4002), 5, 4 * still)]
        self.assertEqual(set(self.arrivals(endpoint, [(0, self.PEER, 5, 0), *rows])), {self.PEER})

    def test_without_the_option_packets_go_to_the_peer_of_the_line(self):
        endpoint = HearingEndpoint(Side(6000, self.PEER), False, gsm_stream())
        rows = [(tick, (self.PEER[0], 7000), 5, tick) for tick in range(9)]
        self.assertEqual(set(self.arrivals(endpoint, rows)), {self.PEER})

    @with_loopback
    def test_rtcp_goes_where_it_comes_from(self):
        with bound("127.0.0.2") as control:
            control.settimeout(60)
            _, endpoint, port, _ = self.opened(False, is_any=True)
            endpoint.peer = ("127.0.0.2", 6000)  # as it brought two packets in a row
            reports = Reports(rtp.Outgoing(rtp.GSM), endpoint.incoming.counts)
            control.sendto(receiver_report(5, []), ("127.0.0.1", port + 1))
            while not endpoint.incoming.counts["rtcp-sent"]:
                endpoint.report(reports, 0)
            self.assertEqual(control.recv(1500)[1], 201)

    def test_a_fault_is_counted_and_ends_nothing(self):
        endpoint = HearingEndpoint(Side(6000, self.PEER), True, gsm_stream())
        with unittest.mock.patch.object(
            endpoint.incoming, "packet", side_effect=struct.error("no\nroom")
        ):
            endpoint.arrived(self.packet(1), self.PEER, 0, 0)
        endpoint.arrived(self.packet(1), self.PEER, 0, 0)
        self.assertEqual((endpoint.incoming.counts["fault"], endpoint.incoming.heard), (1, 0))
        self.assertEqual(endpoint.incoming.faults, {"fault": "error no room"})

    @with_loopback
    def test_a_fault_of_a_report_is_counted(self):
        with bound() as control:
            _, endpoint, port, _ = self.opened(False, ("127.0.0.1", control.getsockname()[1] - 1))
            control.sendto(receiver_report(5, []), ("127.0.0.1", port + 1))
            while not endpoint.incoming.counts["fault"]:
                endpoint.report(
                    unittest.mock.Mock(take=unittest.mock.Mock(side_effect=struct.error)), 0
                )

    def opened(self, is_strict, address=None, network=None, is_any=False):
        """A network with an endpoint more in phase 0, its port, and the peer's socket, if the peer has no
        other address."""
        peer, network = bound(), network or Network("127.0.0.1")
        self.addCleanup(peer.close)
        while True:
            with contextlib.suppress(OSError):  # somebody may have one of the two ports
                side = Side(even_port(), address or peer.getsockname(), is_any=is_any)
                endpoint = network.open(side, is_strict, gsm_stream(), 0)
                self.addCleanup(network.close, endpoint, 0)
                return network, endpoint, side.port, peer

    @with_loopback
    def test_what_a_strict_peer_didnt_send_is_counted_alone(self):
        _, endpoint, port, peer = self.opened(True)
        with bound() as stranger:
            for _ in range(3):
                stranger.sendto(self.packet(1), ("127.0.0.1", port))
        peer.sendto(self.packet(2), ("127.0.0.1", port))
        while endpoint.incoming.counts["stranger"] < 3:
            endpoint.count_losses()
        self.assertEqual(+endpoint.incoming.counts, {"stranger": 3})
        endpoint.socket.settimeout(60)
        self.assertEqual(endpoint.socket.recv(100), self.packet(2))

    @with_loopback
    def test_strangers_that_find_no_room_are_counted(self):
        _, endpoint, port, _ = self.opened(True)
        with bound() as stranger:
            for _ in range(350):
                stranger.sendto(self.packet(1), ("127.0.0.1", port))
        while endpoint.incoming.counts["stranger"] < 350:
            endpoint.count_losses()
        self.assertEqual(+endpoint.incoming.counts, {"stranger": 350})

    @with_loopback
    def test_a_strict_port_is_had_once(self):
        network, _, port, peer = self.opened(True)
        for is_strict in (True, False):
            with self.assertRaisesRegex(OSError, "in use"):
                network.open(Side(port, peer.getsockname()), is_strict, gsm_stream(), 0)

    @with_loopback
    def test_what_the_peer_sends_to_another_address_is_counted(self):
        with bound() as peer:
            while True:
                with contextlib.suppress(OSError):  # somebody may have one of the ports
                    port, network = even_port(), Network("0.0.0.0")
                    endpoint = network.open(Side(port, peer.getsockname()), True, gsm_stream(), 0)
                    break
            self.addCleanup(network.close, endpoint, 0)
            peer.sendto(self.packet(2), ("127.0.0.2", port))
            while not endpoint.incoming.counts["other-address"]:
                endpoint.count_losses()
        self.assertEqual(+endpoint.incoming.counts, {"other-address": 1})

    @with_loopback
    def test_other_answers_stop_no_work(self):
        failures = [OSError(errno.EHOSTUNREACH, "No route to host")] * 3
        for is_strict in (True, False):
            _, endpoint, _, _ = self.opened(is_strict)
            endpoint.control.close()
            endpoint.control = unittest.mock.Mock(
                **{"recvmsg.side_effect": [*failures, (b"", [(0, 0, bytes(16))], 0, self.PEER)]}
            )
            came = endpoint.came_to_control()
            self.assertEqual(next(came)[0], b"")

    @with_loopback
    def test_what_came_before_the_socket_was_connected_is_dropped(self):
        really = socket.socket.connect
        with bound() as stranger:

            def connect(one, peer):
                stranger.sendto(self.packet(1), one.getsockname())
                really(one, peer)

            with unittest.mock.patch.object(socket.socket, "connect", connect):
                _, endpoint, _, _ = self.opened(True)
        with self.assertRaises(BlockingIOError):
            endpoint.socket.recv(1)
        self.assertEqual(list(endpoint.came_to_control()), [])

    @with_loopback
    def test_what_finds_no_room_is_counted(self):
        _, endpoint, port, peer = self.opened(True)
        while not endpoint.incoming.counts["overflowed"]:
            peer.sendto(bytes(8000), ("127.0.0.1", port))
            endpoint.count_losses()

    def answers(self, is_strict, senders, counted):
        """The types of what the peer gets if these sockets send reports (None: its own), and itself nonsense."""
        with bound() as control:
            network, endpoint, port, _ = self.opened(
                is_strict, ("127.0.0.1", control.getsockname()[1] - 1)
            )
            reports, counts = (
                Reports(rtp.Outgoing(rtp.GSM), endpoint.incoming.counts),
                endpoint.incoming.counts,
            )
            datagrams = [
                *((one or control, sender_report(5, 1)) for one in senders),
                (control, bytes(28)),
                (control, b"\x80\xc8"),
            ]
            for one, datagram in datagrams:
                one.sendto(datagram, ("127.0.0.1", port + 1))
            while counts["not-rtcp"] < 2:
                endpoint.report(reports, 0)
            self.assertEqual(counts["rtcp"], counted)
            control.settimeout(60)
            sent = [control.recv(1500)[1] for _ in range(counts["rtcp-sent"])]
        self.assertLess(len(sent), 2)
        return sent

    @with_loopback
    def test_the_peers_reports_are_answered_by_one(self):
        with bound() as other, bound("127.0.0.2") as stranger:
            for is_strict, senders, counted, wanted in (
                (True, [], 0, []),
                (True, [None, None], 2, [201]),
                (True, [other, stranger], 0, []),
                (False, [other, stranger], 2, [201]),
                (False, [stranger], 1, []),
            ):
                self.assertEqual(self.answers(is_strict, senders, counted), wanted)

    def test_a_port_that_is_heard_is_kept(self):
        endpoint = HearingEndpoint(Side(6000, self.PEER), False, gsm_stream())
        for tick, port in ((0, 7000), (1, 7002), (KEEPS_PORT, 7004)):
            endpoint.arrived(self.packet(tick), ("127.0.0.1", port), tick, 0)
        self.assertEqual(
            (endpoint.incoming.counts["other-port"], endpoint.sender), (1, ("127.0.0.1", 7004))
        )


class Recordings(InFolder):
    def made(self, say=print, every=1, name="new"):
        """A recorder with its folder."""
        one = Recorder(self.folder / name, every, say)
        one.make()
        return one

    def test_room_for_orders(self):
        recorder = self.made()
        recorder.orders = MOST_ORDERS - 4
        self.assertTrue(recorder.has_room(3, 1))
        recorder.orders += 1
        self.assertFalse(recorder.has_room(3, 1))
        recorder.orders, recorder.order_octets = 0, (1 << 20) - 96 - CLOSE_OCTETS
        self.assertTrue(recorder.has_room(3, 1))
        recorder.order_octets += 1
        self.assertFalse(recorder.has_room(3, 1))

    def test_the_lines_end_alike(self):
        for every in (1, 3, 50):
            recorder = self.made(every=every, name=str(every))
            recorder.open(1)
            for _ in range(7):
                recorder.period(1, (b"u" * 40, b"p" * 160, b"d" * 40, b"o" * 160))
                recorder.write()
            recorder.end()
            recorder.writer.join()
            read = {
                side: (self.folder / str(every) / f"1.{side}").read_bytes()
                for side in ("up", "pcm", "down", "out")
            }
            wanted = {
                "up": b"u" * 280,
                "pcm": b"p" * 1120,
                "down": b"\xff" * 40 + b"d" * 240,
                "out": b"o" * 1120,
            }
            self.assertEqual(read, wanted)

    def test_what_waits_is_written_in_the_order_of_its_periods(self):
        # Else a kill would leave some calls with many periods more than others, after a gateway that was late.
        one, written = self.made(), []
        for call in (1, 2):
            one.open(call)
        for number in range(1, 6):
            for call in (1, 2):
                size = 40 * number * call  # other ones for each block
                one.block(call, (bytes(size), bytes(4 * size), bytes(size), bytes(4 * size)))
        with unittest.mock.patch.object(recorder, "write_lines", written.extend):
            one.write()
            one.end()
            one.writer.join()
        ups = [len(lines[0]) // 40 for _, lines in written]
        self.assertEqual(ups, [number * call for number in range(1, 6) for call in (1, 2)])

    def stalled(self, periods):
        """What a recording of a disk that stalls says, and a call's Out after these periods."""
        really, is_over, said = os.write, threading.Event(), []

        def write(descriptor, data):
            is_over.wait(60)
            return really(descriptor, data)

        one = self.made(said.append)
        with unittest.mock.patch.object(recorder.os, "write", write):
            one.order(0, "open 1")
            one.open(1)
            for _ in range(periods):
                one.period(1, (b"u" * 40, b"p" * 160, b"d" * 40, b"o" * 160))
                one.write()
            self.assertFalse((one.folder / "1.out").exists())
            is_over.set()
            one.end(periods)
            one.writer.join()
        return said, (one.folder / "1.out").read_bytes(), (one.folder / "clock.txt").read_text()

    def test_a_disk_that_stalls_holds_nobody_up(self):
        self.assertEqual(self.stalled(500), ([], b"o" * 160 * 500, "0 every 1\n500 end 1\n"))

    def test_a_disk_that_stalls_for_long_ends_the_recording(self):
        with unittest.mock.patch.object(recorder, "MOST_WAITING", 400 * 100):
            said, out, clock = self.stalled(500)
        ended = f"recording {self.folder / 'new'} ended: the disk is too slow"
        self.assertEqual((said, len(out), clock), ([ended], 160 * 100, "0 every 1\n"))

    def test_a_fault_of_the_writing_thread_ends_the_recording(self):
        said = []
        one = self.made(said.append)

        def work():
            raise ValueError("embedded null byte")

        one.attempt(0, work)
        one.end(1)
        one.writer.join()
        self.assertEqual(said, [f"recording {self.folder / 'new'} ended: embedded null byte"])
        self.assertEqual((one.folder / "clock.txt").read_text(), "0 every 1\n")

    def test_a_disk_that_stalls_is_said(self):
        said, is_over = [], threading.Event()
        one = self.made(said.append)
        one.attempt(0, is_over.wait)
        while one.oldest is None:
            one.look_after(7)
        since = one.oldest
        for period, waits in ((49, 0.9), (99, 3.5), (149, 4.5)):
            with unittest.mock.patch.object(recorder.time, "monotonic", lambda: since + waits):
                one.look_after(period)
        is_over.set()
        one.end()
        one.writer.join()
        with unittest.mock.patch.object(recorder.time, "monotonic", lambda: since + 60):
            one.look_after(199)
        name = f"recording {one.folder}: the disk is"
        self.assertEqual(said, [f"{name} 3 s behind at 99", f"{name} in time again at 199"])

    def test_the_end_doesnt_wait_for_a_dead_disk(self):
        said, is_over = [], threading.Event()
        one = self.made(said.append)
        one.attempt(0, is_over.wait)
        board = Switchboard(Network("127.0.0.1"), one, 1, said.append)
        one.event(3, "a line")
        with unittest.mock.patch.object(switchboard, "LAST_WRITES", 0):
            self.assertFalse(board.end_recordings(4))
        is_over.set()
        one.writer.join()
        self.assertEqual(said, [f"recording {one.folder} ended: 17 octets aren't written"])

    def test_a_close_that_fails_ends_the_recording_once(self):
        def close(descriptor):
            really(descriptor)
            raise OSError(errno.EDQUOT, "Disk quota exceeded")

        really, said = os.close, []
        one = self.made(said.append)
        one.open(1)
        with unittest.mock.patch.object(recorder.os, "close", close):
            one.close(1)
            one.end(7)
            one.writer.join()
        self.assertEqual(
            (said, one.has_ended), ([f"recording {one.folder} ended: Disk quota exceeded"], True)
        )
        self.assertEqual((one.folder / "clock.txt").read_text(), "0 every 1\n")

    def test_the_reason_of_a_short_write_is_the_systems(self):
        def write(descriptor, data):
            if len(data) <= 2:
                raise OSError(errno.EFBIG, "File too large")
            return len(data) - 2

        with unittest.mock.patch.object(recorder.os, "write", write):
            with self.assertRaisesRegex(OSError, "File too large"):
                recorder.write_all(0, b"abcde")

    def test_recordings_are_private(self):
        one = self.made()
        one.open(1)
        one.end()
        one.writer.join()
        modes = {path.stat().st_mode & 0o777 for path in one.folder.iterdir()}
        self.assertEqual((one.folder.stat().st_mode & 0o777, modes), (0o700, {0o600}))


class Inputs(unittest.TestCase):
    """The lines of standard input, and the replies."""

    def lines(self, given):
        """The lines that are taken of an input with this content, and what is said on standard error."""
        read, write = os.pipe()
        os.write(write, given)
        os.close(write)
        commands, err, lines = Commands(read), io.StringIO(), []
        with contextlib.redirect_stderr(err):
            while commands.descriptor is not None:
                lines += commands.taken()
        os.close(read)
        return lines, err.getvalue()

    def test_a_last_line_without_end_isnt_executed(self):
        self.assertEqual(
            self.lines(b"close 1\n# a comment\nclose 2\n"), (["close 1", "close 2"], "")
        )
        lines, said = self.lines(b"close 1\nclose 12")
        self.assertEqual((lines, said.count("\n")), (["close 1"], 1))
        self.assertIn("the last line has no end", said)

    def test_a_long_line_is_refused_whole(self):
        said, board = [], unittest.mock.Mock(when_done=at_once)
        gateway = Gateway(board, Clock(), Commands(None), said.append)
        long = ("close 1" + " " * 1000, "close 1 #" + "x" * 1000, "close 1" + 300 * " \U0001d11e")
        lines, _ = self.lines("".join(f"{line}\n" for line in (*long, "close 2")).encode())
        for line in lines:
            gateway.obey(line, 0)
        self.assertEqual([line.count("too long") for line in said], [1, 1, 1, 0])
        board.execute.assert_called_once_with("close 2", 0)

    def test_a_long_line_that_comes_in_parts(self):
        read, write = os.pipe()
        commands, taken = Commands(read), []
        for part in ("close 1", 400 * " \U0001d11e", 400 * "\U0001d11e", "\n"):
            os.write(write, part.encode())
            taken += commands.taken()
        os.close(read)
        os.close(write)
        self.assertEqual(len(taken), 1)
        self.assertGreater(len(taken[0].encode("utf-8", "surrogateescape")), live.MOST_LINE)

    def test_an_interrupt_while_calls_are_opened_leaves_no_folder(self):
        with tempfile.TemporaryDirectory() as folder:
            one = Recorder(Path(folder) / "rec", 1, print)
            one.make()
            board = Switchboard(Network("127.0.0.1"), one, 1, print)
            (Path(folder) / "calls").write_text("open\n")
            with unittest.mock.patch.object(board, "execute", side_effect=KeyboardInterrupt):
                with self.assertRaises(KeyboardInterrupt):
                    live.begin(board, Path(folder) / "calls")
            self.assertEqual(os.listdir(folder), ["calls"])

    def test_the_soft_limit_is_raised_to_the_hard_one(self):
        limits = [1024, 4096]

        def setrlimit(_, new):
            limits[:] = new

        with unittest.mock.patch.multiple(
            live.resource, getrlimit=lambda _: tuple(limits), setrlimit=setrlimit
        ):
            self.assertEqual((live.most_calls(10), limits), (10, [4096, 4096]))
            self.assertEqual(live.most_calls(4096), (4096 - 64) // 10)
            limits[:] = 1024, -1  # no limit
            self.assertEqual((live.most_calls(200), limits), (200, [2064, -1]))

    def spoken(self, say):
        """What a speaker prints of what `say` tells it."""
        read, write = os.pipe()
        really = os.write
        with unittest.mock.patch.object(live.os, "write", lambda _, data: really(write, data)):
            speaker = Speaker()
            say(speaker)
            speaker.lines.put(None)
            speaker.writer.join()
        os.close(write)
        with open(read, "rb") as output:
            return speaker.dropped, output.read()

    def test_a_name_that_isnt_text_silences_nothing(self):
        name = os.fsdecode(b"caf\xe9")

        def say(speaker):
            for text in (f"recording {name}", "\ud800", "caf\xe9"):
                speaker(text)

        wanted = b"recording caf\\udce9\n\\ud800\ncaf\xc3\xa9\n"
        self.assertEqual(self.spoken(say), (0, wanted))

    def test_a_fault_of_the_speaking_thread_silences_nothing(self):
        class Text(str):
            def __format__(self, form):
                raise ValueError("no text")

        def say(speaker):
            speaker(Text("bad"))
            speaker("good")

        self.assertEqual(self.spoken(say), (1, b"good\n"))

    def test_a_pipe_takes_each_reply_whole(self):
        said = []
        board = unittest.mock.Mock(when_done=at_once)
        board.execute = lambda line, period: read_open(line.split()[1:])
        gateway = Gateway(board, Clock(), Commands(None), said.append)
        for letter in ("\U0001d11e", "\udce9"):
            gateway.obey("open 1 " + letter * 240, 0)
            self.assertNotIn("too long", said[0])
            self.assertLess(len(said.pop().encode()), select.PIPE_BUF)


class Silence(unittest.TestCase):
    def test_the_frame_of_silence_is_good_speech(self):
        self.assertEqual((kind_of(SILENCE), len(SILENCE)), (Kind.SPEECH, 33))

    def test_soft_octets(self):
        self.assertIn(0xD5, soft_octets("alaw"))
        self.assertIn(0xFF, soft_octets("mulaw"))
        self.assertLess(len(soft_octets("alaw")), 40)

    def frame(self, maxima, pulses):
        """A frame with these block maxima and pulses, and with zeros else."""
        number = 0xD << 36
        for maximum in maxima:
            number = number << 56 | maximum << 39 | pulses
        return number.to_bytes(33, "big")

    def test_soft_frames(self):
        soft = [SOFT_BLOCK] * 4
        self.assertTrue(is_soft_frame(self.frame(soft, (1 << 39) - 1)))
        for k in range(4):
            self.assertFalse(
                is_soft_frame(
                    self.frame(soft[:k] + [SOFT_BLOCK + 1] + soft[k + 1 :], (1 << 39) - 1)
                )
            )
        descriptor = self.frame(soft, 0)
        self.assertEqual(
            (kind_of(descriptor), is_soft_frame(descriptor), is_soft_frame(ONE)),
            (Kind.DESCRIPTOR, False, False),
        )


if __name__ == "__main__":
    unittest.main()
