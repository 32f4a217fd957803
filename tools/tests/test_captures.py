"""Tests of captures.py: captures of a tone of 0.6 s that GStreamer 1.22 (GSM) and ffmpeg 5.1 (PCMA, PCMU) sent and tshark recorded, beside
the fields that tshark 4.0 reads of them; damaged ones; and lines out to captures. They need the library dpkt, and are skipped without it."""

import gzip
import io
import resource
import struct
import subprocess
import sys
import unittest
from collections import Counter
from unittest import mock

import test_capture_walk
from captured_packets import packets
from support import DATA, EXAMPLES, TOOLS, InFolder, frames_of_downlink
from test_capture_walk import enhanced, interface, option, section

from trau.gateway import rtp as gateway_rtp
from trau.recordings import captures
from trau.recordings import code_word
from trau.recordings import lines
from trau.recordings import rtp_walk, udp_layers
from trau.recordings import uplink_frames
from capture_files import HAS_DPKT, InCaptures, fields, rewritten, kinds_of
from trau.rules.frame import FrameKind, bits_of, read_down
from trau.rules.g711 import Law, samples_by_octet
from trau.rules.parameters import SILENCE, bits_of_parameters, data_of_gsm, gsm_of_data
from trau.rules.search import search
from trau.recordings.damages import silence_descriptor

CAPTURES = {"gsm": "gsm.pcap", "pcma": "pcma.pcapng", "pcmu": "pcmu.pcap"}


GSM_CAPTURE = (DATA / "gsm.pcap").read_bytes()


def packets_of(path):
    """The packets of the only stream of a capture."""
    streams = captures.streams_of(path, path.read_bytes())
    (flow,) = streams.by_key.values()
    return list(streams.packets(flow))


class WithoutTheLibrary(InFolder):
    def test_idle_and_lost_frames(self):
        for octets, kind in (
            (uplink_frames.IDLE, FrameKind.IDLE),
            (uplink_frames.LOST, FrameKind.UNUSABLE),
            (uplink_frames.LOST_WITH_TAF, FrameKind.UNUSABLE),
        ):
            self.assertEqual([each.kind() for each in search(bits_of(octets))], [kind])

    def test_asked_for_with_a_word(self):
        said = f"captures need the library dpkt, which {sys.executable} doesn't have; apt-get install python3-dpkt "
        up = self.path("7.up", (EXAMPLES / "7.up").read_bytes())
        with mock.patch.dict(
            sys.modules,
            {name: None for name in [*sys.modules, "dpkt"] if name.partition(".")[0] == "dpkt"},
        ):
            self.assert_refused(lines.main, ["capture", up, self.folder / "7.pcap"], said)
            # Plain packets are read without it; others are named.
            status, out, err = self.run_tool(lines.main, "look", DATA / "gsm.pcap")
            self.assertEqual((status, err, out.count("\n")), (0, "", 2))
            self.assertIn("\n  stream 1 is ", out)
            tunnel = test_capture_walk.pcap([(0, 0, in_tunnels(1), 100)])
            status, out, err = self.run_tool(lines.main, "look", self.path("t.pcap", tunnel))
            self.assertIn("not read: 1 packets need the library dpkt\n", out)


def in_tunnels(deep, content=b""):
    """A packet on Ethernet of IP in so many of IP."""
    for _ in range(deep):
        size = (20 + len(content)).to_bytes(2, "big")
        content = b"\x45\0" + size + bytes(4) + b"\x40\x04" + bytes(10) + content
    return bytes(12) + b"\x08\0" + content


@unittest.skipUnless(HAS_DPKT, "python3-dpkt isn't installed")
class AsBaseStationsSend(InCaptures):
    def test_pauses_with_descriptors(self):
        # Descriptors of a pause are sent at its start and in each 24th period, and come back as such.
        up = self.path("2.up", (EXAMPLES / "farm" / "2.up").read_bytes())
        noise, kept = self.folder / "noise.pcap", self.folder / "kept.pcap"
        for new, words in ((noise, ()), (kept, ("--silence", "keep"))):
            self.assertEqual(self.run_tool(lines.main, "capture", up, new, *words)[0], 0)
        sent = packets_of(kept)
        self.assertLess(len(sent), len(packets_of(noise)))
        descriptors = [
            each
            for each in sent
            if code_word.kind_of(data_of_gsm(each.payload)) is FrameKind.VALID_SID
        ]
        self.assertTrue(descriptors)
        for before, each in zip(descriptors, descriptors[1:]):
            self.assertGreaterEqual((each.stamp - before.stamp) // 160, 1)
        said, line = self.pcap(kept)
        self.assertIn(f" sid {len(descriptors)} invalid 0 ", said)
        self.assertIn(" gap 0 ", said)
        # A downlink of descriptors in a row.
        down = EXAMPLES / "farm" / "wanted" / "2.down"
        self.assertEqual(
            self.run_tool(lines.main, "capture", down, kept, "--silence", "keep")[0], 0
        )
        kinds = [code_word.kind_of(data_of_gsm(each.payload)) for each in packets_of(kept)]
        self.assertIn(FrameKind.VALID_SID, kinds)

    def sent_in_pause(self, line, name):
        """The packets that a line gives with its descriptors: of each the period, and whether it is
        a descriptor."""
        new = self.folder / "kept.pcap"
        words = ("capture", self.path(name, line), new, "--silence", "keep")
        self.assertEqual(self.run_tool(lines.main, *words)[::2], (0, ""))
        return [
            (each.stamp // 160, code_word.kind_of(data_of_gsm(each.payload)) is FrameKind.VALID_SID)
            for each in packets_of(new)
        ]

    def test_each_24th_period_of_a_pause(self):
        # Ten periods of speech, a pause of 60 whose descriptors come when they are due, and speech.
        speech = [data_of_gsm(payload) for _, _, _, _, payload in fields("gsm.txt")[:10]]
        descriptor = bits_of_parameters(silence_descriptor(SILENCE))
        made = uplink_frames.UplinkFrames(code_word.Marker())
        made.take_all(speech)
        for periods in (24, 24, 12):
            made.take(descriptor)
            made.lose(periods - 1)
        made.take_all(speech)
        wanted = [(at, False) for at in range(10)]
        wanted += [(at, True) for at in (10, 34, 58)]
        wanted += [(at, False) for at in range(70, 80)]
        self.assertEqual(self.sent_in_pause(made.line(), "1.up"), wanted)

    def test_each_24th_period_of_a_downlink_s_pause(self):
        # A downlink has a descriptor in each period of a pause.
        down = (EXAMPLES / "farm" / "wanted" / "2.down").read_bytes()
        found = [read_down(each) for each in frames_of_downlink(bits_of(down))]
        pauses, before = [], None
        for at, frame in enumerate(found):
            is_pause = frame.is_speech() and frame.kind is not FrameKind.SPEECH
            before = (0 if before is None else before + 1) if is_pause else None
            pauses += [at] if is_pause and before % 24 == 0 else []
        sent = self.sent_in_pause(down, "2.down")
        self.assertTrue(pauses)
        self.assertEqual(len([at for at, is_kept in sent if is_kept]), len(pauses))


class Odd(InCaptures):
    """Captures with odd packets, of several interfaces, and long ones."""

    def ip_packets(self):
        """The times, in microseconds, and IP packets of a capture."""
        return [(round(1e6 * each.time), each.octets[14:]) for each in packets(GSM_CAPTURE)]

    def test_interfaces_with_links_and_clocks_of_their_own(self):
        # The same stream on Ethernet in microseconds, and with other ports as IP alone in nanoseconds, a second later.
        made = [section(), interface(1), interface(101, option(9, b"\x09"))]
        for time, octets in self.ip_packets():
            other = octets[:20] + b"\x12\x34" + octets[22:]
            made.append(enhanced(0, time, bytes(12) + b"\x08\0" + octets))
            made.append(enhanced(1, 1000 * (time + 1_000_000), other))
        given = self.path("two.pcapng", b"".join(made))
        status, out, err = self.run_tool(lines.main, "look", given)
        self.assertEqual((status, out.count("packets 30, gsm, from "), err), (0, 2, ""))
        self.assertTrue(out.endswith(", from 1.00 s on\n"), out)
        whole = self.pcap(DATA / "gsm.pcap")[1]
        for stream, lead in ((1, 0), (2, 50)):
            said, line = self.pcap(given, "--stream", stream, "--since", 1)
            self.assertTrue(said.endswith(f" lead {lead}\n"))
            self.assertEqual(line[40 * lead :], whole)

    def test_packets_that_cannot_be_read(self):
        good = [(0, 0, each.octets, len(each.octets)) for each in packets(GSM_CAPTURE)]
        deep = in_tunnels(3000)
        labels = bytes(12) + b"\x88\x47" + 3 * b"\0\1\0\x40"  # of MPLS, the last one missing
        odd = [(0, 0, deep, len(deep)), (0, 0, labels, 200), (0, 0, b"", 0)]
        given = self.path("odd.pcap", test_capture_walk.pcap(odd + good))
        status, out, err = self.run_tool(lines.main, "look", given)
        self.assertEqual((status, err), (0, ""))
        said, line = self.pcap(given)
        self.assertEqual(line, self.pcap(DATA / "gsm.pcap")[1])
        for text in (out, said):
            self.assertIn("not read: ", text)
        # A clock without its value is that of microseconds.
        made = section() + interface(1, option(9, b"")) + enhanced(0, 0, in_tunnels(1))
        status, out, err = self.run_tool(lines.main, "look", self.path("clock.pcapng", made))
        self.assertEqual((status, err), (0, ""))

    def test_frames_of_gsmtap(self):
        # Two sub-slots of a time slot, and LAPD between.
        head = self.ip_packets()[0][1][:20] + b"\x12\x34" + (4729).to_bytes(2, "big")
        up = (EXAMPLES / "7.up").read_bytes()
        made = []
        for place in range(0, 4000, 40):
            for sub_slot, sub_type, content in (
                (1, 4, up[place : place + 40]),
                (2, 4, 40 * b"\xff"),
                (0, 1, b"lapd"),
            ):
                tap = struct.pack(
                    ">BBBBHHIBBBB", 2, 4, 0x13, 5, 0x4000, 0, place, sub_type, 0, sub_slot, 0
                )
                content = tap + content
                octets = head + (8 + len(content)).to_bytes(2, "big") + bytes(2) + content
                octets = bytes(12) + b"\x08\0" + octets
                made.append((place // 40, 0, octets, len(octets)))
        given = self.path("tap.pcap", test_capture_walk.pcap(made))
        status, out, err = self.run_tool(lines.main, "look", given)
        self.assertEqual((status, err), (0, ""))
        self.assertEqual(out.count(", packets 100, TRAU frames of GSMTAP, from "), 2)
        self.assertIn("not read: 100 packets of GSMTAP without TRAU frames of 16 kbit/s\n", out)
        said, line = self.pcap(given, "--stream", 1)
        self.assertEqual((said[:26], line), ("pcap trau frames 100; not ", up[:4000]))

    def test_what_look_and_pcap_say_of_payloads_with_flags(self):
        packets_of_flags = []
        for each in packets(GSM_CAPTURE):
            head, frame = each.octets[:54], each.octets[54:]
            length = (8 + 12 + 34).to_bytes(2, "big")
            octets = head[:38] + length + head[40:] + b"\x01" + frame
            packets_of_flags.append((0, 0, octets, len(octets)))
        given = self.path("flags.pcap", test_capture_walk.pcap(packets_of_flags))
        why = "34 octets, the second of which begins with 1101: a frame of GSM after an octet of flags, which isn't read here"
        status, out, err = self.run_tool(lines.main, "look", given)
        self.assertIn(f", gsm, of which 30 have no whole frames, but {why}, from ", out)
        self.assert_refused(lines.main, ["pcap", given, self.folder / "line"], why)

    def streamed(self, count, step):
        """A capture of so many packets of GSM, a number and so many samples apart."""
        head = self.ip_packets()[0][1][:28]
        frame = self.ip_packets()[0][1][40:]
        made = []
        for number in range(count):
            rtp = struct.pack(">BBHII", 0x80, 3, number & 0xFFFF, step * number & 0xFFFFFFFF, 7)
            octets = bytes(12) + b"\x08\0" + head + rtp + frame
            made.append((step * number // 8000, 0, octets, len(octets)))
        return test_capture_walk.pcap(made)

    def limited(self, octets, *words):
        """A tool's end with so many octets of memory of its own."""
        return subprocess.run(
            [sys.executable, TOOLS / "lines.py", *map(str, words)],
            capture_output=True,
            text=True,
            preexec_fn=lambda: resource.setrlimit(resource.RLIMIT_DATA, (octets, octets)),
        )

    def test_a_long_capture_takes_little_memory(self):
        given = self.path("long.pcap", self.streamed(60_000, 160))
        ended = self.limited(60_000_000, "pcap", given, self.folder / "line")
        self.assertEqual((ended.returncode, ended.stderr), (0, ""))
        self.assertIn(" packets 60000 late 0 doubled 0 others 0 frames 60000 ", ended.stdout)
        self.assertEqual((self.folder / "line").stat().st_size, 40 * 60_000)

    def test_gaps_of_hours(self):
        hour = 3600 * 8000
        given = self.path("hours.pcap", self.streamed(8, hour))
        ended = self.limited(60_000_000, "pcap", given, self.folder / "line")
        self.assertEqual((ended.returncode, ended.stderr), (0, ""))
        self.assertEqual((self.folder / "line").stat().st_size, 40 * (7 * 3600 * 50 + 1))
        for count, step, part in (
            (
                2,
                hour + 8000,
                "is 3601 s after the packet before; at most 3600 s are taken; --long-gaps",
            ),
            (
                26,
                hour,
                "the time stamps leave out 90000 s, and at most 86400 s are taken; --long-gaps",
            ),
        ):
            given = self.path("days.pcap", self.streamed(count, step))
            self.assert_refused(lines.main, ["pcap", given, self.folder / "line"], part)
        self.pcap(self.path("long.pcap", self.streamed(2, hour + 8000)), "--long-gaps")

    def test_what_was_packed_much(self):
        given = self.path("zeros.gz", gzip.compress(bytes(200_000_000), 9))
        ended = self.limited(60_000_000, "look", given)
        said = f"{given}: packed by gzip: idle: each octet is 0x00\n"
        self.assertEqual((ended.returncode, ended.stdout, ended.stderr), (0, said, ""))
        given = self.path("empty.gz", 50_000 * gzip.compress(b"") + gzip.compress(b"text\n"))
        ended = self.limited(60_000_000, "look", given)
        self.assertEqual(ended.stdout, f"{given}: packed by gzip: a text\n")

    def test_padding_and_rtcp_as_in_the_gateway(self):
        frame = bytes(33)
        for first, second, content, reason in (
            (0xA0, 3, frame + b"\0", "not-rtp"),
            (0xA0, 3, frame + b"\xff", "not-rtp"),
            (0x90, 3, b"\0\0\xff\xff", "not-rtp"),
            (0x80, 64, frame, "rtcp"),
            (0x80, 0x80 | 95, frame, "rtcp"),
        ):
            octets = struct.pack(">BBHII", first, second, 0, 0, 7) + content
            with self.assertRaises(gateway_rtp.PacketRefused) as refused:
                gateway_rtp.parse(octets)
            self.assertEqual(str(refused.exception), reason)
            size = (8 + len(octets)).to_bytes(2, "big")
            head = self.ip_packets()[0][1][:24]
            packet = head + size + bytes(2) + octets
            with self.assertRaises(udp_layers.Unread) as unread:
                rtp_walk.rtp_of(packet, 101)
            self.assertEqual(str(unread.exception), rtp_walk.NO_RTP)


@unittest.skipUnless(HAS_DPKT, "python3-dpkt isn't installed")
class Captures(InCaptures):
    def test_packets_are_those_that_tshark_reads(self):
        for kind, name in CAPTURES.items():
            packets = packets_of(DATA / name)
            self.assertEqual([packet[:5] for packet in packets], fields(f"{kind}.txt"))

    def test_gsm(self):
        frames = b"".join(row[4] for row in fields("gsm.txt"))
        said, line = self.pcap(DATA / "gsm.pcap")
        self.assertEqual(
            said,
            "pcap gsm packets 30 late 0 doubled 0 others 0 frames 30 sid 0 invalid 0 lost 0 gap 0 empty 0 paused 0 lead 0\n",
        )
        self.run_tool(lines.main, "uplink", self.path("7.gsm", frames), self.folder / "7.up")
        self.assertEqual(line, self.path("7.up").read_bytes())

    def test_pcma_and_pcmu(self):
        octets = b"".join(row[4] for row in fields("pcma.txt"))
        said, line = self.pcap(DATA / "pcma.pcapng")
        self.assertEqual(
            said,
            "pcap pcma packets 17 late 0 doubled 0 others 0 octets 4800 lost 0 gap 0 lead 0 padded 0\n",
        )
        self.assertEqual(line, octets)
        # Both are of one sound, so their samples are near to one another: a step of the loudest segment is 2048.
        _, other = self.pcap(DATA / "pcmu.pcap")
        far = max(
            abs(samples_by_octet(Law.A)[a] - samples_by_octet(Law.A)[b])
            for a, b in zip(line, other)
        )
        self.assertLessEqual(far, 2048)

    def test_pcmu_of_a_mulaw_line(self):
        octets = b"".join(row[4] for row in fields("pcmu.txt"))
        _, line = self.pcap(DATA / "pcmu.pcap", "--law", "mulaw")
        self.assertEqual(line[: len(octets)], octets)
        self.assertEqual(set(line[len(octets) :]), {0xFF} if len(octets) % 160 else set())
        self.assertEqual(
            self.pcap(DATA / "pcmu.pcap")[1][: len(octets)],
            octets.translate(Law.MU.table_to(Law.A)),
        )
        pcm, new = self.path("7.pcm", line), self.path("7.pcap")
        self.assertEqual(
            self.run_tool(lines.main, "capture", pcm, new, "--law", "mulaw")[::2], (0, "")
        )
        said, back = self.pcap(new, "--law", "mulaw")
        self.assertTrue(said.startswith("pcap pcmu "))
        self.assertEqual(back, line)

    # Captures that a program changed on the way

    def packets(self, kind="gsm"):
        """The packets of a capture, with their times."""
        reader = captures.library("pcap").UniversalReader(
            io.BytesIO((DATA / CAPTURES[kind]).read_bytes())
        )
        return reader.datalink(), [octets for _, octets in reader]

    def changed(self, change, kind="gsm", words=()):
        """What is made of a capture whose list of packets was changed."""
        link, packets = self.packets(kind)
        file = io.BytesIO()
        writer = captures.library("pcap").Writer(file, linktype=link)
        for place, octets in enumerate(change(packets)):
            writer.writepkt(octets, ts=place / 50)
        return self.pcap(self.path("changed.pcap", file.getvalue()), *words)

    def test_lost(self):
        said, line = self.changed(lambda packets: packets[:7] + packets[9:20] + packets[21:])
        self.assertEqual(
            said,
            "pcap gsm packets 27 late 0 doubled 0 others 0 frames 27 sid 0 invalid 0 lost 3 gap 0 empty 0 paused 0 lead 0\n",
        )
        self.assertEqual(
            [place for place, kind in enumerate(kinds_of(line)) if kind == "bad"], [7, 8, 20]
        )
        said, line = self.changed(lambda packets: packets[:4] + packets[6:], "pcma")
        whole = b"".join(row[4] for row in fields("pcma.txt"))
        place, length = self.places("pcma", 3), self.places("pcma", 5) - self.places("pcma", 3)
        self.assertIn(f"lost {length} gap 0", said)
        self.assertEqual(
            line, whole[:place] + bytes([Law.A.idle()]) * length + whole[place + length :]
        )

    def places(self, kind, number):
        """The octet at which a packet begins."""
        return sum(len(row[4]) for row in fields(f"{kind}.txt")[:number])

    def test_late_and_doubled(self):
        whole = self.pcap(DATA / "gsm.pcap")[1]
        said, line = self.changed(
            lambda packets: packets[:5] + [packets[7], packets[5], packets[6]] + packets[8:]
        )
        self.assertEqual(
            said,
            "pcap gsm packets 30 late 2 doubled 0 others 0 frames 30 sid 0 invalid 0 lost 0 gap 0 empty 0 paused 0 lead 0\n",
        )
        self.assertEqual(line, whole)
        said, line = self.changed(lambda packets: packets[:5] + packets[3:5] + packets[5:])
        self.assertEqual(
            said,
            "pcap gsm packets 32 late 0 doubled 2 others 0 frames 30 sid 0 invalid 0 lost 0 gap 0 empty 0 paused 0 lead 0\n",
        )
        self.assertEqual(line, whole)
        # The first packet of all comes late.
        said, line = self.changed(lambda packets: [packets[1], packets[0]] + packets[2:])
        self.assertIn("late 1 doubled 0", said)
        self.assertEqual(line, whole)

    def test_numbers_that_begin_anew(self):
        whole = self.pcap(DATA / "gsm.pcap")[1]
        first = fields("gsm.txt")[0]

        def moved(rtp):
            rtp.seq = (rtp.seq - first[2] + 65520) % 65536
            rtp.ts = (rtp.ts - first[3] + 4294966000) % 4294967296

        said, line = self.changed(lambda packets: [rewritten(octets, moved) for octets in packets])
        self.assertEqual(
            said,
            "pcap gsm packets 30 late 0 doubled 0 others 0 frames 30 sid 0 invalid 0 lost 0 gap 0 empty 0 paused 0 lead 0\n",
        )
        self.assertEqual(line, whole)

    def test_pauses_and_other_kinds(self):
        def later(rtp):
            rtp.ts = (rtp.ts + 5 * 160) % 4294967296

        said, line = self.changed(
            lambda packets: packets[:10] + [rewritten(octets, later) for octets in packets[10:]]
        )
        self.assertEqual(
            said,
            "pcap gsm packets 30 late 0 doubled 0 others 0 frames 30 sid 0 invalid 0 lost 0 gap 5 empty 0 paused 0 lead 0\n",
        )
        self.assertEqual(kinds_of(line)[9:16], ["good", *5 * ["bad"], "good"])

        def digit(rtp):
            rtp.pt, rtp.data = 101, bytes(4)

        said, line = self.changed(
            lambda packets: packets[:10]
            + [rewritten(octets, digit) for octets in packets[10:12]]
            + packets[12:]
        )
        self.assertEqual(
            said,
            "pcap gsm packets 30 late 0 doubled 0 others 2 frames 28 sid 0 invalid 0 lost 0 gap 2 empty 0 paused 0 lead 0\n",
        )
        self.assertEqual(kinds_of(line)[9:13], ["good", "bad", "bad", "good"])

    def test_time_stamps_that_go_back(self):
        def earlier(rtp):
            rtp.ts = (rtp.ts - 15 * 160) % 4294967296

        # Packet 10 and those after it begin 15 frames earlier: the first 15 of these 20 frames overlap with what came before.
        said, line = self.changed(
            lambda packets: packets[:10] + [rewritten(octets, earlier) for octets in packets[10:]]
        )
        self.assertEqual(
            said,
            "pcap gsm packets 30 late 0 doubled 0 others 0 frames 15 sid 0 invalid 0 lost 0 gap 0 empty 0 paused 0 lead 0 over 15\n",
        )
        self.assertEqual(len(line), 15 * 40)

        def later(rtp):
            rtp.ts = (rtp.ts + 3601 * 8000) % 4294967296

        link, packets = self.packets()
        file = io.BytesIO()
        writer = captures.library("pcap").Writer(file, linktype=link)
        for time, octets in zip(
            (0, 0.02, 0.04, 0.06, 0.08, 3601.1), [*packets[:5], rewritten(packets[5], later)]
        ):
            writer.writepkt(octets, ts=time)
        words = ["pcap", self.path("jump.pcap", file.getvalue()), self.folder / "7.up"]
        self.assert_refused(
            lines.main,
            words,
            "of packet 6 is 3601 s after the packet before; at most 3600 s are taken",
        )

    def test_silence_descriptors(self):
        # The 11th frame is a descriptor, the 12th a damaged one, and then nothing is sent for five periods.
        descriptor = silence_descriptor(SILENCE)
        whole = bits_of_parameters(descriptor)
        damaged = (
            whole[: code_word.CODE_WORD_BITS[0]] + "1111" + whole[code_word.CODE_WORD_BITS[0] + 4 :]
        )

        def put(data, steps):
            def change(rtp):
                rtp.ts = (rtp.ts + steps * 160) % 4294967296
                rtp.data = gsm_of_data(data) if data else rtp.data

            return change

        def change(packets):
            later = [rewritten(octets, put(None, 5)) for octets in packets[12:]]
            return [
                *packets[:10],
                rewritten(packets[10], put(whole, 0)),
                rewritten(packets[11], put(damaged, 0)),
                *later,
            ]

        said, line = self.changed(change)
        self.assertEqual(
            said,
            "pcap gsm packets 30 late 0 doubled 0 others 0 frames 30 sid 1 invalid 1 lost 0 gap 0 empty 0 paused 5 lead 0\n",
        )
        self.assertEqual(
            kinds_of(line)[9:19], ["good", "sid", "invalid", *5 * ["bad"], "good", "good"]
        )
        said, line = self.changed(change, words=("--sid", "keep"))
        self.assertIn("frames 30 sid 0 invalid 0 lost 0 gap 5 empty 0 paused 0 ", said)
        self.assertEqual(kinds_of(line)[9:19], [*3 * ["good"], *5 * ["bad"], "good", "good"])

    def test_captures_that_were_cut(self):
        whole = self.pcap(DATA / "gsm.pcap")[1]
        octets = (DATA / "gsm.pcap").read_bytes()
        cut = self.path("cut.pcap", octets[:-15])
        self.assert_refused(
            lines.main,
            ["pcap", cut, self.path("new")],
            "ends within",
        )
        said, line = self.pcap(cut, "--partial")
        self.assertEqual(
            said,
            "pcap gsm packets 29 late 0 doubled 0 others 0 frames 29 sid 0 invalid 0 lost 0 gap 0 empty 0 paused 0 lead 0 cut 1 wrong 0\n",
        )
        self.assertEqual(line, whole[:-40])
        for name, octets in ((name, (DATA / name).read_bytes()) for name in CAPTURES.values()):
            for missing in (1, 20, 60, 80, 95, 103):
                cut = self.path("cut", octets[:-missing])
                refused = self.run_tool(lines.main, "pcap", cut, self.path("new"))
                self.assertIn(
                    "ends within" if missing < 103 or name != "gsm.pcap" else "",
                    refused[2],
                )
                line = self.pcap(cut, "--partial")[1].rstrip(b"\xd5")
                whole = self.pcap(DATA / name)[1]
                self.assertEqual(line, whole[:-40] if name == "gsm.pcap" else whole[: len(line)])
                self.assertGreater(len(line), len(whole) - 500)
        # Each third packet is cut in its payload, as by a capture with a limit on their octets: these are lost.
        said, line = self.changed(
            lambda packets: [
                each[: -9 if at % 3 == 1 else None] for at, each in enumerate(packets)
            ],
            words=("--partial",),
        )
        self.assertIn(
            "packets 20 late 0 doubled 0 others 0 frames 20 sid 0 invalid 0 lost 10 gap 0 empty 0 paused 0 lead 0 cut 10 wrong 0",
            said,
        )
        self.assertEqual(kinds_of(line)[:5], ["good", "bad", "good", "good", "bad"])

    def test_lines_that_keep_step(self):
        # Two streams of one capture, the second of which begins 0.12 s after the first: ffmpeg sends a packet of RTCP before.
        file = io.BytesIO()
        writer = captures.library("pcap").Writer(file)
        for start, kind in ((7.0, "gsm"), (7.101, "pcmu")):
            for place, octets in enumerate(self.packets(kind)[1]):
                writer.writepkt(octets, ts=start + place / 50)
        both = self.path("both.pcap", file.getvalue())
        gsm, pcmu = self.pcap(DATA / "gsm.pcap")[1], self.pcap(DATA / "pcmu.pcap")[1]
        self.assertEqual(self.pcap(both, "--stream", "1", "--since", "1")[1], gsm)
        said, line = self.pcap(both, "--stream", "2", "--since", "1")
        self.assertIn(" lead 6 padded 0\n", said)
        self.assertEqual(line, bytes([Law.A.idle()]) * 960 + pcmu)
        words = ["pcap", both, self.folder / "line", "--stream", "1", "--since", "2"]
        self.assert_refused(lines.main, words, "the stream begins 0.12 s before that of --since")

    def test_heads_with_extension_and_padding(self):
        whole = self.pcap(DATA / "gsm.pcap")[1]

        def wider(rtp):
            rtp.x = rtp.p = 1
            rtp.data = bytes([0xBE, 0xDE, 0, 1, 1, 2, 3, 4]) + bytes(rtp.data) + bytes([0, 0, 3])

        self.assertEqual(
            self.changed(lambda packets: [rewritten(octets, wider) for octets in packets])[1], whole
        )

    # Lines out

    def capture(self, *words):
        status, out, err = self.run_tool(lines.main, "capture", *words)
        self.assertEqual((status, err), (0, ""))
        return out

    def test_lines_there_and_back(self):
        said = self.capture(
            EXAMPLES / "7.up", self.folder / "7.pcap", "--also", EXAMPLES / "farm" / "1.pcm"
        )
        self.assertEqual(said, "capture streams 2 packets 469\n")
        status, _, err = self.run_tool(
            lines.main, "pcap", self.path("7.pcap"), self.folder / "line"
        )
        self.assertEqual(status, 2)
        self.assertIn(
            "has 2 streams, one of which --stream names: 1 is 10.0.0.1:5006 to 10.0.1.1:5004 ssrc 0x00000001",
            err,
        )
        self.assertEqual(
            self.pcap(self.path("7.pcap"), "--stream", "1")[1], (EXAMPLES / "7.up").read_bytes()
        )
        self.assertEqual(
            self.pcap(self.path("7.pcap"), "--stream", "2")[1],
            (EXAMPLES / "farm" / "1.pcm").read_bytes(),
        )

    def test_what_each_frame_gives(self):
        folder = EXAMPLES / "farm"
        for call in (1, 2, 3, 4):
            octets = (folder / f"{call}.up").read_bytes()
            counts = Counter(each.payload is None for each in captures.sounds_of_uplink(octets))
            self.capture(folder / f"{call}.up", self.folder / "c.pcap")
            said, line = self.pcap(self.path("c.pcap"))
            self.assertIn(
                f"packets {counts[False]} late 0 doubled 0 others 0 frames {counts[False]} ", said
            )
            self.assertLessEqual(kinds_of(line).count("bad"), counts[True])
            self.capture(folder / "wanted" / f"{call}.down", self.folder / "d.pcap")
            self.run_tool(
                lines.main, "gsm", folder / "wanted" / f"{call}.down", self.folder / "d.gsm"
            )
            frames = self.path("d.gsm").read_bytes()
            packets = packets_of(self.path("d.pcap"))
            self.assertEqual(b"".join(packet.payload for packet in packets), frames)

    def of_link(self, link, change):
        """A capture with another kind of link: the IP packets of one, each after the octets that begin its packet."""
        file = io.BytesIO()
        writer = captures.library("pcap").Writer(file, linktype=link)
        for place, octets in enumerate(self.packets()[1]):
            writer.writepkt(change(octets[14:]), ts=place / 50)
        return self.path("changed.pcap", file.getvalue())

    def test_kinds_of_links(self):
        whole = self.pcap(DATA / "gsm.pcap")[1]
        macs = bytes(12)
        version_6 = b"\x60\0\0\0" + b"{}" + b"\x11\x40" + bytes(15) + b"\1" + bytes(15) + b"\2"
        for link, begin in (
            (1, macs + b"\x81\0\0\5\x08\0"),  # a virtual LAN
            (1, macs + b"\x88\xa8\0\7\x81\0\0\5\x08\0"),  # one in another
            (1, macs + b"\x88\x64\x11\0\0\1\0\0\0\x21"),  # PPPoE
            (1, macs + b"\x88\x47\0\1\1\x40"),  # MPLS
            (0, b"\2\0\0\0"),
            (9, b"\xff\3\0\x21"),
            (12, b""),
            (101, b""),
            (108, b"\0\0\0\2"),
            (113, b"\0\0\0\1\0\6\1\2\3\4\5\6\0\0\x08\0"),
            (228, b""),
        ):
            with self.subTest(link=link, begin=begin):
                self.assertEqual(
                    self.pcap(self.of_link(link, lambda octets: begin + octets))[1], whole
                )
        for link in (101, 229):
            given = self.of_link(
                link,
                lambda octets: version_6.replace(b"{}", (len(octets) - 20).to_bytes(2, "big"))
                + octets[20:],
            )
            self.assertEqual(self.pcap(given)[1], whole)
        self.assert_refused(
            lines.main,
            ["pcap", self.of_link(147, bytes), self.folder / "line"],
            "a kind of link, 147, that isn't known here",
        )

    def test_fragments(self):
        # The first 24 octets of a datagram, as a packet of which more follows.
        given = self.of_link(
            101, lambda octets: octets[:2] + b"\0\x2c" + octets[4:6] + b"\x20\0" + octets[8:44]
        )
        said = "packet 1 is a fragment, and its parts aren't joined here; --partial leaves such packets out"
        self.assert_refused(lines.main, ["pcap", given, self.folder / "line"], said)

    def test_other_types(self):
        def other(rtp):
            rtp.pt = 97

        said = (
            "has no RTP stream with GSM, PCMA or PCMU (payload types 3, 8 and 0); its streams have the payload types 97 (33 octets that begin"
            " with 1101: GSM, which --type 97=gsm takes)\n"
        )
        given = self.of_link(
            101, lambda octets: rewritten(bytes(12) + b"\x08\0" + octets, other)[14:]
        )
        self.assert_refused(lines.main, ["pcap", given, self.folder / "line"], said)

    def test_many_lines(self):
        # More than the last octet of an address tells apart.
        up = self.path("7.up", (EXAMPLES / "7.up").read_bytes()[:40])
        more = [word for _ in range(299) for word in ("--also", up)]
        status, out, err = self.run_tool(lines.main, "capture", up, self.path("new.pcap"), *more)
        self.assertEqual((status, out, err), (0, "capture streams 300 packets 300\n", ""))
        found = captures.streams_of("new", self.path("new.pcap").read_bytes()).by_key.values()
        self.assertEqual(len({(each.flow.source, each.flow.target) for each in found}), 300)

    def cut_off(self, name, octets):
        """A capture whose packets have at most so many octets, as by a snaplen."""
        content, made, place = (DATA / name).read_bytes(), b"", 0
        if name.endswith(".pcap"):
            made, place = content[:24], 24
            while place < len(content):
                head, (captured, _) = content[place : place + 8], struct.unpack_from(
                    "<II", content, place + 8
                )
                packet = content[place + 16 : place + 16 + captured]
                made += head + struct.pack("<II", len(packet[:octets]), captured) + packet[:octets]
                place += 16 + captured
        while place < len(content):
            kind, size = struct.unpack_from("<II", content, place)
            block = content[place : place + size]
            if kind == 6:
                captured = struct.unpack_from("<I", content, place + 20)[0]
                packet = block[28 : 28 + captured][:octets]
                head = (
                    block[8:20]
                    + struct.pack("<II", len(packet), captured)
                    + packet
                    + bytes(-len(packet) % 4)
                )
                block = (
                    struct.pack("<II", kind, len(head) + 12)
                    + head
                    + struct.pack("<I", len(head) + 12)
                )
            made += block
            place += size
        return self.path(f"cut-{name}", made)

    def test_packets_that_were_cut_off(self):
        for name in ("gsm.pcap", "pcma.pcapng"):
            packets = len(
                list(
                    captures.library("pcap").UniversalReader(io.BytesIO((DATA / name).read_bytes()))
                )
            )
            cut = f"{packets} of {packets} packets are cut off (the captured length is below the length on the wire)"
            none = f"has no RTP stream with GSM, PCMA or PCMU (payload types 3, 8 and 0); {cut}\n"
            for octets, part, more in (
                (30, none, []),
                (42, none, []),
                (60, f" wasn't captured whole; {cut}; --partial leaves such packets out\n", []),
                (60, none, ["--partial"]),
            ):
                given = self.cut_off(name, octets)
                self.assert_refused(lines.main, ["pcap", given, self.folder / "line", *more], part)
                self.assertEqual(
                    self.run_tool(lines.main, "look", given)[1].splitlines()[1:],
                    [f"  no stream of RTP; {cut}"],
                )
            whole = self.cut_off(name, 1000)
            self.assertEqual(whole.read_bytes(), (DATA / name).read_bytes())

    def test_refused(self):
        def refused(part, *words):
            self.assert_refused(lines.main, words, part)

        line = self.folder / "line"
        refused(
            "is an uplink, its first frame at bit 0, and no capture in pcap or pcapng",
            "pcap",
            EXAMPLES / "7.up",
            line,
        )
        other = self.path("other", b"snoop" + bytes(60))
        refused(
            "is a snoop capture, and no capture in pcap or pcapng; editcap -F pcap ",
            "pcap",
            other,
            line,
        )
        refused(
            "isn't a capture: it begins as none does\n",
            "pcap",
            self.path("bytes", bytes(range(256))),
            line,
        )
        refused("isn't a capture", "pcap", self.path("empty", b""), line)
        refused(
            "has no stream 2: 1 is 127.0.0.1:", "pcap", DATA / "gsm.pcap", line, "--stream", "2"
        )
        octets = (DATA / "gsm.pcap").read_bytes()
        refused(
            "ends within",
            "pcap",
            self.path("cut.pcap", octets[:30]),
            line,
        )
        refused("has no RTP stream", "pcap", self.path("none.pcap", octets[:24]), line)
        refused("the name of a line ends with", "capture", DATA / "speech.gsm", line)
        refused("gives no speech", "capture", self.path("9.up", bytes(400)), line)
        self.path("link.pcap").symlink_to(self.path("8.up", bytes(40)))
        refused(
            "is an input",
            "capture",
            EXAMPLES / "7.up",
            self.path("link.pcap"),
            "--also",
            self.path("8.up"),
        )

    def test_names_of_other_lines(self):
        for capture, name, said in (
            (
                "gsm.pcap",
                "1.pcm",
                "is A-law or mu-law by its name, and what would be written is an uplink",
            ),
            (
                "gsm.pcap",
                "1.down",
                "is a downlink by its name, and what would be written is an uplink",
            ),
            (
                "pcma.pcapng",
                "1.up",
                "is an uplink by its name, and what would be written is A-law or mu-law",
            ),
        ):
            self.assert_refused(
                lines.main, ["pcap", DATA / capture, self.path(name)], f"{name}: {said}"
            )


if __name__ == "__main__":
    unittest.main()
