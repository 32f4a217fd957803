"""Tests of captures.py, rtp_streams.py and uplink_frames.py with recordings of senders that lose frames, pause and begin anew. They need the
library dpkt, and are skipped without it. tshark 4.0 recorded on the loopback what these sent:

- osmo.pcap: osmo_sender.c, which calls the RTP sender of libosmotrau 1.3.0, as Osmocom's base stations do, by the script osmo.txt: speech of
  examples/7.up with descriptors made of it; sources.pcap: two of its runs, one after the other.
- gstreamer.pcap: GStreamer 1.22, two seconds of speech: gsmenc ! identity drop-probability=0.1 ! rtpgsmpay pt=98 ! identity sync=true
  drop-probability=0.06 ! udpsink; restart.pcap: two runs of gsmenc ! rtpgsmpay ssrc=305419896 ! udpsink from one port, with 0.8 s of speech each.
- ffmpeg.pcap: ffmpeg 5.1, a second of speech as A-law in packets of 160 octets, of which the filter
  aselect='not(between(t,0.25,0.45)+between(t,0.7,0.75))' left out two stretches; editcap then removed packets 7, 20 and 21.

gstreamer.txt and ffmpeg.txt have what tshark reads of each packet."""

import gzip
import io
import random
import unittest

from support import DATA, InFolder

from trau.recordings import captures
from trau.recordings import code_word
from trau.recordings import lines
from trau.recordings import packet_rows, rtp_packets, rtp_streams
from trau.recordings import uplink_frames
from capture_files import HAS_DPKT, InCaptures, fields, rewritten, kinds_of
from trau.rules.frame import bits_of, data_of, read_up
from trau.rules.g711 import Law
from trau.rules.parameters import SILENCE, bits_of_parameters, data_of_gsm, gsm_of_data
from trau.rules.search import search
from trau.recordings.damages import silence_descriptor


def tafs_of(line):
    """The frames of an uplink with TAF 1."""
    frames = (line[place : place + 40] for place in range(0, len(line), 40))
    read = [read_up(bits_of(frame)) for frame in frames]
    return [at for at, frame in enumerate(read) if frame.is_speech() and frame.taf]


def script():
    """What the sender of osmo.pcap sent in each period: a payload, none of an empty packet, or None where it skipped a frame."""
    rows = (DATA / "osmo.txt").read_text().split("\n")[:-1]
    return [
        None if row == "skip" else b"" if row == "empty" else bytes.fromhex(row.split(" ")[-1])
        for row in rows
    ]


def is_descriptor(payload):
    """Whether a payload has a silence descriptor."""
    return bool(payload) and code_word.errors_of(data_of_gsm(payload)) == 0


@unittest.skipUnless(HAS_DPKT, "python3-dpkt isn't installed")
class Senders(InCaptures):
    def packets(self, name):
        """The packets of a capture, with their times."""
        return list(
            captures.library("pcap").UniversalReader(io.BytesIO((DATA / name).read_bytes()))
        )

    def written(self, packets):
        """A capture of these packets and times."""
        file = io.BytesIO()
        writer = captures.library("pcap").Writer(file)
        for time, octets in packets:
            writer.writepkt(octets, ts=time)
        return self.path("changed.pcap", file.getvalue())

    # A base station of Osmocom

    def wanted_kinds(self, sent):
        """The kind of each frame: what was sent, and unusable ones for all else."""
        return [
            "bad" if not payload else "sid" if is_descriptor(payload) else "good"
            for payload in sent
        ]

    def test_frames_that_a_base_station_lost(self):
        sent = script()
        said, line = self.pcap(DATA / "osmo.pcap")
        # Gaps of 1, 3, 12, 1 and 2 frames in speech; two and four empty packets; 10, 23, 47, 5 and 3 frames left out in pauses.
        self.assertEqual(
            said,
            "pcap gsm packets 92 late 0 doubled 0 others 0 frames 86 sid 5 invalid 0 lost 0 gap 19 empty 6 paused 88 lead 0\n",
        )
        self.assertEqual(kinds_of(line), self.wanted_kinds(sent))
        datas = [data_of(each.frame) for each in search(bits_of(line))]
        came = [at for at, payload in enumerate(sent) if payload]
        self.assertEqual([gsm_of_data(datas[at]) for at in came], [sent[at] for at in came])

    def test_taf_where_a_descriptor_is_due(self):
        sent = script()
        wanted, since = [], None
        for at, payload in enumerate(sent):
            since = None if payload and not is_descriptor(payload) or since is None else since + 1
            if since is not None and since % 24 == 0:
                wanted.append(at)
            since = 0 if is_descriptor(payload) else since
        _, line = self.pcap(DATA / "osmo.pcap")
        self.assertEqual(tafs_of(line), wanted)
        # After 10 frames, after 24 and after twice 24 of the long pause a descriptor came.
        first = sent.index(next(filter(is_descriptor, sent)))
        self.assertEqual(wanted, [first + 11 + 24, first + 11 + 48, first + 11 + 72])

    def test_idle_gaps(self):
        sent = script()
        said, line = self.pcap(DATA / "osmo.pcap", "--gap", "idle")
        self.assertIn(" lost 0 gap 19 empty 6 paused 88 lead 0\n", said)
        pauses, wanted = False, []
        for payload, kind in zip(sent, self.wanted_kinds(sent)):
            pauses = kind == "sid" or pauses and kind != "good"
            wanted.append("idle" if payload is None and not pauses else kind)
        self.assertEqual(kinds_of(line), wanted)

    def test_a_pause_whose_descriptor_is_lost(self):
        # The first descriptor is the 48th packet: what follows up to the next one is lost speech.
        packets = self.packets("osmo.pcap")
        said, line = self.pcap(self.written(packets[:47] + packets[48:]))
        self.assertIn(" sid 4 invalid 0 lost 1 gap 29 empty 6 paused 78 lead 0\n", said)
        wanted = self.wanted_kinds(script())
        wanted[wanted.index("sid")] = "bad"
        self.assertEqual(kinds_of(line), wanted)

    def test_idle_frames_there_and_back(self):
        datas = [data_of_gsm(payload) for payload in script()[:12]]
        made = uplink_frames.UplinkFrames(code_word.Marker())
        made.take_all(datas[:5])
        made.idle(4)
        made.take_all([*datas[5:8], None, None, *datas[8:]])
        up = self.path("7.up", made.line())
        self.assertEqual(
            self.run_tool(lines.main, "capture", up, self.path("7.pcap"))[::2], (0, "")
        )
        said, line = self.pcap(self.path("7.pcap"), "--gap", "idle")
        self.assertIn(" lost 2 gap 4 empty 0 paused 0 ", said)
        self.assertEqual(line, made.line())

    def test_random_streams(self):
        # What arrived of what was sent in each period, in any order near its own, gives the line from the first to the last that arrived.
        speech = [payload for payload in script() if payload and not is_descriptor(payload)]
        descriptor = next(filter(is_descriptor, script()))
        tafs = 0
        for seed in range(40):
            source = random.Random(seed)
            kinds = source.choices(
                ["speech", "sid", "skip", "empty"],
                [source.choice((0.1, 8)), 0.4, source.randint(0, 9), 1],
                k=120,
            )
            first = (source.randrange(1 << 16), source.randrange(1 << 32))
            arrived, numbers = {}, 0
            for at, kind in enumerate(kinds):
                if kind == "skip":
                    continue
                payload = {"speech": source.choice(speech), "sid": descriptor, "empty": b""}[kind]
                if source.random() < 0.9:
                    sound = captures.Sound(first[1] + 160 * at, payload)
                    arrived[at] = kind, captures.datagram_of(1, 3, first[0] + numbers, False, sound)
                numbers += 1
            order = sorted(arrived, key=lambda at: at + source.uniform(0, 3))
            packets = [(at / 50, arrived[place][1]) for at, place in zip(sorted(arrived), order)]
            packets += [packets[place] for place in source.sample(range(len(packets)), 3)]
            _, line = self.pcap(self.written(sorted(packets)))
            came = [arrived.get(at, ("skip",))[0] for at in range(min(arrived), max(arrived) + 1)]
            self.assertEqual(
                kinds_of(line),
                [{"speech": "good", "sid": "sid"}.get(kind, "bad") for kind in came],
                seed,
            )
            wanted, since = [], None
            for at, kind in enumerate(came):
                since = None if kind == "speech" or since is None else since + 1
                wanted += [at] if since and since % 24 == 0 else []
                since = 0 if kind == "sid" else since
            self.assertEqual(tafs_of(line), wanted, seed)
            tafs += len(wanted)
        self.assertGreater(tafs, 20)

    # GStreamer and ffmpeg

    def test_gstreamer(self):
        # Frames were dropped before the payloader, which leaves gaps of time stamps, and packets behind it, which leaves numbers out.
        rows = fields("gstreamer.txt")
        words = ["pcap", DATA / "gstreamer.pcap", self.path("line")]
        self.assert_refused(
            lines.main,
            words,
            "payload types 98 (33 octets that begin with 1101: GSM, which --type 98=gsm takes)",
        )
        said, line = self.pcap(DATA / "gstreamer.pcap", "--type", "98=gsm")
        self.assertEqual(
            said,
            "pcap gsm packets 87 late 0 doubled 0 others 0 frames 87 sid 0 invalid 0 lost 3 gap 10 empty 0 paused 0 lead 0\n",
        )
        came = {(stamp - rows[0][3]) // 160: payload for _, _, _, stamp, payload in rows}
        self.assertEqual(kinds_of(line), ["good" if at in came else "bad" for at in range(100)])
        for at, payload in came.items():
            self.assertEqual(gsm_of_data(data_of(bits_of(line[40 * at : 40 * at + 40]))), payload)
        self.assertEqual(rows[-1][2] - rows[0][2] + 1 - len(rows), 3)

    def test_ffmpeg(self):
        # A filter left out two stretches of sound; three packets were lost.
        rows = fields("ffmpeg.txt")
        said, line = self.pcap(DATA / "ffmpeg.pcap")
        self.assertEqual(
            said,
            "pcap pcma packets 35 late 0 doubled 0 others 0 octets 5472 lost 480 gap 2048 lead 0 padded 0\n",
        )
        wanted = bytearray([Law.A.idle()]) * 8000
        for _, _, _, stamp, payload in rows:
            place = stamp - rows[0][3]
            wanted[place : place + len(payload)] = payload
        self.assertEqual(line, wanted)

    def test_a_dynamic_type_of_octets(self):
        def dynamic(rtp):
            rtp.pt = 111

        changed = self.written(
            [(time, rewritten(octets, dynamic)) for time, octets in self.packets("ffmpeg.pcap")]
        )
        whole = self.pcap(DATA / "ffmpeg.pcap")[1]
        self.assertEqual(self.pcap(changed, "--type", "111=pcma", "--type", "98=gsm")[1], whole)
        for word in ("111", "111=amr", "128=gsm", "x=gsm", "=gsm"):
            self.assert_refused(
                lines.main,
                ["pcap", changed, self.path("line"), "--type", word],
                "argument --type: ",
            )

    # Senders that begin anew

    def test_a_restart(self):
        given = DATA / "restart.pcap"
        said = (
            "restart.pcap: the time stamp of packet 41 is 62336 s after that of packet 40, which came 0.58 s before it: the sender began anew;"
            " --restart goes on by the times of the capture\n"
        )
        self.assert_refused(lines.main, ["pcap", given, self.path("line")], said)
        said, line = self.pcap(given, "--restart")
        # 40 frames, 0.58 s from the last of them to the first of the other 40.
        self.assertEqual(
            said,
            "pcap gsm packets 80 late 0 doubled 0 others 0 frames 80 sid 0 invalid 0 lost 0 gap 28 empty 0 paused 0 lead 0 restarts 1\n",
        )
        self.assertEqual(kinds_of(line), 40 * ["good"] + 28 * ["bad"] + 40 * ["good"])
        self.assertIn(" restarts 0\n", self.pcap(DATA / "osmo.pcap", "--restart")[0])

    def test_a_number_that_jumps_back(self):
        # Without the times, numbers that are lower would put the later packets before the others.
        def lower(rtp):
            rtp.seq = (rtp.seq - 9000) % 65536
            rtp.ts = (rtp.ts - 90 * 8000) % 4294967296

        packets = self.packets("gsm.pcap")
        changed = [
            (place / 50, rewritten(octets, lower) if place >= 20 else octets)
            for place, (_, octets) in enumerate(packets)
        ]
        self.assertEqual(
            self.pcap(self.written(changed), "--restart")[1], self.pcap(DATA / "gsm.pcap")[1]
        )
        self.assert_refused(
            lines.main,
            ["pcap", self.path("changed.pcap"), self.path("line")],
            "of packet 21 is -90 s after that of packet 20",
        )

    def test_a_sender_that_was_held_up_has_not_begun_anew(self):
        packets = self.packets("gsm.pcap")
        late = [
            (place / 50 + 60 * (place >= 20), octets) for place, (_, octets) in enumerate(packets)
        ]
        self.assertEqual(self.pcap(self.written(late))[1], self.pcap(DATA / "gsm.pcap")[1])

    def test_two_sources_of_a_call(self):
        given = DATA / "sources.pcap"
        self.assert_refused(
            lines.main,
            ["pcap", given, self.path("line")],
            "has 2 streams, one of which --stream names: 1 is ",
        )
        one, other = (self.pcap(given, "--stream", number)[1] for number in "12")
        said, line = self.pcap(given, "--stream", "1,2")
        self.assertEqual(
            said,
            "pcap gsm packets 39 late 0 doubled 0 others 0 frames 39 sid 3 invalid 0 lost 0 gap 6 empty 0 paused 0 lead 0\n",
        )
        self.assertEqual(line, one + 6 * uplink_frames.LOST + other)
        self.assert_refused(
            lines.main, ["pcap", given, self.path("line"), "--stream", "2,1"], "stream 1 begins 0.9"
        )
        self.assert_refused(
            lines.main, ["pcap", given, self.path("line"), "--stream", "1,1"], "stream 1 begins 0.5"
        )
        for word in ("1,", "0", "1,x"):
            self.assert_refused(
                lines.main,
                ["pcap", given, self.path("line"), "--stream", word],
                "argument --stream: ",
            )

    # Packets that have no whole frames

    def with_payload(self, place, payload):
        """A capture of GSM in which a packet has another payload."""

        def change(rtp):
            rtp.data = payload

        packets = self.packets("gsm.pcap")
        packets[place] = (packets[place][0], rewritten(packets[place][1], change))
        return self.written(packets)

    def test_wrong_payloads(self):
        frame = fields("gsm.txt")[7][4]
        for payload, said in (
            (frame[:20], "20 octets"),
            (frame[:1], "1 octet"),
            (
                bytes([0xC0]) + frame[1:31],
                "31 octets that begin with 1100: enhanced full rate, which trau doesn't decode",
            ),
            (
                b"\xe2" + frame,
                "34 octets, the second of which begins with 1101: a frame of GSM after an octet of flags, which isn't read here",
            ),
        ):
            given = self.with_payload(7, payload)
            words = ["pcap", given, self.path("line")]
            self.assert_refused(
                lines.main,
                words,
                f"packet 8 has no whole frames of GSM, but {said}; --partial counts such packets as lost\n",
            )
            out, line = self.pcap(given, "--partial")
            self.assertIn(
                "packets 29 late 0 doubled 0 others 0 frames 29 sid 0 invalid 0 lost 1 gap 0 ", out
            )
            self.assertIn(" cut 0 wrong 1\n", out)
            self.assertEqual(kinds_of(line), 7 * ["good"] + ["bad"] + 22 * ["good"])
            self.path("line").unlink()

    def test_streams_of_other_codecs(self):
        def changed(payload_of, kind):
            def change(rtp):
                rtp.data, rtp.pt = payload_of(bytes(rtp.data)), kind

            return self.written(
                [(time, rewritten(octets, change)) for time, octets in self.packets("gsm.pcap")]
            )

        given = changed(lambda frame: bytes([0xC0]) + frame[1:31], 97)
        said = (
            "97 (31 octets that begin with 1100: enhanced full rate, which trau doesn't decode)\n"
        )
        self.assert_refused(
            lines.main,
            ["pcap", given, self.path("line")],
            f"its streams have the payload types {said}",
        )
        # A stream that has no frame of GSM is refused with --partial too.
        for words in ([], ["--partial"]):
            said = "packet 1 has no whole frames of GSM, but 31 octets that begin with 1100: enhanced full rate, which trau doesn't decode\n"
            self.assert_refused(
                lines.main, ["pcap", given, self.path("line"), "--type", "97=gsm", *words], said
            )
        given = changed(lambda frame: b"\xe0" + frame, 3)
        said = "after an octet of flags, which isn't read here\n"
        self.assert_refused(lines.main, ["pcap", given, self.path("line")], said)

    # What look says

    def look(self, name):
        status, out, err = self.run_tool(lines.main, "look", name)
        self.assertEqual((status, err), (0, ""))
        return out.splitlines()[1:]

    def test_streams_that_look_names(self):
        self.assertEqual(
            self.look(DATA / "sources.pcap"),
            [
                "  stream 1 is 127.0.0.1:16384 to 127.0.0.1:5004 ssrc 0xc0cdfecf, packets 25, gsm, from 0.00 s on",
                "  stream 2 is 127.0.0.1:16384 to 127.0.0.1:5004 ssrc 0x0975f692, packets 14, gsm, from 0.64 s on",
            ],
        )
        self.assertEqual(
            self.look(DATA / "gstreamer.pcap"),
            [
                "  not read: 127.0.0.1:50607 to 127.0.0.1:5004 ssrc 0x6d8a4ae2, packets 87, payload types 98 (33 octets that begin with 1101: GSM,"
                " which --type 98=gsm takes)"
            ],
        )
        self.assertEqual(self.look(self.written([])), ["  no stream of RTP"])
        packed = self.path("sources.pcap.gz", gzip.compress((DATA / "sources.pcap").read_bytes()))
        self.assertEqual(self.look(packed), self.look(DATA / "sources.pcap"))
        octets = (DATA / "gsm.pcap").read_bytes()
        given = self.path("link.pcap", octets[:20] + (147).to_bytes(4, "little") + octets[24:])
        self.assertEqual(
            self.look(given),
            [
                "  no stream of RTP",
                "  not read: 30 packets of a kind of link, 147, that isn't known here",
            ],
        )
        found = self.look(self.path("cut.pcap", octets[:-15]))
        self.assertEqual((len(found), found[1]), (2, "  it ends within packet 30"))


class Jumps(unittest.TestCase):
    def packet(self, stamp, time):
        packet = rtp_packets.Packet(1, 3, 0, stamp % (1 << 32), b"", time)
        return next(packet_rows.rows_of([packet]))

    def test_what_a_jump_is(self):
        first = self.packet(0, 0.0)
        for stamp, time, wanted in (
            (160, 0.02, False),
            (160, 60.0, False),  # held up
            (60 * 8000, 60.0, False),  # a pause
            (4 * 8000, 0.02, False),
            (60 * 8000, 0.02, True),
            (-60 * 8000, 0.02, True),
            (600 * 8000, 60.0, True),
        ):
            self.assertEqual(
                rtp_streams.has_jumped(first, self.packet(stamp, time)), wanted, (stamp, time)
            )


class Files(InFolder):
    def test_zeros_for_lost_frames(self):
        frames = (DATA / "speech.gsm").read_bytes()
        descriptor = gsm_of_data(bits_of_parameters(silence_descriptor(SILENCE)))
        given = self.path(
            "7.gsm",
            frames[: 33 * 10] + 66 * b"\0" + descriptor + 33 * 30 * b"\0" + frames[33 * 10 :],
        )
        words = ["uplink", given, self.path("7.up")]
        self.assert_refused(
            lines.main,
            words,
            "no frame of libgsm begins at octet 330: its first four bits aren't 1101; --zeros lost takes",
        )
        status, out, err = self.run_tool(lines.main, *words, "--zeros", "lost")
        self.assertEqual((status, out, err), (0, "uplink frames 73 sid 1 invalid 0 lost 32\n", ""))
        line = self.path("7.up").read_bytes()
        self.assertEqual(
            kinds_of(line), 10 * ["good"] + 2 * ["bad"] + ["sid"] + 30 * ["bad"] + 30 * ["good"]
        )
        self.assertEqual(tafs_of(line), [12 + 24])
        out = self.run_tool(lines.main, "look", given)[1]
        self.assertIn(": 73 frames of libgsm; zeros stand for lost ones; lines.py uplink ", out)
        self.assertTrue(out.endswith(" NEW.up --zeros lost\n"))

    def test_zeros_alone(self):
        words = ["uplink", self.path("7.gsm", 330 * b"\0"), self.path("7.up"), "--zeros", "lost"]
        self.assert_refused(lines.main, words, "7.gsm: has only zeros\n")
        self.path("7.gsm", 33 * b"\0" + (DATA / "speech.gsm").read_bytes()[:10])
        self.assert_refused(lines.main, words, "43 octets are no frames of libgsm")

    def test_frames_of_a_pause(self):
        line = uplink_frames.UplinkFrames(code_word.Marker())
        line.lose(50)
        line.take(bits_of_parameters(silence_descriptor(SILENCE)))
        line.lose(50)
        line.idle(30)
        line.lose(30)
        self.assertEqual(
            kinds_of(line.line()),
            50 * ["bad"] + ["sid"] + 50 * ["bad"] + 30 * ["idle"] + 30 * ["bad"],
        )
        self.assertEqual(tafs_of(line.line()), [50 + 24, 50 + 48])


if __name__ == "__main__":
    unittest.main()
