"""Tests of lines.py: frames of libgsm, WAV and A-law to lines and back, damaged uplinks, and what is refused."""

import os
import struct
import subprocess
import sys
import unittest
from collections import Counter
from unittest import mock

import support
from support import CODEC, DATA, EXAMPLES, InFolder, frames_of_downlink

from trau.recordings import lines, wav_files
from trau.rules.frame import FrameKind, UpFrame, bits_of, data_of, frame_of, octets_of, read_up
from trau.rules.g711 import Law, samples_by_octet
from trau.rules.noise import RandomSource, comfort_noise
from trau.rules.parameters import (
    SILENCE,
    bits_of_parameters,
    data_of_gsm,
    data_of_wav_block,
    parameters_of_bits,
)
from trau.rules.search import search
from trau.rules.slots import octets_turned
from trau.recordings.damages import silence_descriptor


def yields(octets):
    """The yields of an uplink, as places with words."""
    return [(each.place, each.kind().value) for each in search(bits_of(octets))]


def frames_of(octets):
    """The frames of an aligned uplink."""
    bits = bits_of(octets)
    return [read_up(bits[place : place + 320]) for place in range(0, len(bits), 320)]


def downlink(frames, sp="1"):
    """The bits of a downlink of speech frames with these data bits."""
    return "".join(frame_of("11100" + "000000" + "1111" + sp + "11111", data) for data in frames)


def data_of_uplink(octets):
    return [data_of(each.frame) for each in search(bits_of(octets))]


class Laws(unittest.TestCase):
    def test_other_law(self):
        there, back = Law.A.table_to(Law.MU), Law.MU.table_to(Law.A)
        self.assertEqual(bytes(range(256)), Law.MU.table_to(Law.MU))
        self.assertEqual(
            (there[0xD5], back[0xFF], back[0x7F], back[0x80]), (0xFE, 0xD5, 0xD5, 0xAA)
        )


class Frames(InFolder):
    def lines(self, *words):
        status, out, err = self.run_tool(lines.main, *words)
        self.assertEqual((status, err), (0, ""))
        return out

    def test_uplink_of_frames_by_toast(self):
        # toast made the frames of the first 40 periods of speech whose uplink is examples/7.up.
        said = self.lines("uplink", DATA / "speech.gsm", self.path("7.up"))
        self.assertEqual(said, "uplink frames 40 sid 0 invalid 0\n")
        self.assertEqual(self.path("7.up").read_bytes(), (EXAMPLES / "7.up").read_bytes()[:1600])

    def test_uplink_of_a_wav_file_of_gsm_frames(self):
        # sox wrote the same samples (those of speech.gsm) to both files: sox.gsm has a frame in 33 octets, sox.wav two in 65.
        for name in ("sox.wav", "sox.gsm"):
            self.assertEqual(
                self.lines("uplink", DATA / name, self.path(f"{name}.up")),
                "uplink frames 40 sid 0 invalid 0\n",
            )
        self.assertEqual(self.path("sox.wav.up").read_bytes(), self.path("sox.gsm.up").read_bytes())

    def test_a_wav_file_of_an_odd_number_of_blocks(self):
        block = (DATA / "sox.wav").read_bytes()[60:125]
        for data in (block, block + b"\0", 3 * block + b"\0"):
            said = self.lines(
                "uplink", self.path("x.wav", wav(tag=49, bits=0, data=data)), self.path("x.up")
            )
            self.assertEqual(said, f"uplink frames {2 * (len(data) // 65)} sid 0 invalid 0\n")
        other = self.path("x.wav", wav(tag=49, bits=0, data=block + b"x"))
        self.assert_refused(lines.main, ["uplink", other, self.path("y.up")], "66 octets of GSM")

    def test_every_bit_of_both_frames_of_a_block(self):
        for place in range(520):
            block = bytearray(65)
            block[place // 8] = 1 << place % 8
            bits = "0" * place + "1" + "0" * (519 - place)
            self.assertEqual(data_of_wav_block(bytes(block)), (bits[:260], bits[260:]))

    def test_an_uplink_with_other_frames_is_an_uplink(self):
        line = bits_of((EXAMPLES / "7.up").read_bytes()[:800])
        self.path("7.up", octets_of("11111" + line + "111"))
        self.assert_refused(
            lines.main,
            ["gsm", self.path("7.up"), self.path("new")],
            "is an uplink; lines.py listen ",
        )

    def test_dtxd(self):
        self.lines("uplink", DATA / "speech.gsm", self.path("7.up"), "--dtxd", "1")
        self.assertEqual(
            {frame._replace(data="") for frame in frames_of(self.path("7.up").read_bytes())},
            {UpFrame(FrameKind.SPEECH, dtxd=True, data="")},
        )

    def test_frames_of_a_downlink_at_any_bit(self):
        frames = data_of_uplink((EXAMPLES / "7.up").read_bytes()[:1600])
        for shift in (0, 1, 5, 63, 319, 320):
            bits = "1" * shift + downlink(frames)
            bits += "1" * (-len(bits) % 8)
            self.path("7.down", octets_of(bits))
            said = self.lines("gsm", self.path("7.down"), self.path("7.gsm"))
            outside = shift + -(shift + 40 * 320) % 8
            self.assertEqual(
                said, f"gsm frames 40 found speech 40 silence 0 idle 0 other 0 outside {outside}\n"
            )
            self.assertEqual(self.path("7.gsm").read_bytes(), (DATA / "speech.gsm").read_bytes())

    def test_frames_around_shifts_of_the_timing(self):
        # A frame without its time bits, and one with ones behind it, as the downlink's shifts of -2 and 39 octets leave them.
        frames = data_of_uplink((EXAMPLES / "7.up").read_bytes()[:1600])
        each = [downlink([data]) for data in frames]
        each[7] = each[7][:316]
        each[20] += 78 * "1"
        bits = "".join(each)
        self.path("7.down", octets_of(bits + "1" * (-len(bits) % 8)))
        self.lines("gsm", self.path("7.down"), self.path("7.gsm"))
        self.assertEqual(self.path("7.gsm").read_bytes(), (DATA / "speech.gsm").read_bytes())

    def test_downlinks_of_a_run(self):
        # The downlinks of the worked run, with DTX, shifts and bridges: each made frame is found, and each is a frame or
        # the tail of one that the line's end cut.
        found = {}
        for call in (1, 2, 3, 4):
            said = self.lines(
                "gsm",
                EXAMPLES / "farm" / "wanted" / f"{call}.down",
                self.path("x.gsm"),
                "--idle",
                "quiet",
            )
            words = said.split()
            found[call] = dict(zip(words[4::2], map(int, words[5::2])))
            self.assertEqual(len(self.path("x.gsm").read_bytes()), 33 * int(words[2]))
            self.assertEqual(
                int(words[2]), sum(found[call][kind] for kind in ("speech", "silence", "idle"))
            )
        report = (EXAMPLES / "farm" / "wanted" / "report.txt").read_text().splitlines()
        for line in report:
            words = line.split()
            if words[0] == "counts":
                frames = sum(
                    found[int(words[1])][kind] for kind in ("speech", "silence", "idle", "other")
                )
                self.assertIn(int(words[-1]) - frames, (0, 1, 2))

    def test_silence_descriptors(self):
        descriptor = bits_of_parameters(silence_descriptor(SILENCE))
        speech = data_of_gsm((DATA / "speech.gsm").read_bytes()[:33])
        self.path("7.down", octets_of(downlink([speech]) + downlink([descriptor, descriptor], "0")))
        given, new = self.path("7.down"), self.path("7.gsm")
        made = {}
        for treatment in ("noise", "quiet", "keep", "skip"):
            said = self.lines("gsm", given, new, "--silence", treatment)
            frames = 1 if treatment == "skip" else 3
            self.assertEqual(
                said, f"gsm frames {frames} found speech 1 silence 2 idle 0 other 0 outside 0\n"
            )
            made[treatment] = [
                data_of_gsm(new.read_bytes()[at : at + 33]) for at in range(0, 33 * frames, 33)
            ]
            self.assertEqual(made[treatment][0], speech)
        self.assertEqual(made["keep"][1:], [descriptor, descriptor])
        self.assertEqual(made["quiet"][1:], 2 * [bits_of_parameters(SILENCE)])
        first, second = map(parameters_of_bits, made["noise"][1:])
        self.assertNotEqual(first, second)
        self.assertEqual(first.larc, SILENCE.larc)
        self.assertEqual([block.nc for block in first.blocks], [40, 120, 40, 120])
        self.assertEqual({block.xmaxc for block in first.blocks}, {0})
        self.assertLessEqual(
            {pulse for block in first.blocks for pulse in block.xmc}, set(range(1, 7))
        )
        self.lines("gsm", given, new)
        self.assertEqual(data_of_gsm(new.read_bytes()[33:66]), made["noise"][1])

    def test_noise_is_that_of_a_run(self):
        # In the worked run call 4 has a silence descriptor in its first period and a pause after it, and from its period 2 on
        # its frames go out on the downlink of call 2, with which it is bridged.
        uplink = (EXAMPLES / "farm" / "4.up").read_bytes()
        self.assertEqual([word for _, word in yields(uplink)][:23], ["sid"] + 22 * ["bad"])
        descriptor = parameters_of_bits(data_of_uplink(uplink)[0])
        source = RandomSource(4)
        made = [bits_of_parameters(comfort_noise(descriptor, source, 0)) for _ in range(22)]
        bits = bits_of((EXAMPLES / "farm" / "wanted" / "2.down").read_bytes())
        sent = [data_of(frame) for frame in frames_of_downlink(bits)]
        first = sent.index(made[2])
        self.assertEqual(sent[first : first + 20], made[2:])

    def test_idle_frames(self):
        idle = frame_of("01110" + "000000" + "1111" + "1" + "11111", 260 * "1")
        speech = downlink(data_of_uplink((EXAMPLES / "7.up").read_bytes()[:40]))
        self.path("7.down", octets_of(idle + speech + idle))
        said = self.lines("gsm", self.path("7.down"), self.path("7.gsm"))
        self.assertEqual(said, "gsm frames 1 found speech 1 silence 0 idle 2 other 0 outside 0\n")
        said = self.lines("gsm", self.path("7.down"), self.path("7.gsm"), "--idle", "quiet")
        self.assertEqual(said, "gsm frames 3 found speech 1 silence 0 idle 2 other 0 outside 0\n")

    def test_refused(self):
        speech = (DATA / "speech.gsm").read_bytes()
        new = self.path("new")
        for content, part in (
            (b"", "0 octets are no frames of libgsm"),
            (b"RIFF" + bytes(29), "begins at octet 0"),
            (
                wav(data=bytes(66)),
                "is a WAV file of samples and not of GSM frames; sox makes frames",
            ),
            (wav(tag=49, bits=0, data=bytes(67)), "67 octets of GSM frames"),
            (wav(tag=49, bits=0, data=b""), "0 octets of GSM frames"),
            (wav(tag=49, bits=0, rate=11025, data=bytes(65)), "has 11025 Hz"),
            (speech[:-1], "1319 octets are no frames"),
            (speech[:33] + b"\x00" + speech[34:], "begins at octet 33"),
        ):
            self.assert_refused(lines.main, ["uplink", self.path("bad.gsm", content), new], part)
        self.assert_refused(
            lines.main, ["uplink", self.path("gone.gsm"), new], "gone.gsm: No such file"
        )
        self.assert_refused(lines.main, ["uplink", self.folder, new], "Is a directory")
        self.assert_refused(
            lines.main, ["uplink", DATA / "speech.gsm", new, "--dtxd", "2"], "--dtxd"
        )
        self.assert_refused(
            lines.main, ["uplink", DATA / "speech.gsm", self.path("no") / "new"], "No such file"
        )
        self.assert_refused(
            lines.main,
            ["gsm", self.path("7.up", (EXAMPLES / "7.up").read_bytes()), new],
            "and trau relay a downlink, if no frame is lost",
        )
        for content in (b"", b"\xff" * 4000, bytes(4000)):
            self.assert_refused(
                lines.main, ["gsm", self.path("bad.down", content), new], "no frame of a downlink"
            )
        self.assert_refused(
            lines.main, ["gsm", DATA / "speech.gsm", new, "--silence", "loud"], "--silence"
        )


def wav(tag=1, channels=1, rate=8000, bits=16, data=b"\0\0", size=None, before=b"", form=b""):
    """A WAV file."""
    fmt = (
        struct.pack(
            "<HHIIHH", tag, channels, rate, rate * channels * bits // 8, channels * bits // 8, bits
        )
        + form
    )
    body = b"WAVE" + before + struct.pack("<4sI", b"fmt ", len(fmt)) + fmt
    body += struct.pack("<4sI", b"data", len(data) if size is None else size) + data
    return struct.pack("<4sI", b"RIFF", len(body)) + body


class Sound(InFolder):
    def lines(self, *words):
        status, out, err = self.run_tool(lines.main, *words)
        self.assertEqual((status, err), (0, ""))
        return out

    def test_every_octet_to_wav_and_back(self):
        line = bytes(range(256)) + bytes(64)
        out, sound, pcm = self.path("7.out", line), self.path("7.wav"), self.path("8.pcm")
        for option, octets in (((), 44 + 640), (("--alaw",), 58 + 320)):
            self.assertEqual(self.lines("sound", out, sound, *option), "sound samples 320\n")
            self.assertEqual(len(sound.read_bytes()), octets)
            self.assertEqual(self.lines("pcm", sound, pcm), "pcm periods 2 padded 0\n")
            self.assertEqual(pcm.read_bytes(), line)
        raw = self.path("7.al")
        self.assertEqual(self.lines("sound", out, raw, "--raw"), "sound samples 320\n")
        self.assertEqual(raw.read_bytes(), line)
        self.assertEqual(self.lines("pcm", raw, pcm, "--raw"), "pcm periods 2 padded 0\n")
        self.assertEqual(pcm.read_bytes(), line)

    def test_every_octet_of_mulaw(self):
        line = bytes(range(256)) + 64 * b"\xff"
        out, sound, pcm = self.path("7.out", line), self.path("7.wav"), self.path("8.pcm")
        self.lines("sound", out, sound, "--law", "mulaw")
        samples = struct.unpack_from("<320h", sound.read_bytes(), 44)
        self.assertEqual(list(samples), [samples_by_octet(Law.MU)[octet] for octet in line])
        self.lines("pcm", sound, pcm, "--law", "mulaw")
        self.assertEqual(pcm.read_bytes(), line.replace(b"\x7f", b"\xff"))
        for option, made in (("--mulaw", sound), ("--raw", self.path("7.ul"))):
            self.lines("sound", out, made, "--law", "mulaw", option)
            raw = [option] if option == "--raw" else []
            self.lines("pcm", made, pcm, "--law", "mulaw", *raw)
            self.assertEqual(pcm.read_bytes(), line)

    def test_wav_of_the_other_law(self):
        line = bytes(range(256)) + 64 * b"\xff"
        out, sound, pcm = self.path("7.out", line), self.path("7.wav"), self.path("8.pcm")
        self.lines("sound", out, sound, "--law", "mulaw", "--mulaw")
        self.assertEqual((len(sound.read_bytes()), sound.read_bytes()[20]), (58 + 320, 7))
        self.lines("pcm", sound, pcm)
        self.assertEqual(pcm.read_bytes(), line.translate(Law.MU.table_to(Law.A)))
        self.lines("sound", out, sound, "--law", "mulaw", "--alaw")
        self.assertEqual((sound.read_bytes()[20], sound.read_bytes()[58:]), (6, pcm.read_bytes()))
        self.lines("pcm", sound, pcm, "--law", "mulaw")
        self.assertEqual(
            pcm.read_bytes(), sound.read_bytes()[58:].translate(Law.A.table_to(Law.MU))
        )

    def test_wav_of_mulaw_by_sox(self):
        # Each octet stays as it is on a line of mu-law; the tone has half of the full scale.
        content = (DATA / "mulaw.wav").read_bytes()
        said = self.lines("pcm", DATA / "mulaw.wav", self.path("7.pcm"), "--law", "mulaw")
        self.assertEqual(said, "pcm periods 2 padded 70\n")
        self.assertEqual(self.path("7.pcm").read_bytes(), content[-250:] + 70 * b"\xff")
        loudest = max(abs(samples_by_octet(Law.MU)[octet]) for octet in content[-250:])
        self.assertAlmostEqual(loudest / 32768, 0.5, delta=0.02)

    def test_the_last_period_of_mulaw(self):
        said = self.lines(
            "pcm", self.path("7.raw", b"\x00"), self.path("7.pcm"), "--raw", "--law", "mulaw"
        )
        self.assertEqual(said, "pcm periods 1 padded 159\n")
        self.assertEqual(self.path("7.pcm").read_bytes(), b"\x00" + 159 * b"\xff")

    def test_every_sample(self):
        data = struct.pack("<65536h", *range(-32768, 32768))
        self.path("7.wav", wav(data=data))
        self.assertEqual(
            self.lines("pcm", self.path("7.wav"), self.path("7.pcm")), "pcm periods 410 padded 64\n"
        )
        wanted = (CODEC / "alaw_compress.bin").read_bytes()
        self.assertEqual(self.path("7.pcm").read_bytes(), wanted + 64 * b"\xd5")

    def test_an_odd_number_of_octets_is_padded_in_wav(self):
        self.lines("sound", self.path("7.out", b"\xd5\x55\x2a"), self.path("7.wav"), "--alaw")
        content = self.path("7.wav").read_bytes()
        self.assertEqual(len(content) % 2, 0)
        self.assertEqual(struct.unpack_from("<I", content, 4)[0], len(content) - 8)
        self.lines("pcm", self.path("7.wav"), self.path("7.pcm"))
        self.assertEqual(self.path("7.pcm").read_bytes(), b"\xd5\x55\x2a" + 157 * b"\xd5")

    def test_kinds_of_wav(self):
        samples = struct.pack("<4h", 0, -1, 16, 32767)
        other = struct.pack("<4sI", b"LIST", 3) + b"abc\0"
        extensible = struct.pack("<HHI", 22, 16, 4) + struct.pack("<H", 1) + b"\0" * 14
        for content in (
            wav(data=samples),
            wav(data=samples, before=other),
            wav(data=samples, size=0xFFFFFFFF),
            wav(data=samples, size=0x7FFFF000),
            wav(data=samples, tag=0xFFFE, form=extensible),
            wav(data=samples) + other,
        ):
            self.lines("pcm", self.path("7.wav", content), self.path("7.pcm"))
            self.assertEqual(self.path("7.pcm").read_bytes()[:4], b"\xd5\x55\xd4\xaa")

    def test_refused(self):
        new = self.path("new")
        for content, part in (
            (wav(rate=44100), "has 44100 Hz, channels 1"),
            (wav(channels=2), "-r 8000 -c 1 -b 16 -e signed-integer"),
            (wav(bits=8), "bits 8, format 1; needed is 8000 Hz mono"),
            (wav(tag=7, bits=16), "bits 16, format 7"),
            (wav(tag=3, bits=32), "format 3"),
            (wav(data=b"abc"), "3 octets of data"),
            (wav(data=b""), "holds no samples"),
            (wav(size=9), "ends too early, in its part 'data'"),
            (wav()[:40], "no format with data"),
            (b"RIFX" + wav()[4:], "is a WAV file of big-endian samples, and no plain WAV file"),
            (b"", "isn't a WAV file"),
            (8000 * b"\xd5", "raw octets of a law are taken with --raw"),
        ):
            self.assert_refused(lines.main, ["pcm", self.path("bad.wav", content), new], part)
        self.assert_refused(
            lines.main, ["pcm", self.path("empty", b""), new, "--raw"], "holds no samples"
        )
        self.assert_refused(lines.main, ["sound", self.path("empty"), new], "holds no octets")
        self.assert_refused(
            lines.main,
            ["sound", self.path("7.out", b"\xd5"), new, "--raw", "--alaw"],
            "not allowed",
        )
        self.assert_refused(
            lines.main, ["pcm", DATA / "sox.wav", new], "has GSM frames and no samples"
        )

    def test_what_is_no_alaw(self):
        new = self.path("new")
        frames = (EXAMPLES / "7.up").read_bytes()[:400]
        down = (EXAMPLES / "farm" / "wanted" / "2.down").read_bytes()
        for words in (["sound"], ["sound", "--raw"], ["pcm", "--raw"]):
            command, *options = words
            for name, content, part in (
                (
                    "x.wav",
                    wav(),
                    "is a WAV file, 8000 Hz, channels 1, bits 16 linear, and no A-law; lines.py pcm ",
                ),
                ("1.up", frames, "is a line of frames by its name, and no A-law"),
                (
                    "1.up",
                    bytes(160),
                    "by its name, and no A-law"
                    + (
                        f"; lines.py listen {self.folder}/1.up NEW.wav"
                        if command == "sound"
                        else "\n"
                    ),
                ),
                ("other", frames, "is an uplink, its first frame at bit 0, and no A-law; trau run"),
                (
                    "other",
                    b"\xff\xff" + down,
                    "is a downlink, its first frame at bit 336, and no A-law; lines.py listen",
                ),
            ):
                self.assert_refused(
                    lines.main, [command, self.path(name, content), new, *options], part
                )
        # A-law of speech, and zeros, which are A-law too, are taken.
        for content in ((EXAMPLES / "farm" / "wanted" / "1.out").read_bytes(), bytes(320)):
            self.lines("sound", self.path("1.out", content), new)

    def test_sound_of_the_other_law(self):
        line = (CODEC.parent / "farms" / "mulaw" / "1.out").read_bytes()
        out, alaw, new = (
            self.path("5.out", line),
            self.path("6.out", line.translate(Law.MU.table_to(Law.A))),
            self.path("new"),
        )
        for words, command in (
            (["sound", out, new], f"sound {out} NEW.wav"),
            (["sound", out, new, "--raw"], f"sound {out} NEW.wav"),
            (["capture", out, new], f"capture {out} NEW.pcap"),
            (["capture", EXAMPLES / "7.up", new, "--also", out], f"capture {out} NEW.pcap"),
            (["pcm", out, new, "--raw"], f"pcm {out} NEW.pcm --raw"),
        ):
            said = f"5.out: is mu-law, as it seems, and no A-law; lines.py {command} --law mulaw; --trust takes it as it is\n"
            self.assert_refused(lines.main, words, said)
        said = f"6.out: is A-law, as it seems, and no mu-law; lines.py sound {alaw} NEW.wav; --trust takes it as it is\n"
        self.assert_refused(lines.main, ["sound", alaw, new, "--law", "mulaw"], said)
        self.assert_refused(
            lines.main,
            ["sound", self.path("7.out", octets_turned(line)), new],
            "in the other order, and no A-law; ",
        )
        for more in (["--trust"], ["--law", "mulaw"]):
            self.assertEqual(self.lines("sound", out, new, *more), "sound samples 24000\n")

    def test_sound_of_the_recorded_lines(self):
        farms = CODEC.parent / "farms"
        for out in (*farms.glob("[ch]*/*.out"), *(EXAMPLES / "farm" / "wanted").glob("*.out")):
            self.lines("sound", out, self.path("new"))

    def test_idle(self):
        self.assertEqual(self.lines("idle", "3", self.path("7.pcm")), "idle periods 3\n")
        self.assertEqual(self.path("7.pcm").read_bytes(), 480 * b"\xd5")
        self.lines("idle", "3", self.path("7.pcm"), "--law", "mulaw")
        self.assertEqual(self.path("7.pcm").read_bytes(), 480 * b"\xff")
        self.assert_refused(
            lines.main,
            ["idle", "3", self.path("8.pcm"), "--law", "ulaw"],
            "'ulaw' isn't alaw or mulaw",
        )
        for word in ("0", "-1", "x", "1000001", "٣"):
            self.assert_refused(lines.main, ["idle", word, self.path("8.pcm")], "idle: ")


class Damage(InFolder):
    def setUp(self):
        super().setUp()
        self.line = (EXAMPLES / "7.up").read_bytes()[:4000]
        self.up = self.path("7.up", self.line)

    def damaged(self, *words):
        """What the tool said, and the line that it made."""
        status, out, err = self.run_tool(lines.main, "damage", self.up, self.path("8.up"), *words)
        self.assertEqual((status, err), (0, ""))
        return out, self.path("8.up").read_bytes()

    def test_nothing(self):
        said, line = self.damaged()
        self.assertEqual(said, "damage frames 100 sid 0 drop 0 zero 0 align 0 slip 0\n")
        self.assertEqual(line, self.line)

    def test_drop(self):
        said, line = self.damaged("--drop", "3,10-12,every:40")
        self.assertEqual(said, "damage frames 100 sid 0 drop 6 zero 0 align 0 slip 0\n")
        bad = [place // 320 for place, word in yields(line) if word == "bad"]
        self.assertEqual(bad, [3, 10, 11, 12, 39, 79])
        self.assertEqual(data_of_uplink(line), data_of_uplink(self.line))

    def test_zero(self):
        said, line = self.damaged("--zero", "5-6,20-22,99")
        self.assertEqual(said, "damage frames 100 sid 0 drop 0 zero 6 align 0 slip 0\n")
        missed = [place // 320 for place, word in yields(line) if word == "miss"]
        self.assertEqual(missed, [5, 6, 20, 21, 22, 99])
        self.assertEqual(line[5 * 40 : 7 * 40], bytes(80))

    def test_pause(self):
        said, line = self.damaged("--sid", "10-80,90")
        self.assertEqual(said, "damage frames 100 sid 72 drop 0 zero 0 align 0 slip 0\n")
        found = yields(line)
        descriptors = [10, 23, 47, 71, 90]
        self.assertEqual([place // 320 for place, word in found if word == "sid"], descriptors)
        self.assertEqual(Counter(word for _, word in found), {"good": 28, "sid": 5, "bad": 67})
        frames = frames_of(line)
        self.assertEqual([number for number, frame in enumerate(frames) if frame.taf], [23, 47, 71])
        for number in descriptors:
            speech = parameters_of_bits(data_of_uplink(self.line)[number])
            noise = parameters_of_bits(data_of_uplink(line)[number])
            self.assertEqual(noise.larc, speech.larc)
            self.assertEqual(
                {block.xmaxc for block in noise.blocks},
                {min(block.xmaxc for block in speech.blocks)},
            )
            self.assertEqual({block.xmc for block in noise.blocks}, {13 * (0,)})

    def test_one_upon_another(self):
        # A descriptor that is lost, and a lost frame in whose place there are zeros.
        _, line = self.damaged("--sid", "10-30", "--drop", "23,50", "--zero", "50")
        found = dict(yields(line))
        self.assertEqual(
            [found[320 * number] for number in (10, 22, 23, 50)], ["sid", "bad", "bad", "miss"]
        )

    def test_align(self):
        said, line = self.damaged("--align", "7:39", "--align", "9:63", "--drop", "9")
        self.assertEqual(said, "damage frames 100 sid 0 drop 1 zero 0 align 2 slip 0\n")
        fields = {
            number: frame.field for number, frame in enumerate(frames_of(line)) if frame.field
        }
        self.assertEqual(fields, {7: 39, 9: 63})

    def test_slips(self):
        for bits in (1, 7, 8, 319, 320, -1, -3, -8, -320):
            said, line = self.damaged("--slip", f"50:{bits}")
            self.assertEqual(said, "damage frames 100 sid 0 drop 0 zero 0 align 0 slip 1\n")
            self.assertEqual(len(line), 4040 if bits > 0 else 3960 if bits == -320 else 4000)
            found = yields(line)
            place = 50 * 320 + bits
            if abs(bits) == 320:
                self.assertEqual(
                    [word for _, word in found].count("good"), 100 + min(bits, 0) // 320
                )
                continue
            # Three misses after the frames before the slip, and then the fourth frame behind it, or the fifth.
            good = [at for at, word in found if word == "good"]
            missed = [at // 320 for at, word in found if word == "miss"]
            self.assertEqual(missed, [50, 51, 52] if bits > -16 else [49, 50, 51])
            later = [at for at in good if at >= 16000]
            self.assertEqual(
                later, list(range(place + (3 if bits > 0 else 4) * 320, place + 50 * 320, 320))
            )

    def test_two_slips_of_a_line_that_begins_at_any_bit(self):
        bits = "1" * 13 + bits_of(self.line)
        self.up.write_bytes(octets_of(bits + "1" * (-len(bits) % 8)))
        _, line = self.damaged("--slip", "0:5", "--slip", "60:-2")
        good = [place for place, word in yields(line) if word == "good"]
        self.assertEqual((good[0], good[59], good[60]), (18, 18 + 59 * 320, 18 - 2 + 64 * 320))

    def test_frames_that_are_no_speech_stay(self):
        idle = frame_of("10000" + "000000" + "100011" + "1111", 260 * "1")
        self.up.write_bytes(octets_of(idle) + self.line[:80] + bytes(40) + self.line[80:160])
        said, line = self.damaged("--drop", "0-5", "--align", "0:62")
        self.assertEqual(said, "damage frames 6 sid 0 drop 4 zero 0 align 1 slip 0\n")
        self.assertEqual(
            [word for _, word in yields(line)], ["idle", "bad", "bad", "miss", "bad", "bad"]
        )
        self.assertEqual(frames_of(line)[0].field, 62)

    def test_refused(self):
        new = self.path("new")
        for words, part in (
            (["--drop", "100"], "no frame 100; the uplink has frames 0 to 99"),
            (["--drop", "5-100"], "no frame 100"),
            (["--drop", "9-5"], "'9-5' names no frames"),
            (["--drop", "5,"], "'' isn't a frame"),
            (["--drop", "x"], "'x' isn't a frame"),
            (["--zero", "every:0"], "names no frames"),
            (["--sid", "-3"], "argument"),
            (["--align", "5:64"], "isn't 0 to 63"),
            (["--align", "5"], "isn't FRAME:NUMBER"),
            (["--align", "100:5"], "no frame 100"),
            (["--align", "5:5", "--zero", "5"], "frame 5 has no alignment field"),
            (["--slip", "5:0"], "isn't -320 to 320 without 0"),
            (["--slip", "5:321"], "isn't -320 to 320"),
            (["--slip", "100:1"], "no frame 100"),
            (["--slip", "0:-1"], "no 1 bits before frame 0"),
            (["--slips", "5:1"], "unrecognized"),
        ):
            self.assert_refused(lines.main, ["damage", self.up, new, *words], part)
        self.assert_refused(
            lines.main,
            ["damage", self.path("ones.up", b"\xff" * 400), new, "--drop", "0"],
            "no frame found",
        )


COMMANDS = (
    "look",
    "uplink",
    "gsm",
    "listen",
    "pcm",
    "sound",
    "idle",
    "slot",
    "pcap",
    "capture",
    "damage",
)


class TheFileThatIsWritten(InFolder):
    def test_a_wav_file_that_would_be_too_long(self):
        with mock.patch.object(wav_files, "MOST_DATA", 318):
            words = ["sound", self.path("1.out", 160 * b"\xd5"), self.path("1.wav")]
            self.assert_refused(
                lines.main, words, "320 octets of samples: a WAV file has at most 318;"
            )

    def test_never_the_input(self):
        up = self.path("7.up", (EXAMPLES / "7.up").read_bytes())
        os.symlink(up, self.path("link.up"))
        os.link(up, self.path("hard.up"))
        for name in ("7.up", "link.up", "hard.up", "../" + self.folder.name + "/7.up"):
            self.assert_refused(
                lines.main, ["damage", up, self.folder / name, "--drop", "5"], "is an input"
            )

    def test_by_its_name_a_line_of_another_kind(self):
        up, out = EXAMPLES / "7.up", EXAMPLES / "farm" / "wanted" / "1.out"
        uplink, law, down = "an uplink", "A-law or mu-law", "a downlink"
        for words, name, by_name, kind in (
            (["uplink", DATA / "speech.gsm"], "1.pcm", law, uplink),
            (["uplink", DATA / "speech.gsm"], "1.down", down, uplink),
            (["damage", up], "1.out", law, uplink),
            (["pcm", out, "--raw"], "1.up", uplink, law),
            (["idle", "3"], "1.up", uplink, law),
            (["idle", "3"], "1.down", down, law),
            (["sound", out], "1.pcm", law, "a WAV file"),
            (["gsm", EXAMPLES / "farm" / "wanted" / "2.down"], "1.up", uplink, "frames of libgsm"),
            (
                ["uplink", DATA / "speech.gsm"],
                "1.wav",
                "a WAV file",
                f"{uplink}; lines.py listen NEW.up {self.path('1.wav')} makes sound of it\n",
            ),
            (["damage", up], "1.gsm", "frames of libgsm", uplink),
            (
                ["sound", out, "--raw"],
                "1.WAV",
                "a WAV file",
                f"{law}; lines.py sound NEW.pcm {self.path('1.WAV')} makes sound of it\n",
            ),
            (["sound", out], "1.pcap", "a capture", "a WAV file\n"),
            (["slot", up], "1.wav", "a WAV file", "a time slot\n"),
            (["slot", up, "--channel", "0"], "1.wav", "a WAV file", "a channel of 16 kbit/s\n"),
            (["idle", "3"], "1.pcm.gz", "packed by gzip", law),
        ):
            words[2:2] = [self.path(name)]
            said = f"{name}: is {by_name} by its name, and what would be written is {kind}"
            self.assert_refused(lines.main, words, said)
        for words, name in (
            *(
                (["idle", "3"], "1.out"),
                (["uplink", DATA / "speech.gsm"], "speech"),
                (["slot", up], "1.pcm"),
                (["slot", up], "1.up"),
            ),
            *(
                (["sound", out], "1.wav"),
                (["sound", out], "1.snd"),
                (["gsm", EXAMPLES / "farm" / "wanted" / "2.down"], "1.gsm"),
            ),
        ):
            words[2:2] = [self.path(name)]
            self.assertEqual(self.run_tool(lines.main, *words)[0], 0)

    def test_only_a_file(self):
        self.assert_refused(
            lines.main, ["uplink", DATA / "speech.gsm", self.folder], "isn't a file"
        )
        # A pipe of its own, and not /dev/null, which root's test would replace if it were a file.
        os.mkfifo(self.folder / "pipe")
        self.assert_refused(
            lines.main, ["uplink", DATA / "speech.gsm", self.folder / "pipe"], "isn't a file"
        )

    def test_replaces_an_older_one(self):
        new = self.path("7.up", b"old")
        self.run_tool(lines.main, "uplink", DATA / "speech.gsm", new)
        self.assertEqual(len(new.read_bytes()), 1600)
        self.assertEqual([path.name for path in self.folder.iterdir()], ["7.up"])

    def test_words(self):
        self.assert_refused(lines.main, [], "required")
        self.assert_refused(lines.main, ["upline"], "upline")
        self.assert_refused(lines.main, ["uplink", DATA / "speech.gsm"], "OUT.up")

    def test_streams(self):
        tool, speech = support.TOOLS / "lines.py", (DATA / "speech.gsm").read_bytes()
        self.run_tool(lines.main, "uplink", DATA / "speech.gsm", self.path("7.up"))
        for new, out, err in (
            ("-", self.path("7.up").read_bytes(), b"uplink frames 40 sid 0 invalid 0\n"),
            (self.path("8.up"), b"uplink frames 40 sid 0 invalid 0\n", b""),
        ):
            ended = subprocess.run(
                [sys.executable, tool, "uplink", "-", new], input=speech, capture_output=True
            )
            self.assertEqual((ended.returncode, ended.stdout, ended.stderr), (0, out, err))
        self.assertEqual(self.path("8.up").read_bytes(), self.path("7.up").read_bytes())
        ended = subprocess.run(
            [sys.executable, tool, "uplink", "-", "-"], input=b"x", capture_output=True
        )
        self.assertEqual((ended.returncode, ended.stdout), (2, b""))
        self.assertEqual(
            ended.stderr,
            b"lines.py: -: 1 octets are no frames of libgsm, which have 33 octets each\n",
        )
        ended = subprocess.run([sys.executable, tool, "idle", "1", "-"], capture_output=True)
        self.assertEqual((ended.stdout, ended.stderr), (160 * b"\xd5", b"idle periods 1\n"))

    def test_as_a_program(self):
        tool = support.TOOLS / "lines.py"
        for words in ([], *([command] for command in COMMANDS)):
            ended = subprocess.run(
                [sys.executable, tool, *words, "--help"], capture_output=True, text=True
            )
            self.assertEqual((ended.returncode, ended.stderr), (0, ""))
            self.assertIn("example: lines.py" if words else "COMMAND", ended.stdout)
        ended = subprocess.run(
            [sys.executable, tool, "uplink", "gone", "new"], capture_output=True, text=True
        )
        self.assertEqual((ended.returncode, ended.stdout), (2, ""))
        self.assertEqual(ended.stderr, "lines.py: gone: No such file or directory\n")


if __name__ == "__main__":
    unittest.main()
