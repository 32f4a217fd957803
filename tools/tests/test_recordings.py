"""Tests of what `lines.py` takes of recordings: packed files, files that were cut, slots of whole lines, and a downlink as sound."""

import gzip
import mmap
import os
import random
import shlex
import struct
import subprocess
import unittest
from array import array
from unittest import mock

from support import CODEC, DATA, EXAMPLES, TOP, InFolder

from trau.rules.frame import bits_of, octets_of
from trau.rules.g711 import Law, compress_all, expand_all, octets_by_sample
from trau.rules.parameters import SILENCE, bits_of_parameters, gsm_of_data
from trau.rules.slots import octets_turned
from test_file_kinds import e1, merged, shifted
from test_lines import wav

from trau.recordings import capture_scan
from trau.recordings import heard_uplinks
from trau.recordings import lines
from trau.recordings import listening
from trau.recordings import recordings

PROGRAM = os.environ.get("TRAU_PROGRAM", "")
FARM = EXAMPLES / "farm"
WANTED = FARM / "wanted"
SPEECH = (DATA / "speech.gsm").read_bytes()
SPOKEN = (CODEC / "speech-en-m3.pcm").read_bytes()


class Recorded(InFolder):
    def lines(self, *words):
        status, out, err = self.run_tool(lines.main, *words)
        self.assertEqual((status, err), (0, ""))
        return out


class Packed(Recorded):
    def test_as_if_it_werent_packed(self):
        up = (EXAMPLES / "7.up").read_bytes()
        down = (WANTED / "2.down").read_bytes()
        for command, name, content, *words in (
            ("uplink", "a.gsm", SPEECH),
            ("pcm", "a.al", SPOKEN, "--raw"),
            ("pcm", "a.wav", wav(data=bytes(640))),
            ("sound", "1.out", SPOKEN),
            ("gsm", "2.down", down),
            ("damage", "7.up", up, "--drop", "3"),
            ("slot", "line", up, "--slot", "1", "--of", "4", "--skip", "2"),
        ):
            plain = self.lines(command, self.path(name, content), self.path("one"), *words)
            packed = self.lines(
                command, self.path(f"{name}.gz", gzip.compress(content)), self.path("other"), *words
            )
            self.assertEqual(plain, packed)
            self.assertEqual(self.path("one").read_bytes(), self.path("other").read_bytes())

    def test_the_name_within(self):
        path = self.path("7.up.gz", gzip.compress(bytes(160)))
        self.assert_refused(
            lines.main, ["sound", path, self.path("new")], "is a line of frames by its name"
        )

    def test_parts_put_together(self):
        path = self.path("a.gz", gzip.compress(SPEECH[:660]) + gzip.compress(SPEECH[660:]))
        self.assertEqual(recordings.read_recording(path), SPEECH)

    def test_zeros_that_fill_a_file_up(self):
        one, other = gzip.compress(SPEECH[:660]), gzip.compress(SPEECH[660:])
        path = self.path("a.gz", one + bytes(5) + other + bytes(512))
        for octets in (1, 13, 1 << 20):
            with mock.patch.object(recordings, "BLOCK_OCTETS", octets):
                self.assertEqual(recordings.read_recording(path), SPEECH)
        # Zeros alone, and others than zeros.
        for content in (bytes(512), one + bytes(5) + b"other"):
            path = self.path("a.gz", content)
            self.assert_refused(
                lines.main,
                ["uplink", path, self.path("new")],
                "gzip didn't pack it, or it is damaged",
            )

    def test_blocks_of_any_size(self):
        source = random.Random(1)
        self.addCleanup(setattr, recordings, "BLOCK_OCTETS", recordings.BLOCK_OCTETS)
        for _ in range(200):
            recordings.BLOCK_OCTETS = source.randrange(1, 90)
            octets = source.randbytes(source.randrange(300))
            of, skipped = source.randrange(1, 40), source.randrange(50)
            number = source.randrange(of)
            for path in (self.path("a", octets), self.path("a.gz", gzip.compress(octets))):
                self.assertEqual(
                    recordings.slot_of(recordings.blocks_of(path), number, of, skipped),
                    octets[skipped + number :: of],
                )
                for bit in range(8):
                    for turned in (False, True):
                        bits = bits_of(octets_turned(octets) if turned else octets)[bit:]
                        moved = recordings.aligned(recordings.blocks_of(path), turned, bit)
                        self.assertEqual(b"".join(moved), octets_of(bits[: len(bits) // 8 * 8]))

    def test_captures_that_were_packed_are_mapped(self):
        # Nothing of what is in them is kept in the memory, and no more than a bound on the disk.
        capture = (DATA / "gsm.pcap").read_bytes()
        plain, packed = self.path("1.pcap", capture), self.path("2.pcap.gz", gzip.compress(capture))
        with capture_scan.capture_octets(packed) as octets:
            self.assertIsInstance(octets, mmap.mmap)
            self.assertEqual(octets[:], capture)
        found = [self.run_tool(lines.main, "scan", name) for name in (plain, packed)]
        self.assertEqual(found[0], found[1])
        for command in ("scan", "pcap"):
            words = [command, packed] + [self.folder / "7.up"] * (command == "pcap")
            with mock.patch.object(recordings, "MOST_KEPT", 1000):
                said = "2.pcap.gz: holds more than 1,000 octets, which aren't kept"
                self.assert_refused(lines.main, words, said)

    def test_cut_or_not_packed(self):
        packed = gzip.compress(SPOKEN)
        path = self.path("a.al.gz", packed[:-2000])
        self.assert_refused(
            lines.main,
            ["pcm", path, self.path("new"), "--raw"],
            "a.al.gz: ends too early; --partial takes",
        )
        self.lines("pcm", path, self.path("new"), "--raw", "--partial")
        octets = self.path("new").read_bytes().rstrip(b"\xd5")
        self.assertTrue(SPOKEN.startswith(octets))
        self.assertGreater(len(octets), 20000)
        path = self.path("b.gz", SPEECH)
        self.assert_refused(
            lines.main,
            ["uplink", path, self.path("new")],
            "b.gz: its name ends with .gz, and gzip didn't pack it",
        )
        # A wrong bit of the sum at its end.
        path = self.path("c.gz", packed[:-8] + bytes([packed[-8] ^ 1]) + packed[-7:])
        self.assert_refused(
            lines.main,
            ["pcm", path, self.path("new"), "--raw"],
            "gzip didn't pack it, or it is damaged",
        )


class Partial(Recorded):
    def uplink(self, name, content):
        return self.lines("uplink", self.path(name, content), self.path("7.up"), "--partial")

    def test_frames_of_libgsm(self):
        path, new = self.path("cut.gsm", SPEECH[:-7]), self.path("7.up")
        part = "1313 octets are no frames of libgsm, which have 33 octets each; --partial takes the whole ones"
        self.assert_refused(lines.main, ["uplink", path, new], part)
        self.assertEqual(
            self.uplink("cut.gsm", SPEECH[:-7]), "uplink frames 39 sid 0 invalid 0 left 26\n"
        )
        self.assertEqual(new.read_bytes(), (EXAMPLES / "7.up").read_bytes()[:1560])
        self.assertEqual(
            self.uplink("whole.gsm", SPEECH), "uplink frames 40 sid 0 invalid 0 left 0\n"
        )
        for content in (SPEECH[:32], b"", bytes(70)):
            self.assert_refused(
                lines.main, ["uplink", self.path("no.gsm", content), new, "--partial"], "no"
            )

    def test_wav_files_of_gsm_frames(self):
        content = (DATA / "sox.wav").read_bytes()
        path = self.path("cut.wav", content[:-40])
        self.assert_refused(
            lines.main,
            ["uplink", path, self.path("7.up")],
            "ends too early, in its part 'data'; --partial takes",
        )
        self.assertEqual(
            self.uplink("cut.wav", content[:-40]), "uplink frames 38 sid 0 invalid 0 left 25\n"
        )

    def test_wav_files_of_samples(self):
        samples = struct.pack("<400h", *range(400))
        content, new = wav(data=samples), self.path("7.pcm")
        for missing in (1, 2, 301, 800):
            path = self.path("cut.wav", content[:-missing])
            self.assert_refused(
                lines.main,
                ["pcm", path, self.path("none")],
                "ends too early, in its part 'data'; --partial takes",
            )
            if missing == 800:
                self.assert_refused(
                    lines.main, ["pcm", path, self.path("none"), "--partial"], "holds no samples"
                )
                continue
            self.lines("pcm", path, new, "--partial")
            table = octets_by_sample(Law.A)
            left = (800 - missing) // 2
            self.assertEqual(
                new.read_bytes()[:left], bytes(table[sample] for sample in range(left))
            )
        self.assert_refused(
            lines.main,
            ["pcm", self.path("cut.wav", content[:30]), self.path("none"), "--partial"],
            "in its part 'fmt'",
        )


class Slots(Recorded):
    def test_each_slot_of_a_line(self):
        content = bytes(range(256)) * 16
        for number in (0, 1, 16, 31):
            said = self.lines(
                "slot",
                self.path("line", content),
                self.path("1.pcm"),
                "--slot",
                number,
                "--of",
                "32",
            )
            self.assertEqual(said, "slot octets 128\n")
            self.assertEqual(self.path("1.pcm").read_bytes(), content[number::32])

    def test_a_line_that_begins_anywhere_in_the_other_order(self):
        slot = merged([(EXAMPLES / "7.up").read_bytes()[:4000], *3 * [bytes(4000)]])
        path = self.path("line", octets_turned(e1(slot)[9:]))
        self.lines(
            "slot",
            path,
            self.path("1.pcm"),
            "--slot",
            "16",
            "--of",
            "32",
            "--skip",
            "23",
            "--lsb-first",
        )
        self.assertEqual(self.path("1.pcm").read_bytes(), slot[1:])

    def test_a_channel_of_a_slot(self):
        up, down = (EXAMPLES / "7.up").read_bytes()[:4000], (WANTED / "2.down").read_bytes()[:4000]
        channels = [up, down, shifted(up, 5)[:4000], bytes(4000)]
        slot = merged(channels)
        for content, words in (
            (slot, []),
            (octets_turned(slot), ["--lsb-first"]),
            (e1(slot), ["--slot", "16", "--of", "32"]),
            (
                octets_turned(e1(slot)[9:]),
                ["--slot", "16", "--of", "32", "--skip", "23", "--lsb-first"],
            ),
        ):
            # Where the first octet of the slot is cut off, each channel lacks its first two bits.
            cut = words[-1:] == ["--lsb-first"] and len(words) > 1
            for name in ("line", "line.gz"):
                path = self.path(name, gzip.compress(content) if name.endswith(".gz") else content)
                for number, channel in enumerate(channels):
                    new = self.path(f"{number}.up" if number % 2 == 0 else f"{number}.down")
                    said = self.lines("slot", path, new, "--channel", number, *words)
                    self.assertEqual(
                        said, f"slot octets {4000 - cut} channel {number} left {3 * cut}\n"
                    )
                    bits = bits_of(channel)[2 * cut :]
                    self.assertEqual(bits_of(new.read_bytes()), bits[: 32000 - 8 * cut])

    def test_a_channel_that_is_refused(self):
        line, new = self.path("line", bytes(64)), self.path("1.up")
        for words, part in (
            (["--channel", "4"], "4 isn't 0 to 3"),
            (
                ["--channel", "0", "--slot", "3", "--of", "32"],
                "slot 3 has 2 octets, and four make one of a channel",
            ),
        ):
            self.assert_refused(lines.main, ["slot", line, new, *words], part)
        said = "1.pcm: is A-law or mu-law by its name, and what would be written is a channel of 16 kbit/s"
        self.assert_refused(lines.main, ["slot", line, self.path("1.pcm"), "--channel", "1"], said)

    def test_the_bits_alone(self):
        up = shifted((EXAMPLES / "7.up").read_bytes(), 5)
        self.lines("slot", self.path("turned", octets_turned(up)), self.path("1.up"), "--lsb-first")
        self.assertEqual(self.path("1.up").read_bytes(), up)

    def test_what_is_no_recording_of_a_line(self):
        capture, wave = (DATA / "gsm.pcap").read_bytes(), wav(data=bytes(3000))
        for name, content, part in (
            (
                "x.pcap",
                capture,
                "is a pcap capture, and no recording of a line; lines.py pcap FILE NEW\n",
            ),
            (
                "x.pcap.gz",
                gzip.compress(capture),
                "is a pcap capture, and no recording of a line; lines.py pcap FILE NEW\n",
            ),
            (
                "x",
                gzip.compress(bytes(64)),
                "is packed by gzip, and no recording of a line; lines.py reads such files where",
            ),
            (
                "x.wav",
                wave,
                "is a WAV file, 8000 Hz, channels 1, bits 16 linear, and no recording of a line; lines.py pcm FILE",
            ),
            (
                "x.gsm",
                900 * SPEECH,
                "is 36000 frames of libgsm, and no recording of a line; lines.py uplink FILE NEW.up\n",
            ),
            ("x.txt", b"0 open 1\n", "is a text of orders, and no recording of a line; "),
        ):
            path = self.path(name, content)
            for words in ([], ["--slot", "16", "--of", "32"], ["--channel", "1", "--lsb-first"]):
                self.assert_refused(
                    lines.main,
                    ["slot", path, self.path("new"), *words],
                    part.replace("FILE", str(path)),
                )
        ended = subprocess.run(
            [TOP / "tools" / "lines.py", "slot", "-", self.path("new")],
            input=capture,
            capture_output=True,
        )
        self.assertEqual(
            (ended.returncode, ended.stderr.partition(b";")[0]),
            (2, b"lines.py: -: is a pcap capture, and no recording of a line"),
        )
        # A line of frames is one, also with a text's name.
        self.lines(
            "slot", self.path("line.txt", (EXAMPLES / "7.up").read_bytes()), self.path("new")
        )

    def test_refused(self):
        line, new = self.path("line", bytes(64)), self.path("new")
        for words, part in (
            (["--skip-bits", "8"], "8 isn't 0 to 7"),
            (["--slot", "32", "--of", "32"], "--slot 32: the slots of this line are 0 to 31"),
            (["--slot", "x"], "x isn't 0 to 255"),
            (["--of", "0"], "0 isn't 1 to 256"),
            (["--skip", 1 << 40], "has no octet of slot 0"),
            (["--skip", (1 << 40) + 1], "1099511627777 isn't 0 to 1,099,511,627,776"),
            (["--slot", "5", "--of", "8", "--skip", "60"], "has no octet of slot 5"),
        ):
            self.assert_refused(lines.main, ["slot", line, new, *words], part)


class Listening(Recorded):
    @unittest.skipUnless(PROGRAM, "no program is built")
    def test_a_downlink(self):
        down, new = WANTED / "2.down", self.path("2.wav")
        said = self.lines("listen", down, new, "--trau", PROGRAM)
        # 99 frames, and the period of ones before the first.
        self.assertEqual(
            said, "listen samples 16000 found speech 91 silence 8 idle 0 other 0 outside 324\n"
        )
        self.lines("gsm", down, self.path("2.gsm"))
        quiet = gsm_of_data(bits_of_parameters(SILENCE))
        self.lines(
            "uplink", self.path("2.gsm", quiet + self.path("2.gsm").read_bytes()), self.path("1.up")
        )
        ended = subprocess.run([PROGRAM, "decode", "1"], cwd=self.folder, capture_output=True)
        self.assertEqual(ended.stdout, b"decode frames 100\n")
        self.lines("sound", self.path("1.out"), self.path("other.wav"))
        self.assertEqual(new.read_bytes(), self.path("other.wav").read_bytes())

    @unittest.skipUnless(PROGRAM, "no program is built")
    def test_an_uplink_with_losses(self):
        # Relay ends at its first unusable frame. In the example's run it is bridged, and its Out line idle, from period 120 to 131.
        for up in (
            FARM / "1.up",
            self.path("1.up.gz", gzip.compress((FARM / "1.up").read_bytes())),
        ):
            said = self.lines("listen", up, self.path("1.wav"), "--trau", PROGRAM)
            wanted = "uplink good 31 sid 4 invalid 1 bad 117 idle 0 other 0 miss 0 none 0\n"
            self.assertEqual(said, f"listen samples 24480 {wanted}")
            said = self.lines(
                "listen", up, self.path("1.wav"), "--trau", PROGRAM, "--start", "1002"
            )
            self.assertEqual(said, f"listen samples 24480 {wanted[:-1]} run 20.04 to 23.10\n")
            self.lines("sound", WANTED / "1.out", self.path("other.wav"))
            octets = 44 + 2 * 160 * 120
            self.assertEqual(
                self.path("1.wav").read_bytes()[:octets],
                self.path("other.wav").read_bytes()[:octets],
            )

    @unittest.skipUnless(PROGRAM, "no program is built")
    def test_an_uplink_by_its_name(self):
        said = self.lines(
            "listen", self.path("9.up", bytes(130)), self.path("9.wav"), "--trau", PROGRAM
        )
        self.assertEqual(
            said,
            "listen samples 480 uplink good 0 sid 0 invalid 0 bad 0 idle 0 other 0 miss 0 none 3\n",
        )
        self.assert_refused(
            lines.main,
            ["listen", self.path("9.up", bytes(39)), self.path("9.wav")],
            "39 octets are no whole period",
        )

    @unittest.skipUnless(PROGRAM, "no program is built")
    def test_a_relative_path_of_the_program(self):
        script = self.path(
            "program", f'#!/bin/sh\nexec {shlex.quote(os.path.abspath(PROGRAM))} "$@"\n'.encode()
        )
        script.chmod(0o755)
        words = [TOP / "tools" / "lines.py", "listen", EXAMPLES / "7.up", self.path("7.wav")]
        surroundings = {**os.environ, "TRAU_PROGRAM": "./program"}
        ended = subprocess.run(
            words, cwd=self.folder, env=surroundings, capture_output=True, text=True
        )
        self.assertEqual((ended.returncode, ended.stderr), (0, ""))

    @unittest.skipUnless(listening.library_beside(), "no library is built")
    def test_by_the_library(self):
        down, new = CODEC / "speech-en-m3.down", self.path("new.wav")
        with mock.patch.object(listening, "decoded_by_program", side_effect=AssertionError):
            said = self.lines("listen", down, new)
        self.assertEqual(
            said, "listen samples 49920 found speech 312 silence 0 idle 0 other 0 outside 0\n"
        )
        # What libgsm made of the same frames.
        self.lines("sound", CODEC / "speech-en-m3.out", self.path("other.wav"))
        self.assertEqual(new.read_bytes(), self.path("other.wav").read_bytes())
        if PROGRAM:
            self.lines("listen", WANTED / "2.down", new)
            self.lines("listen", WANTED / "2.down", self.path("other.wav"), "--trau", PROGRAM)
            self.assertEqual(new.read_bytes(), self.path("other.wav").read_bytes())

    def test_without_the_library(self):
        program = self.path("trau", b"#!/bin/sh\necho no memory; exit 5\n")
        program.chmod(0o755)
        refused = [
            "listen",
            WANTED / "2.down",
            self.path("2.wav"),
        ], "trau decode: status 5, no memory"
        with mock.patch.object(listening, "program_beside", return_value=str(program)):
            with mock.patch.object(listening, "library_beside", return_value=None):
                self.assert_refused(lines.main, *refused)
            # No module beside the tools nor on the path, and a module without its library.
            for failure in (ImportError, OSError):
                with mock.patch("builtins.__import__", side_effect=failure):
                    self.assertIsNone(listening.library_beside())
            with mock.patch.object(listening, "is_stale", return_value=True):
                self.assertIsNone(listening.library_beside())

    def test_no_tool_starts_a_proof(self):
        # The program isn't built: the script says so when it is asked, and would begin to prove.
        script = self.path(
            "trau", b'#!/bin/sh\n[ -n "$TRAU_IS_BUILT" ] && exit 1\necho a proof begins; exit 5\n'
        )
        script.chmod(0o755)
        heard = []
        surroundings = {"TRAU_PROGRAM": "", **{"PATH": "/usr/bin:/bin"}}
        with mock.patch.dict(os.environ, surroundings), mock.patch.object(
            listening, "program_beside", return_value=str(script)
        ):
            for library in {listening.library_beside(), None}:
                with mock.patch.object(listening, "library_beside", return_value=library):
                    for line in (WANTED / "2.down", FARM / "1.up"):
                        new = self.path("new.wav")
                        status, out, err = self.run_tool(lines.main, "listen", line, new)
                        self.assertEqual((status, out[:6]), (0, "listen"))
                        self.assertEqual("the model decodes" in err, library is None)
                        heard.append((line, new.read_bytes()))
        self.assertEqual(len(set(heard)), 2)
        if PROGRAM:
            for line, sound in set(heard):
                self.lines("listen", line, self.path("new.wav"), "--trau", PROGRAM)
                self.assertEqual(self.path("new.wav").read_bytes(), sound)

    def test_a_call_both_ways(self):
        up, pcm, new = FARM / "1.up", FARM / "1.pcm", self.path("new.wav")
        self.lines("listen", up, self.path("right.wav"))
        said = self.lines("listen", up, new, "--both", pcm)
        left = array("h", expand_all(Law.A, pcm.read_bytes()))
        right = array("h", self.path("right.wav").read_bytes()[44:])
        self.assertTrue(said.endswith(f" both {len(left)}\n"))
        content = new.read_bytes()
        self.assertEqual(struct.unpack_from("<HIIHH", content, 22), (2, 8000, 32000, 4, 16))
        samples = array("h", content[44:])
        self.assertEqual(len(samples), 2 * max(len(left), len(right)))
        self.assertEqual(
            (samples[: 2 * len(left) : 2], samples[1 : 2 * len(right) : 2]), (left, right)
        )
        # A downlink from the exchange is decoded.
        self.lines("listen", up, new, "--both", WANTED / "1.down")
        self.assertNotEqual(set(array("h", new.read_bytes()[44:])[::2]), {0})

    def test_losses_as_silence(self):
        up = FARM / "1.up"
        self.lines("listen", up, self.path("made.wav"))
        self.lines("listen", up, self.path("quiet.wav"), "--losses", "quiet")
        made, quiet = (self.path(f"{name}.wav").read_bytes()[44:] for name in ("made", "quiet"))
        differs = {
            place // 320
            for place in range(0, len(made), 320)
            if made[place : place + 320] != quiet[place : place + 320]
        }
        self.assertTrue(differs)
        self.assertLessEqual(differs, set(heard_uplinks.lost_periods(up.read_bytes())))
        for period in heard_uplinks.lost_periods(up.read_bytes()):
            self.assertEqual(set(quiet[320 * period : 320 * period + 320]), {0})

    def test_samples_of_13_bits_and_frames_that_are_heard(self):
        # Of 13 bits the library makes them, or else the model, which says so.
        noted = "" if listening.library_beside() else f"lines.py: {listening.MODEL_AT_WORK}\n"
        for line in (FARM / "1.up", WANTED / "2.down"):
            self.lines("listen", line, self.path("law.wav"))
            words = ["listen", line, self.path("linear.wav"), "--linear"]
            status, _, err = self.run_tool(lines.main, *words)
            self.assertEqual((status, err), (0, noted))
            law, linear = (
                array("h", self.path(f"{name}.wav").read_bytes()[44:]) for name in ("law", "linear")
            )
            self.assertEqual(len(law), len(linear))
            self.assertEqual({sample % 8 for sample in linear}, {0})
            self.assertNotEqual(law, linear)
            heard = [at for at, sample in enumerate(linear) if sample]
            coded, law_coded = compress_all(Law.A, linear), compress_all(Law.A, law)
            self.assertTrue(all(coded[at] == law_coded[at] for at in heard))
        said = self.lines("gsm", FARM / "1.up", self.path("1.gsm"), "--heard", "--idle", "quiet")
        self.assertTrue(said.startswith("gsm frames 153 uplink good 31 sid 4 invalid 1 bad 117 "))
        self.assertEqual(len(self.path("1.gsm").read_bytes()), 33 * 153)
        self.lines("gsm", FARM / "1.up", self.path("1.gsm"), "--heard")
        self.assertLess(len(self.path("1.gsm").read_bytes()), 33 * 153)
        words = ["listen", FARM / "1.up", self.path("x.wav"), "--linear", "--trau", "x"]
        self.assert_refused(lines.main, words, "--linear: the program gives A-law alone")
        words = ["gsm", self.path("9.up", bytes(80)), self.path("x.gsm"), "--heard"]
        self.assert_refused(lines.main, words, "no frame of an uplink would be written")

    def test_a_library_of_older_sources(self):
        build = self.path("build", b"#!/bin/sh\nexit ${TRAU_IS_BUILT:+1}\n")
        build.chmod(0o755)
        with mock.patch.dict(os.environ, TRAU_CLIB=""):
            self.assertFalse(listening.is_stale(self.folder))
            (self.folder / "out").mkdir()
            self.assertTrue(listening.is_stale(self.folder))
            build.write_bytes(b"#!/bin/sh\n")
            self.assertFalse(listening.is_stale(self.folder))

    def test_what_has_no_frames(self):
        # Octets of speech have bits that look like a frame, so they made a file of silence.
        sound, slot = self.path("1.pcm", 40 * (FARM / "4.pcm").read_bytes()), self.path(
            "3.out", merged(4 * [(EXAMPLES / "7.up").read_bytes()])
        )
        packed = self.path("2.out.gz", gzip.compress((WANTED / "1.out").read_bytes()))
        for line, part in (
            (
                sound,
                f"1.pcm: is A-law or mu-law by its name, and no line of frames; lines.py sound {sound} NEW.wav makes sound of it",
            ),
            (
                packed,
                f"2.out.gz: is A-law or mu-law by its name, and no line of frames; lines.py sound {packed} NEW.wav makes sound of it",
            ),
            (slot, "and no line of frames; lines.py slot "),
            (
                DATA / "speech.gsm",
                "is 40 frames of libgsm, and no line of frames; lines.py uplink ",
            ),
            (DATA / "sox.wav", ", and no line of frames; lines.py uplink "),
        ):
            self.assert_refused(lines.main, ["listen", line, self.path("new.wav")], part)
            self.assert_refused(lines.main, ["gsm", line, self.path("new.gsm")], part)
        # By its content a line of frames is one, whatever its name is.
        self.lines("gsm", self.path("2.out", (WANTED / "2.down").read_bytes()), self.path("2.gsm"))

    def test_refused(self):
        down, new = WANTED / "2.down", self.path("2.wav")
        self.assert_refused(
            lines.main, ["listen", EXAMPLES / "7.up", new, "--trau", "/x"], "/x: No such file"
        )
        self.assert_refused(
            lines.main, ["listen", self.path("x.down", bytes(400)), new], "no frame of a downlink"
        )
        self.assert_refused(
            lines.main, ["listen", down, new, "--trau", self.folder / "gone"], "gone: No such file"
        )
        fails = self.path("fails", b"#!/bin/sh\necho no memory; exit 5\n")
        fails.chmod(0o755)
        for name in (fails, os.path.relpath(fails)):
            self.assert_refused(
                lines.main,
                ["listen", down, new, "--trau", name],
                f"{fails} decode: status 5, no memory",
            )
            up = EXAMPLES / "7.up"
            self.assert_refused(
                lines.main, ["listen", up, new, "--trau", name], f"{fails} run: status 5, no memory"
            )


if __name__ == "__main__":
    unittest.main()
