"""Tests of file_kinds.py: what `lines.py look` says of files, and what other commands refuse by it."""

import gzip
import io
import math
import random
import struct
import tarfile
import unittest
from pathlib import Path
from unittest import mock

from support import CODEC, DATA, EXAMPLES, InFolder

from trau.rules.frame import bits_of, octets_of
from trau.rules.parameters import data_of_gsm, parameters_of_bits
from trau.rules.g711 import Law, expand_all, octets_by_sample
from trau.rules.slots import octets_turned
import e1_lines
from test_lines import wav

from trau.recordings import bit_order
from trau.recordings import file_kinds
from trau.recordings.bit_order import BitOrder, BitWay
from trau.recordings import lines
from trau.runs import orders
from trau.recordings import readings
from trau.recordings.excerpts import excerpts_of, excerpts_of_blocks
from trau.recordings.file_descriptions import FileKind

FARM = EXAMPLES / "farm"
UP = (EXAMPLES / "7.up").read_bytes()
DOWN = (FARM / "wanted" / "2.down").read_bytes()
EFR = 8 * (DATA / "osmo-kinds.up").read_bytes()[240:360]
# A-law of speech, and of a run: what is said, comfort noise, and idle stretches.
SPOKEN = [
    CODEC / "speech-en-m3.pcm",
    CODEC / "speech-loud-m7.out",
    FARM / "4.pcm",
    *(FARM / "wanted").glob("*.out"),
]
TO_MULAW = Law.A.table_to(Law.MU)
TURNED = "with the bits of each octet in the other order"


def e1(slot):
    """An E1 line whose slot 16 has these octets, with the frame alignment signal in its slot 0, and idle slots else."""
    frames = []
    for place, octet in enumerate(slot):
        frames.append(
            bytes([0x9B if place % 2 == 0 else 0x40]) + 15 * b"\xd5" + bytes([octet]) + 15 * b"\xd5"
        )
    return b"".join(frames)


def merged(channels):
    """A time slot with these lines in its channels."""
    pairs = ([octet >> shift & 3 for octet in line for shift in (6, 4, 2, 0)] for line in channels)
    return bytes(a << 6 | b << 4 | c << 2 | d for a, b, c, d in zip(*pairs))


def shifted(octets, ones):
    """A line behind so many ones."""
    bits = ones * "1" + bits_of(octets)
    return octets_of(bits + -len(bits) % 8 * "1")


def linear(octets):
    """The samples of 16 bits of A-law."""
    return struct.pack(f"<{len(octets)}h", *expand_all(Law.A, octets))


def archive():
    """A tar archive, whose head has the sync bits of a frame."""
    packed = io.BytesIO()
    with tarfile.open(fileobj=packed, mode="w") as tar:
        info = tarfile.TarInfo("7.up")
        info.size = len(UP)
        tar.addfile(info, io.BytesIO(UP))
    return packed.getvalue()


def gsm_frames(path):
    """The 76 parameters of each frame of a file of libgsm."""
    octets = path.read_bytes()
    for place in range(0, len(octets), 33):
        frame = parameters_of_bits(data_of_gsm(octets[place : place + 33]))
        blocks = [(b.nc, b.bc, b.mc, b.xmaxc, *b.xmc) for b in frame.blocks]
        yield [*frame.larc, *(value for block in blocks for value in block)]


class Look(InFolder):
    def look(self, content, name="file"):
        """What is said of a file, without its name. The lines under it are `more`."""
        path = self.path(name, content)
        status, out, err = self.run_tool(lines.main, "look", path)
        self.assertEqual((status, err), (0, ""))
        self.assertTrue(out.startswith(f"{path}: "))
        first, *more = out.replace(str(path), "FILE").splitlines()
        self.assertTrue(all(each.startswith("  ") for each in more))
        self.more = [each[2:] for each in more]
        return first[len("FILE: ") :]

    def test_heads(self):
        speech = (DATA / "speech.gsm").read_bytes()
        sox = "; sox -D FILE -r 8000 -c 1 -b 16 -e signed-integer NEW.wav"
        for content, wanted in (
            (b"", "empty"),
            (
                wav(data=bytes(100)),
                "a WAV file, 8000 Hz, channels 1, bits 16 linear; lines.py pcm FILE NEW.pcm",
            ),
            (
                wav(tag=6, bits=8),
                "a WAV file, 8000 Hz, channels 1, bits 8 A-law; lines.py pcm FILE NEW.pcm",
            ),
            (wav(tag=3, bits=32), f"a WAV file, 8000 Hz, channels 1, bits 32 of format 3{sox}"),
            (wav(rate=44100, channels=2), f"a WAV file, 44100 Hz, channels 2, bits 16 linear{sox}"),
            (wav()[:30], "a WAV file without a whole head"),
            (
                (DATA / "sox.wav").read_bytes(),
                "a WAV file of GSM frames, 8000 Hz, channels 1; lines.py uplink FILE NEW.up",
            ),
            (b".snd\0\0\0\x18\0\0\0\x20\0\0\0\x1b" + bytes(20), f"an .au file{sox}"),
            (b"fLaC\0\0\0\x22" + bytes(34), f"a FLAC file{sox}"),
            (b"OggS" + bytes(30), f"an Ogg file{sox}"),
            (b"FORM\0\0\0\x40AIFF" + bytes(60), f"an AIFF file{sox}"),
            (b"Creative Voice File\x1a" + bytes(30), f"a VOC file{sox}"),
            (b"NIST_1A\n   1024\n" + bytes(30), f"a SPHERE file{sox}"),
            (b"caff\0\1" + bytes(30), "a CAF file; ffmpeg -i FILE -ar 8000 -ac 1 NEW.wav"),
            (
                b"\x1a\x45\xdf\xa3" + bytes(30),
                "a Matroska or WebM file; ffmpeg -i FILE -ar 8000 -ac 1 NEW.wav",
            ),
            (
                b"\x30\x26\xb2\x75\x8e\x66\xcf\x11" + bytes(30),
                "a Windows Media file; ffmpeg -i FILE -ar 8000 -ac 1 NEW.wav",
            ),
            (
                b"riff\x2e\x91\xcf\x11" + bytes(30),
                "a Wave64 file; ffmpeg -i FILE -ar 8000 -ac 1 NEW.wav",
            ),
            (
                b"\x34\xcd\xb2\xa1" + bytes(30),
                "a pcap capture of a modified libpcap; editcap -F pcap FILE NEW.pcap",
            ),
            (b"snoop\0\0\0\0\0\0\2" + bytes(30), "a snoop capture; editcap -F pcap FILE NEW.pcap"),
            (b"GMBU\0\2" + bytes(30), "a Network Monitor capture; editcap -F pcap FILE NEW.pcap"),
            (
                b"\0\0\0\x14ftypqt  " + bytes(30),
                "an MP4 or QuickTime file; ffmpeg -i FILE -ar 8000 -ac 1 NEW.wav",
            ),
            (b"BZh91AY&SY" + bytes(30), "packed by bzip2; bunzip2 -k FILE"),
            (b"\xfd7zXZ\0\0\4" + bytes(30), "packed by xz; unxz -k FILE"),
            (b"PK\3\4" + bytes(30), "a zip archive; unzip FILE"),
            (archive(), "a tar archive; tar xf FILE"),
            (speech, "40 frames of libgsm; lines.py uplink FILE NEW.up"),
            (
                speech[:-7],
                "39 frames of libgsm, and 26 octets of one that was cut; lines.py uplink FILE NEW.up --partial",
            ),
            ((DATA / "gsm.pcap").read_bytes(), "a pcap capture; lines.py pcap FILE NEW"),
            ((DATA / "pcma.pcapng").read_bytes(), "a pcapng capture; lines.py pcap FILE NEW"),
            (
                gzip.compress(UP),
                "packed by gzip; lines.py reads such files where their names end with .gz",
            ),
            ((FARM / "orders.txt").read_bytes(), "a text of orders; orders.py check FILE"),
            (
                b"save 60\ncall 1 from 0 out 5 down 7\norders\n0 open 1\n",
                "the mark of a run, which trau resume reads with the orders after it; orders.py check --mark FILE",
            ),
            (
                (FARM / "wanted" / "report.txt").read_bytes(),
                "the report of a run; report.py text FILE",
            ),
            (random.Random(1).randbytes(20000), "nothing that is known here"),
        ):
            self.assertEqual(self.look(content), wanted)

    def test_lines_of_frames_at_any_bit(self):
        for ones in (0, 1, 13, 320, 4000):
            self.assertTrue(
                self.look(shifted(UP, ones)).startswith(
                    f"an uplink, its first frame at bit {ones}; "
                )
            )
            self.assertTrue(
                self.look(shifted(DOWN, ones)).startswith(
                    f"a downlink, its first frame at bit {320 + ones}; "
                )
            )
        said = f"an uplink, its first frame at bit 13, {TURNED}; lines.py slot FILE NEW --lsb-first"
        self.assertEqual(self.look(octets_turned(shifted(UP, 13))), said)

    def test_kinds_that_are_not_full_rate(self):
        # Three uplink frames of each kind, as libosmotrau numbers and encodes them; its idle frames are those of a downlink.
        kinds = (DATA / "osmo-kinds.up").read_bytes()
        self.assertEqual(len(kinds), 10 * 120)
        names = {
            1: "half rate speech (C1 to C5 00011)",
            2: "enhanced full rate speech (C1 to C5 11010)",
            3: "AMR speech (C1 to C5 00110)",
            4: "operation and maintenance (C1 to C5 00101)",
            5: "data (C1 to C5 01000)",
            6: "extended data (C1 to C5 11111)",
            7: "data at 14.5 kbit/s, or their synchronization (C1 to C5 10100)",
            8: "data of a half rate channel (C1 to C5 01001)",
        }
        for kind, name in names.items():
            for ones in (0, 13):
                line = shifted(kinds[120 * kind : 120 * (kind + 1)], ones)
                self.assertEqual(
                    self.look(line),
                    f"a line of {name}, which trau doesn't decode, its first frame at bit {ones}",
                )
        self.assertTrue(self.look(kinds[:120]).startswith("an uplink, "))
        self.assertTrue(self.look(kinds[1080:]).startswith("a downlink, "))
        said = self.look(UP[:4000] + kinds[240:480])
        self.assertEqual(
            said,
            "an uplink, its first frame at bit 0; of the 106 frames 3 are enhanced full rate speech (C1 to C5 11010) and 3 are AMR"
            " speech (C1 to C5 00110), which trau doesn't decode; trau run takes it as C.up, and makes sound of it",
        )

    def test_frames_by_chance(self):
        # Two frames, near one another or not, and one alone, in octets of something else.
        noise = random.Random(7).randbytes(4000)
        self.assertEqual(
            self.look(noise[:80] + UP[:80] + noise[160:]), "nothing that is known here"
        )
        for place in (80, 2000):
            self.assertEqual(
                self.look(noise[:place] + UP[:40] + noise[place + 40 :]),
                "nothing that is known here",
            )
        self.assertEqual(
            self.look(noise[:80] + UP[:40] + noise[120:2000] + UP[40:80] + noise[2040:]),
            "nothing that is known here",
        )
        self.assertTrue(
            self.look(noise[:80] + UP[:120] + noise[200:]).startswith(
                "an uplink, its first frame at bit 640; "
            )
        )
        self.assertEqual(self.look(b"\x7fELF" + noise + UP), "a program or a library")

    def test_every_line_of_the_examples(self):
        for path in (*FARM.glob("*.up"), *EXAMPLES.glob("7.up")):
            self.assertIs(file_kinds.look(file_kinds.excerpts_of_file(path)).kind, FileKind.UPLINK)
        for path in (FARM / "wanted").glob("*.down"):
            self.assertIs(
                file_kinds.look(file_kinds.excerpts_of_file(path)).kind, FileKind.DOWNLINK
            )

    def test_slots_and_whole_lines(self):
        slot = merged([UP[:4000], bytes(4000), shifted(UP, 5)[:4000], DOWN[:4000]])
        wanted = (
            "a time slot of 64 kbit/s: channel 0 is an uplink, its first frame at bit 0; channel 2 is an uplink, its first frame at bit 5;"
            " channel 3 is a downlink, its first frame at bit 320"
        )
        command = "lines.py slot FILE NEW.up --channel J"
        self.assertEqual(self.look(slot), f"{wanted}; {command}")
        self.assertEqual(
            self.look(octets_turned(slot)), f"{wanted}, {TURNED}; {command} --lsb-first"
        )
        line = e1(slot[:3000])
        command = "lines.py slot FILE NEW.pcm --slot N --of 32"
        self.assertEqual(self.look(line), f"an E1 line of 32 slots; {command}")
        self.assertEqual(
            self.look(line[7:]), f"an E1 line of 32 slots from octet 25 on; {command} --skip 25"
        )
        self.assertEqual(
            self.look(octets_turned(line)),
            f"an E1 line of 32 slots, {TURNED}; {command} --lsb-first",
        )

    def test_a_test_sequence(self):
        words = [value for frame in gsm_frames(DATA / "speech.gsm") for value in frame]
        for order in "<>":
            said = self.look(struct.pack(f"{order}{len(words)}H", *words), "seq.cod")
            self.assertEqual(
                said,
                "a test sequence of 40 frames of full rate (.cod), each of 76 words of 16 bits, which isn't read here",
            )

    def test_a_container_that_is_not_known(self):
        spoken = max((path.read_bytes() for path in SPOKEN), key=len)
        for size in (76, 160, 240):
            blocks = [
                b"\xa0\0\x07" + bytes([at & 0xFF]) + spoken[place : place + size]
                for at, place in enumerate(range(0, len(spoken) - size, size))
            ]
            content = b"".join(blocks)
            said = self.look(content)
            wanted = f"sound in blocks of {size + 4} octets with heads between, as it seems: a container that isn't known here"
            self.assertEqual(said, wanted)
            words = ["pcm", self.path("x.raw", content), self.folder / "new.pcm", "--raw"]
            self.assert_refused(lines.main, words, "sound in blocks of ")
            self.assertEqual(self.run_tool(lines.main, *words, "--trust")[0], 0)

    def test_late_starts(self):
        # An uplink that is idle for 45 s, a downlink after silence of A-law, and sound after an idle slot.
        for octet, line, kind in ((0xFF, UP, "an uplink"), (0xD5, DOWN, "a downlink")):
            content = 90_000 * bytes([octet]) + line
            first = 8 * 90_000 + 320 * (line is DOWN)
            self.assertTrue(
                self.look(content).startswith(f"{kind}, its first frame at bit {first}; ")
            )
        spoken = max((path.read_bytes() for path in SPOKEN), key=len)
        said = self.look(100_000 * b"\xff" + spoken)
        self.assertEqual(said, "A-law, as it seems; lines.py pcm FILE NEW.pcm --raw")
        # What follows isn't known; and idle to its end.
        noise = random.Random(4).randbytes(80_000)
        self.assertEqual(
            self.look(102_400 * b"\xff" + noise),
            "idle up to octet 102400: each octet is 0xff; from there on nothing that is known here",
        )
        self.assertEqual(self.look(3_000_000 * b"\x54"), "idle: each octet is 0x54")

    def test_idle_and_late_slots_of_a_line(self):
        # The first second is idle. The last quarter of a minute has a call in slot 9, and sound in slot 3.
        periods, start = 400, 300
        channels = [UP if number == 2 else b"\xff" * len(UP) for number in range(4)]
        slots = {3: max((path.read_bytes() for path in SPOKEN), key=len), 9: merged(channels)}
        slots = {
            number: (160 * start * b"\xff" + content)[: 160 * periods].ljust(160 * periods, b"\xff")
            for number, content in slots.items()
        }
        said = self.look(e1_lines.line(periods, slots))
        self.assertEqual(
            said, "an E1 line of 32 slots; lines.py slot FILE NEW.pcm --slot N --of 32"
        )
        self.assertEqual(
            self.more,
            [
                f"slot 9: channel 2 is an uplink, its first frame at bit {320 * start};"
                " lines.py slot FILE NEW.up --slot 9 --of 32 --channel J",
                "slots 1-2, 4-8, 10-31: idle where it was looked at: each octet is 0xff",
                "slot 3: A-law, as it seems",
            ],
        )

    def test_one_file_seen_alike_by_all(self):
        late = self.path("late", 90_000 * b"\xff" + UP)
        for command in ("pcm", "sound"):
            words = [command, late, self.folder / "new", *["--raw"] * (command == "pcm")]
            self.assert_refused(lines.main, words, "is an uplink, its first frame at bit 720000")
        for sizes in ((0, 100), (700, 5000), (70_000, 200_000), (600_000, 900_000)):
            content = bytes(sizes[0]) + random.Random(1).randbytes(sizes[1])
            blocks = [content[place : place + 70_000] for place in range(0, len(content), 70_000)]
            self.assertEqual(excerpts_of(content), excerpts_of_blocks(blocks))

    def test_the_order_of_bits_of_a_slot(self):
        # Uplinks alone: in the other order their sync bits match too, one bit on, in the channel 3 - J.
        for count in (1, 2, 4):
            for first in range(0, 5 - count):
                lines_of = {number: UP for number in range(first, first + count)}
                slot = merged([lines_of.get(number, b"\xff" * len(UP)) for number in range(4)])
                wanted = "; ".join(
                    f"channel {number} is an uplink, its first frame at bit 0"
                    for number in lines_of
                )
                command = "lines.py slot FILE NEW.up --channel J"
                self.assertEqual(self.look(slot), f"a time slot of 64 kbit/s: {wanted}; {command}")
                self.assertEqual(
                    self.look(octets_turned(slot)),
                    f"a time slot of 64 kbit/s: {wanted}, {TURNED}; {command} --lsb-first",
                )

    def test_an_order_of_bits_that_is_not_known(self):
        undecided = (BitWay(False, 0), BitWay(True, 0))
        with mock.patch.object(bit_order, "decide", return_value=BitOrder(undecided, "undecided")):
            said = self.look(merged([UP, *3 * [b"\xff" * len(UP)]]))
        self.assertEqual(
            said, "a time slot of 64 kbit/s, whose frames don't say in which order its bits are"
        )
        self.assertEqual(len(self.more), 2)
        self.assertTrue(self.more[0].startswith("as it may be: channel 0 is an uplink"))
        self.assertTrue(self.more[1].endswith(" --channel J --lsb-first"))

    # A slot with frames in three channels.
    UPLINKS = merged([UP[:4000], bytes(4000), shifted(UP, 5)[:4000], UP[:4000]])[:3000]
    FOUND = "; ".join(
        f"channel {number} is an uplink, its first frame at bit {bit}"
        for number, bit in ((0, 0), (2, 5), (3, 0))
    )

    def test_the_slots_of_a_line(self):
        idle = "idle: each octet is 0xd5, silence of A-law"
        line = e1(self.UPLINKS)
        for bits in (0, 1, 2, 7, 8, 13):
            skip = f"{' --skip 1' * (bits > 7)}{f' --skip-bits {bits % 8}' * (bits % 8 > 0)}"
            where = f"bit {bits % 8}" + " of octet 1" * (bits > 7) if bits % 8 else "octet 1"
            for turned in (False, True):
                moved = shifted(line, bits)
                said = self.look(octets_turned(moved) if turned else moved)
                order = " --lsb-first" * turned
                began = f" from {where} on" if bits else ""
                command = f"lines.py slot FILE NEW.pcm --slot N --of 32{skip}{order}"
                self.assertEqual(
                    said, f"an E1 line of 32 slots{began}{f', {TURNED}' * turned}; {command}"
                )
                command = f"lines.py slot FILE NEW.up --slot 16 --of 32 --channel J{skip}{order}"
                self.assertEqual(
                    self.more, [f"slot 16: {self.FOUND}; {command}", f"slots 1-15, 17-31: {idle}"]
                )
                # The command that is named gives each line.
                names = {"FILE": self.path("file"), "NEW.up": self.path("new.up"), "J": 2}
                self.assertEqual(
                    self.run_tool(
                        lines.main, *(names.get(word, word) for word in command.split()[1:])
                    )[::2],
                    (0, ""),
                )
                self.assertEqual(
                    bits_of(self.path("new.up").read_bytes())[:5900], bits_of(shifted(UP, 5))[:5900]
                )

    def test_the_slots_of_a_line_without_the_signal(self):
        line = b"".join(bytes(9) + bytes([octet]) + 22 * b"\xff" for octet in self.UPLINKS[:2000])
        for bits in (0, 1):
            skip = " --skip-bits 1" * bits
            said = f"a line of 32 slots{' from bit 1 on' * bits}, without the signal of an E1 line; lines.py slot FILE NEW.pcm --slot N --of 32{skip}"
            self.assertEqual(self.look(shifted(line, bits)), said)
            self.assertEqual(
                self.more[0],
                f"slot 9: {self.FOUND}; lines.py slot FILE NEW.up --slot 9 --of 32 --channel J{skip}",
            )
            self.assertEqual(
                self.more[1:],
                [
                    "slots 0-8: idle: each octet is 0x00",
                    "slots 10-31: idle: each octet is 0xff",
                ],
            )

    def test_slots_that_begin_within_an_octet(self):
        for bits in (1, 3, 5, 7):
            said = self.look(shifted(self.UPLINKS, bits))
            self.assertTrue(
                said.startswith("a time slot of 64 kbit/s from bit 1 on: channel "), said
            )
            self.assertEqual(said.count(" is an uplink"), 3)
            self.assertTrue(
                said.endswith("; lines.py slot FILE NEW.up --channel J --skip-bits 1"), said
            )
        self.assertTrue(
            self.look(shifted(self.UPLINKS, 1)).startswith(
                f"a time slot of 64 kbit/s from bit 1 on: {self.FOUND}; "
            )
        )
        # Sound and noise of other slots aren't taken for frames, and what is alike is said together.
        noise, spoken = random.Random(2).randbytes(3000), SPOKEN[0].read_bytes()[:3000]
        frames = zip(
            *(
                noise if number in (3, 9) else spoken if number == 4 else 3000 * b"\x54"
                for number in range(1, 32)
            )
        )
        line = b"".join(
            bytes([0x1B if place % 2 else 0x40, *frame]) for place, frame in enumerate(frames)
        )
        self.assertTrue(self.look(line).startswith("an E1 line of 32 slots; "))
        idle, unknown = (
            "slots 1-2, 5-8, 10-31: idle: each octet is 0x54",
            "slots 3, 9: nothing that is known here",
        )
        self.assertEqual(self.more, [idle, unknown, "slot 4: A-law, as it seems"])

    def test_what_gzip_packed(self):
        packed = "packed by gzip: "
        for content, name, wanted in (
            (
                UP,
                "7.up.gz",
                "an uplink, its first frame at bit 0; gunzip -k FILE; trau run takes it as C.up, and makes sound of it",
            ),
            (
                DOWN,
                "7.down.gz",
                "a downlink, its first frame at bit 320; lines.py listen FILE NEW.wav",
            ),
            (
                (DATA / "gsm.pcap").read_bytes(),
                "x.pcap.gz",
                "a pcap capture; lines.py pcap FILE NEW",
            ),
            (SPOKEN[0].read_bytes(), "7.out.gz", "A-law, as it seems; lines.py sound FILE NEW.wav"),
            (
                b"fLaC" + bytes(40),
                "x.flac.gz",
                "a FLAC file; gunzip -k FILE; sox -D x.flac -r 8000 -c 1 -b 16 -e signed-integer NEW.wav",
            ),
            (archive(), "x.tar.gz", "a tar archive; gunzip -k FILE; tar xf x.tar"),
            (
                b"0 open 1\n",
                "orders.gz",
                "a text of orders; gunzip -k FILE; orders.py check orders",
            ),
            (b"", "empty.gz", "empty"),
        ):
            said = self.look(gzip.compress(content), name)
            self.assertEqual(said.replace(f"{self.folder}/", ""), packed + wanted)
        # As much of a truncated file as is there; a file that gzip didn't pack is what it is.
        self.assertTrue(
            self.look(gzip.compress(UP)[:-20], "7.up.gz").startswith(f"{packed}an uplink, ")
        )
        self.assertTrue(self.look(UP, "7.up.gz").startswith("an uplink, "))
        self.assertEqual(
            self.look(gzip.compress(UP), "7.up"),
            "packed by gzip; lines.py reads such files where their names end with .gz",
        )
        status, out, err = self.run_tool(
            lines.main, "look", self.path("bad.gz", gzip.compress(UP)[:10] + 40 * b"\xff")
        )
        self.assertEqual((status, out, err.count("\n")), (2, "", 1))

    def test_sound_by_statistics(self):
        for path in SPOKEN:
            octets = path.read_bytes()
            if len(set(octets)) < readings.LEAST_DISTINCT:
                continue
            raw = "lines.py pcm FILE NEW.pcm --raw"
            for content, wanted in (
                (octets, f"A-law, as it seems; {raw}"),
                (octets.translate(TO_MULAW), f"mu-law, as it seems; {raw} --law mulaw"),
                (octets_turned(octets), f"A-law, as it seems, {TURNED}; {raw} --lsb-first"),
                (
                    octets_turned(octets.translate(TO_MULAW)),
                    f"mu-law, as it seems, {TURNED}; {raw} --lsb-first --law mulaw",
                ),
            ):
                self.assertEqual(self.look(content), wanted, path)
        for path in SPOKEN[:2]:
            said = self.look(linear(path.read_bytes()))
            self.assertEqual(
                said,
                "sound of 16 bits a sample, as it seems; sox -D -t raw -r 8000 -c 1 -b 16 -e signed-integer FILE NEW.wav",
            )

    def test_sound_of_lines(self):
        spoken = SPOKEN[0].read_bytes()
        for name in ("1.out", "1.pcm"):
            self.assertEqual(
                self.look(spoken, name), "A-law, as it seems; lines.py sound FILE NEW.wav"
            )
            self.assertEqual(
                self.look(spoken.translate(TO_MULAW), name),
                "mu-law, as it seems; lines.py sound FILE NEW.wav --law mulaw",
            )
        self.assertTrue(
            self.look(octets_turned(spoken), "1.out").endswith(
                "; lines.py pcm FILE NEW.pcm --raw --lsb-first"
            )
        )

    def test_idle_sound(self):
        for law, word in ((Law.A, ""), (Law.MU, " --law mulaw")):
            for octets in (
                [law.idle(), law.idle() ^ 0x80],
                [law.idle(), law.idle() ^ 0x80, law.idle() ^ 1],
            ):
                content = bytes(random.Random(3).choices(octets, k=3300))
                self.assertTrue(self.look(content).startswith(f"{law.title()}, as it seems;"))
            for octet in (law.idle(), law.idle() ^ 0x80):
                slot = "as of an idle slot, or " * (octet == 0xFF)
                said = f"idle: each octet is 0x{octet:02x}, {slot}silence of {law.title()}"
                self.assertEqual(
                    self.look(3300 * bytes([octet])),
                    f"{said}; lines.py pcm FILE NEW.pcm --raw{word}",
                )
                self.assertEqual(
                    self.look(3300 * bytes([octet]), "1.out"),
                    f"{said}; lines.py sound FILE NEW.wav{word}",
                )
        for octet in (0x00, 0x54, 0x7E):
            self.assertEqual(self.look(160 * bytes([octet])), f"idle: each octet is 0x{octet:02x}")
        self.assertEqual(self.look(159 * b"\xd5"), "nothing that is known here")

    def test_too_little_for_statistics(self):
        self.assertEqual(self.look(SPOKEN[0].read_bytes()[4000:4799]), "nothing that is known here")

    def test_names_in_commands(self):
        for name, word in (("a b.gsm", "'a b.gsm'"), ("-x.gsm", "./-x.gsm"), ("x.gsm", "x.gsm")):
            found = file_kinds.look(excerpts_of((DATA / "speech.gsm").read_bytes()))
            self.assertEqual(
                file_kinds.command_for(found, Path(name)), f"; lines.py uplink {word} NEW.up"
            )
            found = file_kinds.look(excerpts_of(b"fLaC" + bytes(40)))
            self.assertTrue(
                file_kinds.command_for(found, Path(name)).startswith(f"; sox -D {word} -r 8000")
            )

    def test_several_files(self):
        one, other = self.path("1.up", UP), self.path("a b", b"")
        status, out, err = self.run_tool(lines.main, "look", one, other)
        self.assertEqual((status, out.splitlines()[1], err), (0, f"{other}: empty", ""))
        status, out, err = self.run_tool(
            lines.main, "look", one, self.folder, self.path("gone"), other
        )
        self.assertEqual((status, out.splitlines()[1:]), (2, [f"{other}: empty"]))
        self.assertEqual(
            err,
            f"lines.py: {self.folder}: Is a directory\nlines.py: {self.path('gone')}: No such file or directory\n",
        )
        self.assert_refused(lines.main, ["look", self.folder / "gone"], "gone: No such file")
        self.assert_refused(lines.main, ["look", self.folder], "Is a directory")


class Refused(InFolder):
    def test_names_with_control_characters(self):
        name = self.path("a\nb\x1b.txt", b"text\n")
        status, out, err = self.run_tool(lines.main, "look", name, self.folder / "no\tfile")
        self.assertEqual((status, out), (2, f"{self.folder}/a\\nb\\x1b.txt: a text\n"))
        self.assertEqual(err, f"lines.py: {self.folder}/no\\tfile: No such file or directory\n")

    def test_what_is_no_plain_wav_file(self):
        for name, content, said in (
            (
                "7.au",
                b".snd" + bytes(30),
                "is an .au file, and no plain WAV file; sox -D 7.au -r 8000 ",
            ),
            (
                "7.wav",
                b"RF64" + bytes(30),
                "is a WAV file of 64 bits, and no plain WAV file; sox -D 7.wav ",
            ),
            (
                "7.gsm",
                (DATA / "speech.gsm").read_bytes(),
                "is 40 frames of libgsm, and no plain WAV file; lines.py uplink 7.gsm ",
            ),
            (
                "7.up",
                UP,
                "is an uplink, its first frame at bit 0, and no plain WAV file; trau run takes it",
            ),
            (
                "7.au.gz",
                gzip.compress(b".snd" + bytes(30)),
                "; gunzip -k 7.au.gz; sox -D 7.au -r 8000 ",
            ),
            (
                "7.wav.gz",
                gzip.compress(wav(rate=16000)),
                "; sox makes it: gunzip -k 7.wav.gz; sox -D 7.wav -r 8000 ",
            ),
        ):
            path = self.path(name, content)
            words = ["pcm", path, self.folder / "7.pcm"]
            self.assert_refused(lines.main, words, "lines.py: ")
            _, _, err = self.run_tool(lines.main, *words)
            self.assertIn(said, err.replace(f"{self.folder}/", ""))
        words = ["uplink", self.path("7.wav.gz", gzip.compress(wav())), self.folder / "7.up"]
        self.assertIn("of it: gunzip -k ", self.run_tool(lines.main, *words)[2])

    def test_raw(self):
        spoken, new = SPOKEN[0].read_bytes(), self.path("new")
        for words, content, part in (
            (
                [],
                spoken.translate(TO_MULAW),
                "is mu-law, as it seems, and no A-law; lines.py pcm FILE NEW.pcm --raw --law mulaw",
            ),
            (
                ["--law", "mulaw"],
                spoken,
                "is A-law, as it seems, and no mu-law; lines.py pcm FILE NEW.pcm --raw; --trust",
            ),
            (
                [],
                octets_turned(spoken),
                f"is A-law, as it seems, {TURNED}, and no A-law; lines.py pcm FILE NEW.pcm --raw --lsb-first",
            ),
            (
                [],
                linear(spoken),
                "is sound of 16 bits a sample, as it seems, and no A-law; sox -D -t raw ",
            ),
            ([], b"fLaC" + bytes(4000), "is a FLAC file, and no A-law; sox -D FILE -r 8000"),
            (
                [],
                (DATA / "speech.gsm").read_bytes(),
                "is 40 frames of libgsm, and no A-law; lines.py uplink FILE NEW.up",
            ),
            (
                [],
                (DATA / "gsm.pcap").read_bytes(),
                "is a pcap capture, and no A-law; lines.py pcap FILE NEW",
            ),
            (
                [],
                e1(UP[:1000]),
                "is an E1 line of 32 slots, and no A-law; lines.py slot FILE NEW.pcm --slot N --of 32",
            ),
            (
                [],
                octets_turned(UP),
                f"is an uplink, its first frame at bit 0, {TURNED}, and no A-law; lines.py slot FILE NEW",
            ),
        ):
            path = self.path("raw", content)
            self.assert_refused(
                lines.main, ["pcm", path, new, "--raw", *words], part.replace("FILE", str(path))
            )
            self.assertEqual(
                self.run_tool(lines.main, "pcm", path, new, "--raw", "--trust", *words)[0], 0
            )
            new.unlink()

    def test_raw_that_is_taken(self):
        # All lines of the examples, also those with tones and noise of which nothing can be said.
        for path in (
            *FARM.glob("*.pcm"),
            *(FARM / "wanted").glob("*.out"),
            *CODEC.glob("*.pcm"),
            *CODEC.glob("*.out"),
        ):
            octets = path.read_bytes()
            self.assertEqual(
                self.run_tool(lines.main, "pcm", path, self.path("new"), "--raw")[2], "", path
            )
            mulaw = self.path("mulaw", octets.translate(TO_MULAW))
            self.assertEqual(
                self.run_tool(
                    lines.main, "pcm", mulaw, self.path("new"), "--raw", "--law", "mulaw"
                )[2],
                "",
                path,
            )

    def test_tones_and_noise_are_taken(self):
        source = random.Random(1)
        sounds = [[source.randint(-9000, 9000) for _ in range(4000)]]
        for hertz in (50, 440, 1000, 1020, 2000, 2850, 3450):
            for peak in (30, 3000, 32000):
                sounds.append(
                    [
                        round(peak * math.sin(2 * math.pi * hertz * place / 8000))
                        for place in range(4000)
                    ]
                )
        for law in Law:
            table = octets_by_sample(law)
            for samples in sounds:
                self.assertIsNone(
                    readings.plainly_other(bytes(table[sample] for sample in samples), law)
                )

    def test_turned_octets(self):
        spoken, new = SPOKEN[0].read_bytes(), self.path("new")
        path = self.path("raw", octets_turned(spoken))
        said = self.run_tool(lines.main, "pcm", path, new, "--raw", "--lsb-first")
        self.assertEqual((said[0], new.read_bytes()[: len(spoken)]), (0, spoken))

    def test_uplink(self):
        new = self.path("new")
        for content, part in (
            (b".snd" + bytes(62), "is an .au file, and no frames of libgsm; sox -D FILE -r 8000"),
            (
                UP,
                "is an uplink, its first frame at bit 0, and no frames of libgsm; trau run takes it as C.up",
            ),
            (
                DOWN,
                "is a downlink, its first frame at bit 320, and no frames of libgsm; lines.py listen",
            ),
            (
                (DATA / "gsm.pcap").read_bytes(),
                "is a pcap capture, and no frames of libgsm; lines.py pcap",
            ),
            (330 * b"\xd5", "nearly each of its octets begins with 1101, as in idle A-law"),
        ):
            path = self.path("given", content)
            self.assert_refused(lines.main, ["uplink", path, new], part.replace("FILE", str(path)))

    def test_lines_of_orders(self):
        spoken = SPOKEN[0].read_bytes()[:16000]
        for up, pcm, law, part in (
            (UP, spoken, "", None),
            (shifted(UP, 13), bytes(16000), "", None),
            (
                DOWN,
                spoken,
                "",
                "1.up is a downlink, its first frame at bit 320, and no uplink; lines.py listen",
            ),
            (
                wav(data=bytes(99)),
                spoken,
                "",
                "1.up is a WAV file, 8000 Hz, channels 1, bits 16 linear, and no uplink; lines.py pcm",
            ),
            (
                octets_turned(UP),
                spoken,
                "",
                f"1.up is an uplink, its first frame at bit 0, {TURNED}, and no uplink; lines.py slot",
            ),
            (
                UP,
                spoken.translate(TO_MULAW),
                "",
                "1.pcm is mu-law, as it seems, and no A-law; lines.py pcm",
            ),
            (UP, spoken.translate(TO_MULAW), " mulaw", None),
            (UP, spoken, " mulaw", "1.pcm is A-law, as it seems, and no mu-law; lines.py pcm"),
            (UP, UP, "", "1.pcm is an uplink, its first frame at bit 0, and no A-law; trau run"),
            (
                EFR,
                spoken,
                "",
                "1.up is a line of enhanced full rate speech (C1 to C5 11010), which trau doesn't decode, its first frame",
            ),
        ):
            self.path("1.up", up)
            self.path("1.pcm", pcm)
            given = self.path("orders.txt", f"0 open 1{law}\n".encode())
            status, out, err = self.run_tool(orders.main, "check", given, "--lines", self.folder)
            warned = [line for line in out.splitlines() if "warning:" in line]
            self.assertEqual((status, err, len(warned)), (0, "", 0 if part is None else 1), out)
            self.assertIn(f"line 1: warning: {part}" if part else "orders 1 bad 0 warnings 0", out)


if __name__ == "__main__":
    unittest.main()
