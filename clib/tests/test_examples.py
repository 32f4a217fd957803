"""The hosts of clib/examples: each over losses or sequences that are made here, beside the model and recorded answers of libgsm."""

from __future__ import annotations

import errno
import os
import random
import shutil
import socket
import struct
import subprocess
import sys
import tempfile
import time
import unittest
import wave
from array import array
from pathlib import Path
from typing import List, Sequence, Tuple

HERE = Path(__file__).resolve().parent
TOP = HERE.parents[1]
EXAMPLES = HERE.parent / "examples"
VECTORS = TOP / "checks" / "vectors"

import conform
from trau import trau_fr
from trau.rules.parameters import parameters_of_bits
from trau.model import call as calls_of_model
from trau.model.receive import effective_frames
from random_sides import Period, first_difference, packed, uplink_frame

LIBRARY = Path(os.environ.get("TRAU_CLIB") or HERE.parent / "out").resolve()
LOST = trau_fr.Kind.LOST


def run(words: Sequence[object], **more: object) -> "subprocess.CompletedProcess[str]":
    """A command, with what it prints."""
    said = [str(word) for word in words]
    return subprocess.run(said, stdout=subprocess.PIPE, stderr=subprocess.PIPE, stdin=subprocess.DEVNULL, text=True, **more)  # type: ignore


def answers(words: Sequence[str]) -> bool:
    """Whether a command exists and ends with status 0."""
    return shutil.which(words[0]) is not None and run(words).returncode == 0


def lossy_recording(frames: int) -> Tuple[List[bytes], str]:
    """Frames of recorded speech with a pause of silence descriptors, and for each a digit, 1 where it is lost. The first and the last aren't."""
    draw, sender = random.Random(7), trau_fr.Sender()
    samples = trau_fr.expand((VECTORS / "speech-en-m3.pcm").read_bytes()[: 160 * frames])
    pause = range(frames // 2, frames // 2 + 40)
    level = [32767 if k in pause else 0 for k in range(frames)]
    sent = [
        sender.send(samples[160 * k : 160 * k + 160], level[k], True).octets for k in range(frames)
    ]
    lost = ""
    while len(lost) < frames:
        lost += "0" * draw.choice((1, 3, 8)) + "1" * draw.choice((1, 1, 2, 5, 20))
    return sent, "0" + lost[1 : frames - 1] + "0"


def brought(frame: bytes, lost: str) -> Period:
    """What a period brings: a lost frame, or a frame with the kind of its code word."""
    return (
        Period(LOST, False, bytes(33))
        if lost == "1"
        else Period(trau_fr.kind_of(frame), False, frame)
    )


def damaged(descriptor: bytes) -> bytes:
    """The same descriptor with three wrong bits of its code word: the first bits of pulses 1 to 3."""
    number = int.from_bytes(descriptor, "big")
    for at in (57, 60, 63):
        number |= 1 << (263 - at)
    return number.to_bytes(33, "big")


def is_damaged(period: Period) -> bool:
    """Whether a frame came in this period that isn't used."""
    return period.kind == LOST and period.octets[0] != 0


class InFolder(unittest.TestCase):
    def setUp(self) -> None:
        work = tempfile.TemporaryDirectory()
        self.addCleanup(work.cleanup)
        self.folder = Path(work.name)

    def lossy(self, frames: int) -> List[Period]:
        """Writes frames.gsm and lost.txt; returns what each period brings."""
        sent, lost = lossy_recording(frames)
        (self.folder / "frames.gsm").write_bytes(b"".join(sent))
        (self.folder / "lost.txt").write_text(lost)
        return [brought(frame, digit) for frame, digit in zip(sent, lost)]

    def out_line(self, periods: Sequence[Period], call: int = 1) -> bytes:
        """What the model's `run` writes to Out of a call whose uplink has these periods."""
        (self.folder / f"{call}.up").write_bytes(
            b"".join(trau_fr.write_uplink(each.octets, each.kind, each.taf) for each in periods)
        )
        (self.folder / f"{call}.pcm").write_bytes(b"\xd5" * 160 * len(periods))
        words = [TOP / "model" / "trau", "run"]
        subprocess.run(
            words,
            input=f"0 open {call}\n".encode(),
            stdout=subprocess.DEVNULL,
            cwd=self.folder,
            check=True,
        )
        return (self.folder / f"{call}.out").read_bytes()


class Programs(InFolder):
    """Programs in C over a library."""

    def built(self, source: Path, library: str = "trau_fr") -> Path:
        """A program of this source."""
        program = self.folder / "example"
        with_library = [f"-I{LIBRARY / 'include'}", source, LIBRARY / "lib" / f"lib{library}.a"]
        words = [os.environ.get("CC", "cc"), "-O2", "-Wall", "-Wextra", "-o", program]
        done = run([*words, *with_library])
        self.assertEqual((done.returncode, done.stderr), (0, ""))
        return program

    def printed(self, source: Path, given: bytes) -> bytes:
        """What a program of this source makes of standard input."""
        program = self.built(source)
        return subprocess.run([program], input=given, stdout=subprocess.PIPE, check=True).stdout


class Heard(Programs):
    """The program of the first page."""

    def test_frames_are_heard_as_by_the_receive_side(self) -> None:
        frames = lossy_recording(100)[0]
        frames[20] = bytes(33)  # no frame: it is lost
        receiver = trau_fr.Receiver(1)
        wanted = b"".join(receiver.receive(frame).tobytes() for frame in frames)
        self.assertEqual(self.printed(EXAMPLES / "heard.c", b"".join(frames)), wanted)


def loopback() -> socket.socket:
    """A socket on a free port of this host, for one of which a packet waits a second at most."""
    found = socket.socket(socket.AF_INET, socket.SOCK_DGRAM)
    found.bind(("127.0.0.1", 0))
    found.settimeout(1)
    return found


class Call(Programs):
    """The program that carries a call."""

    PERIODS = 100
    # The octets of a record, and those of its lines: Up, Pcm, Down, Out.
    SIZE = 400
    FIELDS = (0, 40), (40, 200), (200, 240), (240, 400)

    def carried(self, program: Path, peers: Sequence[socket.socket]) -> bytes:
        """The records of a call to which both peers send packets until it ends."""
        with loopback() as gsm, loopback() as pcm:
            here = [each.getsockname()[1] for each in (gsm, pcm)]
        there = [each.getsockname()[1] for each in peers]
        words = [str(program), *(str(port) for pair in zip(here, there) for port in pair)]
        frames = lossy_recording(100)[0]
        line = (VECTORS / "speech-en-m3.pcm").read_bytes()
        number = 0
        with open(self.folder / "records", "w+b") as records:
            with subprocess.Popen([*words, str(self.PERIODS)], stdout=records) as call:
                while call.poll() is None:
                    at = number % 100
                    payloads = (3, frames[at]), (8, line[160 * at : 160 * at + 160])
                    for peer, port, (kind, payload) in zip(peers, here, payloads):
                        header = struct.pack(">BBHII", 0x80, kind, number, 160 * number, kind)
                        peer.sendto(header + payload, ("127.0.0.1", port))
                    number += 1
                    time.sleep(0.02)
            self.assertEqual(call.returncode, 0)
            records.seek(0)
            return records.read()

    def test_the_records_replay(self) -> None:
        with loopback() as station, loopback() as exchange:
            octets = self.carried(self.built(EXAMPLES / "call.c", "trau_call"), (station, exchange))
            first = exchange.recv(200)
        self.assertEqual(len(octets), self.SIZE * self.PERIODS)
        records = [octets[at : at + self.SIZE] for at in range(0, len(octets), self.SIZE)]
        lines = [b"".join(record[a:b] for record in records) for a, b in self.FIELDS]
        (self.folder / "1.up").write_bytes(lines[0])
        (self.folder / "1.pcm").write_bytes(lines[1])
        orders = b"0 open 1\n0 dtx 1 on\n"
        words = [TOP / "model" / "trau", "run"]
        subprocess.run(words, input=orders, stdout=subprocess.DEVNULL, cwd=self.folder, check=True)
        self.assertEqual((self.folder / "1.out").read_bytes(), lines[3])
        self.assertEqual((self.folder / "1.down").read_bytes()[40:], lines[2][:-40])
        self.assertEqual(first[12:], lines[3][:160])


class Header(Programs):
    """The examples in the header's comment."""

    # For the host: a period is an octet, 0 if nothing came, and a frame.
    BEFORE = "#include <stdio.h>\n#include <trau_fr.h>\n"
    RECEIVES = """
int main(void)
{
    struct call call = {trau_fr_receiver_home(1), 0};
    uint8_t period[1 + TRAU_FR_OCTETS], line[160];

    while (fread(period, sizeof period, 1, stdin) == 1) {
        tick(&call, period[0] ? period + 1 : NULL, line);
        fwrite(line, sizeof line, 1, stdout);
    }
    return 0;
}
"""

    # It writes an octet for each period, 1 if its frame is sent, and the frame.
    SENDS = """
int main(void)
{
    struct talk talk = {trau_fr_sender_home(), 0};
    int16_t samples[TRAU_FR_SAMPLES];
    uint8_t octets[TRAU_FR_OCTETS];

    while (fread(samples, sizeof samples, 1, stdin) == 1) {
        putchar(next(&talk, samples, octets));
        fwrite(octets, sizeof octets, 1, stdout);
    }
    return 0;
}
"""

    def output(self, first: str, given: bytes, before: str = "", after: str = "") -> bytes:
        """What the example whose first line this is makes of standard input."""
        lines = (HERE.parent / "trau_fr.h").read_text().split("\n")
        start = lines.index(f" *     {first}")
        end = next(
            k
            for k in range(start, len(lines))
            if not lines[k].startswith(" *     ") and lines[k].strip() != "*"
        )
        source = self.folder / "example.c"
        source.write_text(before + "\n".join(line[7:] for line in lines[start:end]) + after)
        return self.printed(source, given)

    def test_encoder(self) -> None:
        samples = trau_fr.expand((VECTORS / "harsh.pcm").read_bytes()).tobytes()
        self.assertEqual(
            self.output("#include <stdio.h>", samples), (HERE / "data" / "harsh.gsm").read_bytes()
        )

    def test_receiving_host(self) -> None:
        # Speech, a pause in which the descriptors stop coming, and speech; TAF in each 24th period after the last descriptor.
        frames = lossy_recording(100)[0]
        came = [*frames[:60], *[None] * 90, *frames[90:]]
        periods = [brought(frame or bytes(33), "0" if frame else "1") for frame in came]
        last = max(k for k in range(60) if periods[k].kind == trau_fr.Kind.DESCRIPTOR)
        for due in range(last + 24, 150, 24):
            periods[due] = periods[due]._replace(taf=True)
        given = b"".join(bytes([frame is not None]) + (frame or bytes(33)) for frame in came)
        self.assertEqual(
            self.output("struct call {", given, self.BEFORE, self.RECEIVES), self.out_line(periods)
        )

    def test_sending_host(self) -> None:
        # Speech, a pause, and speech: of the descriptors of the pause the first and each 24th after it are sent.
        speech = struct.pack("<160h", *(8000 if k % 40 < 20 else -8000 for k in range(160))) * 40
        samples = speech + bytes(320 * 80) + speech
        sender = trau_fr.Sender()
        made = [sender.send(samples[at : at + 320], dtx=True) for at in range(0, len(samples), 320)]
        descriptors = [k for k, frame in enumerate(made) if not frame.speech]
        self.assertEqual(descriptors, list(range(45, 120)))
        sent = [frame.speech or k in (45, 69, 93, 117) for k, frame in enumerate(made)]
        wanted = b"".join(bytes([is_sent]) + frame.octets for is_sent, frame in zip(sent, made))
        self.assertEqual(self.output("struct talk {", samples, self.BEFORE, self.SENDS), wanted)


class Conform(InFolder):
    """Sequences in the published form, of a recorded line and of libgsm's frames and samples for it."""

    def sequences(self, order: str = "<") -> None:
        """SEQ01.INP, .COD and .OUT in the folder, with words in this order of octets."""
        frames = (HERE / "data" / "harsh.gsm").read_bytes()
        codes = [
            value
            for at in range(0, len(frames), 33)
            for value in conform.unpacked(frames[at : at + 33])
        ]
        samples = (HERE / "data" / "harsh.samples").read_bytes()
        self.put(".INP", list(trau_fr.expand((VECTORS / "harsh.pcm").read_bytes())), order)
        self.put(".COD", codes, order)
        self.put(".OUT", list(struct.unpack(f"<{len(samples) // 2}h", samples)), order)

    def put(self, ending: str, words: List[int], order: str) -> None:
        (self.folder / f"SEQ01{ending}").write_bytes(struct.pack(f"{order}{len(words)}h", *words))

    def said(self, *words: str) -> Tuple[int, str]:
        done = run([sys.executable, EXAMPLES / "conform.py", self.folder, *words])
        return done.returncode, done.stdout + done.stderr

    def test_equal(self) -> None:
        wanted = (0, "seq01 encoder, 254 frames: equal\nseq01 decoder, 254 frames: equal\n")
        self.sequences()
        self.assertEqual(self.said(), wanted)
        self.sequences(">")
        self.assertEqual(self.said("--byte-order", "big"), wanted)

    def test_other_byte_order(self) -> None:
        self.sequences(">")
        status, text = self.said()
        self.assertEqual((status, text.count("\n")), (2, 1))
        self.assertIn("--byte-order", text)

    def test_a_word_that_differs(self) -> None:
        self.sequences()
        for ending, size, where in (
            (".COD", 76, "frame 3: Nc of block 1"),
            (".OUT", 160, "frame 3: sample 8"),
        ):
            with self.subTest(ending):
                self.sequences()
                file = self.folder / f"SEQ01{ending}"
                data = bytearray(file.read_bytes())
                data[2 * (3 * size + 8)] ^= 1 if ending == ".COD" else 8
                file.write_bytes(data)
                status, text = self.said()
                self.assertEqual(status, 1)
                self.assertIn(f"differs at {where}", text)

    def test_homing_frames(self) -> None:
        # The encoder starts again after its homing frame: frames of libgsm from the reset state, twice.
        speech, homing = trau_fr.expand((VECTORS / "harsh.pcm").read_bytes())[:1600], array(
            "h", [8] * 160
        )
        encoder, frames = trau_fr.Encoder(), (HERE / "data" / "harsh.gsm").read_bytes()[:330]
        codes = [
            value for at in range(0, 330, 33) for value in conform.unpacked(frames[at : at + 33])
        ]
        self.assertEqual(encoder.encode(speech), frames)
        between = conform.unpacked(encoder.encode(homing))
        self.put(".INP", [*speech, *homing, *speech], "<")
        self.put(".COD", codes + between + codes, "<")
        self.assertEqual(self.said("--homing"), (0, "seq01 encoder, 21 frames: equal\n"))
        self.assertEqual(self.said()[0], 1)

    def test_homing_frames_of_a_decoder(self) -> None:
        # So does the decoder; it then gives the encoder's homing frame for a further one.
        frames, homing = (HERE / "data" / "harsh.gsm").read_bytes()[:330], array("h", [8] * 160)
        decoder, frame = trau_fr.Decoder(), trau_fr.Encoder().encode(homing)
        samples = struct.unpack("<1600h", (HERE / "data" / "harsh.samples").read_bytes()[:3200])
        self.assertEqual(list(decoder.decode(frames)), list(samples))
        sequence = frames + 2 * frame + frames
        self.put(
            ".COD",
            [
                value
                for at in range(0, len(sequence), 33)
                for value in conform.unpacked(sequence[at : at + 33])
            ],
            "<",
        )
        self.put(".OUT", [*samples, *decoder.decode(frame), *homing, *samples], "<")
        self.assertEqual(self.said("--homing"), (0, "seq01 decoder, 22 frames: equal\n"))

    def test_a_sequence_that_is_too_short(self) -> None:
        self.sequences()
        file = self.folder / "SEQ01.OUT"
        file.write_bytes(file.read_bytes()[:-320])
        status, text = self.said()
        self.assertEqual(status, 1)
        self.assertIn("the sequence has 253 frames, and its input 254", text)

    def test_nothing_to_test(self) -> None:
        status, text = self.said()
        self.assertEqual((status, text.count("\n")), (2, 1))


@unittest.skipUnless(
    answers(["pkg-config", "--exists", "libosmocodec", "talloc"]),
    "libosmocore-dev or libtalloc-dev isn't installed",
)
class Ecu(InFolder):
    """The error concealment unit, registered with libosmocodec, beside the model."""

    # What a host does in a period: a frame goes in, or one comes out.
    OUT, IN, BAD = range(3)

    def built(self, *sources: Path) -> Path:
        """A program of the unit and of these sources."""
        flags = run(["pkg-config", "--cflags", "--libs", "libosmocodec", "talloc"]).stdout.split()
        library = [f"-I{LIBRARY / 'include'}", f"-I{EXAMPLES}", LIBRARY / "lib" / "libtrau_fr.a"]
        program = self.folder / sources[0].stem
        words = [
            "-O2",
            "-Wall",
            "-Wextra",
            "-o",
            program,
            EXAMPLES / "ecu.c",
            *sources,
            *library,
            *flags,
        ]
        built = run([os.environ.get("CC", "cc"), *words])
        self.assertEqual((built.returncode, built.stderr), (0, ""))
        return program

    def said(self, operations: Sequence[Tuple[int, int, int, bytes]]) -> List[str]:
        """What ecu_host.c prints for these operations: the state, what is done, the number of octets, and a frame."""
        given = b"".join(
            bytes((state, does, octets)) + frame.ljust(33, b"\0")
            for state, does, octets, frame in operations
        )
        done = subprocess.run(
            [self.built(HERE / "ecu_host.c")], input=given, stdout=subprocess.PIPE, check=True
        )
        first, second, third, *lines, last = done.stdout.decode().splitlines()
        busy = -errno.EBUSY
        self.assertEqual(
            (first, second, third, last),
            (f"register 0 again {busy} FR {busy}", "other none", "blocks 3", "blocks 1"),
        )
        return lines

    def test_maxima_are_those_of_the_model(self) -> None:
        periods = self.lossy(300)
        effective = effective_frames(1, [uplink_frame(period) for period in periods])
        done = run(
            [
                self.built(EXAMPLES / "ecu_compare.c"),
                self.folder / "frames.gsm",
                self.folder / "lost.txt",
            ]
        )
        self.assertEqual(done.returncode, 0)
        lines = [line for line in done.stdout.splitlines() if line.startswith("frame ")]
        wanted = [
            sum(block.xmaxc for block in frame.blocks)
            for frame, period in zip(effective, periods)
            if period.kind == LOST
        ]
        self.assertEqual([int(line.split(" trau ")[1].split()[0]) for line in lines], wanted)

    def test_frames_are_those_of_the_model(self) -> None:
        # Two calls at once: lost frames before the first good one, speech, pauses, damaged descriptors, and many lost in a row.
        recorded, lost = lossy_recording(300)
        frames = [
            damaged(frame)
            if k % 3 == 0 and trau_fr.kind_of(frame) == trau_fr.Kind.DESCRIPTOR
            else frame
            for k, frame in enumerate(recorded)
        ]
        calls = [
            [brought(frame, digit) for frame, digit in zip(part, "111" + lost[3:])]
            for part in (frames, frames[100:] + frames[:100])
        ]
        self.assertGreater(sum(is_damaged(period) for period in calls[0]), 3)
        turns = [(state, period) for both in zip(*calls) for state, period in enumerate(both)]
        lines = self.said(
            [
                (state, self.IN if period.octets[0] else self.OUT, 33, period.octets)
                for state, period in turns
            ]
        )
        for state, call in enumerate(calls):
            uplink = [uplink_frame(period) for period in call]
            handed = calls_of_model.handed(
                calls_of_model.Uplink([], uplink, effective_frames(1, uplink)), 0, len(call)
            )
            wanted = [
                "0" if period.octets[0] else f"33 {packed(parameters_of_bits(bits)).hex()}"
                for period, bits in zip(call, handed)
            ]
            self.assertEqual(
                (len(lines[state::2]), first_difference(wanted, lines[state::2])),
                (len(wanted), None),
            )

    def test_frames_that_do_nothing(self) -> None:
        # Frames with bfi, and those of another length, which are refused, between lost ones: these go on as without them.
        recorded, _ = lossy_recording(60)
        speech, descriptor = recorded[:10], recorded[40]
        self.assertEqual(trau_fr.kind_of(descriptor), trau_fr.Kind.DESCRIPTOR)
        nothing = [
            (0, self.BAD, 33, speech[0]),
            (0, self.BAD, 0, b""),
            *((0, self.IN, octets, speech[0]) for octets in (0, 32, 34)),
        ]
        comes, is_lost = [(0, self.IN, 33, frame) for frame in speech], (0, self.OUT, 0, b"")
        for last in (speech[9], descriptor):
            plain = self.said([*comes, (0, self.IN, 33, last), *[is_lost] * 20])
            mixed = self.said(
                [
                    *comes,
                    (0, self.IN, 33, last),
                    *[each for _ in range(20) for each in (*nothing, is_lost)],
                ]
            )
            refused = str(-errno.EINVAL)
            wanted = plain[:11] + [
                line for out in plain[11:] for line in ("0", "0", refused, refused, refused, out)
            ]
            self.assertEqual((len(mixed), first_difference(wanted, mixed)), (len(wanted), None))


def gstreamer() -> str:
    """A Python with GStreamer's bindings, or an empty word."""
    ask = "import gi; gi.require_version('Gst', '1.0'); from gi.repository import Gst; Gst.init(None); "
    ask += "assert all(map(Gst.ElementFactory.find, ('rtpjitterbuffer', 'appsrc', 'audioconvert', 'audiorate', 'wavenc')))"
    return next(
        (each for each in (sys.executable, "/usr/bin/python3") if answers([each, "-c", ask])), ""
    )


@unittest.skipUnless(
    gstreamer(),
    "gstreamer1.0-plugins-base, gstreamer1.0-plugins-good, gir1.2-gstreamer-1.0 or python3-gi isn't installed",
)
class GStreamer(InFolder):
    """What the host plays of a lossy recording, beside what a run writes to Out for the same losses."""

    def setUp(self) -> None:
        super().setUp()
        self.host = [gstreamer(), EXAMPLES / "gst_host.py"]
        self.environment = {**os.environ, "GST_REGISTRY": str(self.folder / "registry")}

    def heard(self, *words: str) -> "subprocess.CompletedProcess[str]":
        """What the host prints for the recording and these words."""
        given = ["--file", self.folder / "frames.gsm", "--lost", self.folder / "lost.txt", *words]
        return run([*self.host, *given], env=self.environment, timeout=120)

    def test_parts(self) -> None:
        done = run([gstreamer(), HERE / "gst_parts.py"], env=self.environment, timeout=300)
        self.assertEqual(done.returncode, 0, done.stderr)

    def test_sound_is_that_of_a_run(self) -> None:
        # The first packet that comes is the call's first period. By their times audiorate would leave out samples or put some in.
        periods = self.lossy(150)
        lost = sum(period.kind == LOST for period in periods)
        for call in (1, 7):
            sound = self.folder / "sound.wav"
            done = self.heard(
                "--sink",
                f"audiorate ! wavenc ! filesink location={sound}",
                *(["--seed", "7"] if call == 7 else []),
            )
            self.assertEqual((done.returncode, done.stdout), (0, f"periods 150 lost {lost}\n"))
            with wave.open(str(sound)) as file:
                self.assertEqual(file.getparams()[:3], (1, 2, 8000))
                samples = file.readframes(file.getnframes())
            self.assertEqual(trau_fr.compress(samples), self.out_line(periods, call))

    def test_an_error(self) -> None:
        self.lossy(10)
        done = self.heard("--sink", f"filesink location={self.folder / 'nowhere' / 'sound'}")
        self.assertEqual((done.returncode, done.stdout, done.stderr.count("\n")), (2, "", 1))
        self.assertRegex(done.stderr, "^gst_host.py: ")


if __name__ == "__main__":
    unittest.main()
