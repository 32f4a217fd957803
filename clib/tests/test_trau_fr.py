"""The Python module over the library, beside recorded answers of libgsm and Python's own numbers."""

from __future__ import annotations

import ctypes
import random
import sys
import unittest
from array import array
from pathlib import Path

HERE = Path(__file__).resolve().parent
VECTORS = HERE.parents[1] / "checks" / "vectors"

from trau.rules.frame import FrameKind, bits_of, data_of
from trau.rules.parameters import data_of_gsm, gsm_of_data
from trau.rules.profile import FIRST_LEVEL
from trau.recordings import code_word
from trau import trau_fr

try:
    import numpy
except ImportError:
    numpy = None


def frames_of(line: str) -> bytes:
    """The speech frames of an aligned TRAU line, 33 octets each."""
    bits = bits_of((VECTORS / line).read_bytes())
    return b"".join(gsm_of_data(data_of(bits[at : at + 320])) for at in range(0, len(bits), 320))


class Codec(unittest.TestCase):
    def setUp(self) -> None:
        self.line = (VECTORS / "harsh.pcm").read_bytes()
        self.octets = (HERE / "data" / "harsh.gsm").read_bytes()

    def test_frames_of_libgsm(self) -> None:
        self.assertEqual(trau_fr.Encoder().encode(trau_fr.expand(self.line)), self.octets)

    def test_in_parts(self) -> None:
        encoder, samples = trau_fr.Encoder(), trau_fr.expand(self.line)
        parts = [encoder.encode(samples[at : at + 480]) for at in range(0, len(samples), 480)]
        self.assertEqual(b"".join(parts), self.octets)

    def test_samples_of_libgsm(self) -> None:
        samples = trau_fr.Decoder().decode(self.octets)
        self.assertEqual(samples.tobytes(), (HERE / "data" / "harsh.samples").read_bytes())

    def test_samples_of_random_and_extreme_parameters(self) -> None:
        recorded = [int(word) for word in (VECTORS / "harsh.samples.txt").read_text().split()]
        self.assertEqual(list(trau_fr.Decoder().decode(frames_of("harsh.samples.up"))), recorded)

    def test_frame_of_silence(self) -> None:
        self.assertEqual(trau_fr.Encoder().encode(array("h", [0] * 160)), frames_of("silence.down"))

    def test_bytes_and_buffers(self) -> None:
        samples = trau_fr.expand(self.line[:160])
        frame = trau_fr.Encoder().encode(samples)
        for form in (samples.tobytes(), bytearray(samples.tobytes()), memoryview(samples)):
            self.assertEqual(trau_fr.Encoder().encode(form), frame)

    def test_refusals(self) -> None:
        with self.assertRaises(trau_fr.Refused):
            trau_fr.Decoder().decode(bytes(33))
        with self.assertRaises(ValueError):
            trau_fr.Decoder().decode(bytes(34))
        with self.assertRaises(ValueError):
            trau_fr.Encoder().encode(array("h", [0] * 159))
        for other in (
            array("d", [0.0] * 160),
            array("H", [0] * 160),
            (ctypes.c_int16.__ctype_be__ * 160)(),
        ):
            with self.assertRaises(ValueError):
                trau_fr.Encoder().encode(other)
        with self.assertRaises(ValueError):
            trau_fr.Decoder().decode(array("h", [0] * 33))
        with self.assertRaises(ValueError):
            trau_fr.expand(b"", "beta")

    def test_frames_before_a_refused_one(self) -> None:
        decoder, whole = trau_fr.Decoder(), trau_fr.Decoder().decode(self.octets[:99])
        with self.assertRaisesRegex(trau_fr.Refused, "^frame 2 "):
            decoder.decode(self.octets[:66] + bytes(33))
        self.assertEqual(decoder.decode(self.octets[66:99]), whole[320:])


def near_a_descriptor(draw: random.Random) -> bytes:
    """A frame with few bits of the code word, about as many as its limits have."""
    number = sum(1 << place for place in range(260) if draw.randrange(9) == 0)
    return (13 << 260 | number).to_bytes(33, "big")


class Version(unittest.TestCase):
    def test_version_is_that_of_the_changelog(self) -> None:
        changes = (HERE.parents[1] / "docs" / "CHANGELOG.md").read_text()
        newest = (
            next(line for line in changes.splitlines() if line.startswith("## "))
            .split()[1]
            .rstrip(",")
        )
        self.assertIn(
            f'#define TRAU_FR_VERSION "{newest}"\n', (HERE.parent / "trau_fr.h").read_text()
        )

    def test_level_is_that_of_a_call(self) -> None:
        self.assertEqual(trau_fr.LEVEL, FIRST_LEVEL)
        self.assertIn(
            f"#define TRAU_FR_LEVEL {FIRST_LEVEL}\n", (HERE.parent / "trau_fr.h").read_text()
        )


class Sides(unittest.TestCase):
    KINDS = {
        FrameKind.SPEECH: trau_fr.Kind.SPEECH,
        FrameKind.VALID_SID: trau_fr.Kind.DESCRIPTOR,
        FrameKind.INVALID_SID: trau_fr.Kind.LOST,
    }

    def setUp(self) -> None:
        self.octets = (HERE / "data" / "harsh.gsm").read_bytes()
        self.frame = self.octets[3300:3333]

    def test_kinds_are_those_of_the_tools(self) -> None:
        draw, seen = random.Random(1), set()
        frames = [self.octets[at : at + 33] for at in range(0, len(self.octets), 33)]
        for frame in (
            frames + [near_a_descriptor(draw) for _ in range(3000)] + [bytes([0xD0]) + bytes(32)]
        ):
            kind = trau_fr.kind_of(frame)
            self.assertEqual(kind, self.KINDS[code_word.kind_of(data_of_gsm(frame))])
            seen.add(kind)
        self.assertEqual(len(seen), 3)
        self.assertEqual(trau_fr.kind_of(bytes(33)), trau_fr.Kind.LOST)

    def test_a_receiver(self) -> None:
        receiver = trau_fr.Receiver(7)
        self.assertTrue(receiver.quiet)
        self.assertEqual(receiver.receive(None), array("h", [0] * 160))
        heard = receiver.receive(self.frame)
        self.assertFalse(receiver.quiet)
        self.assertEqual(heard, trau_fr.Decoder().decode(self.frame))
        receiver.receive(self.frame, trau_fr.Kind.IDLE)
        self.assertTrue(receiver.quiet)
        self.assertEqual(receiver.receive(self.frame), heard)

    def test_a_bridge(self) -> None:
        receiver = trau_fr.Receiver(7)
        silence = receiver.hand(None)
        self.assertEqual(
            trau_fr.write_downlink(silence, 0),
            trau_fr.write_downlink(receiver.hand(None, trau_fr.Kind.IDLE), 0),
        )
        self.assertEqual(receiver.hand(self.frame), self.frame)
        self.assertEqual(receiver.hand(None), self.frame)
        self.assertNotEqual(receiver.hand(None), self.frame)

    def test_a_bridge_that_ends_before_its_first_period(self) -> None:
        receiver = trau_fr.Receiver(7)
        receiver.receive(self.frame)
        for octets in (self.frame, None):
            receiver.begin_bridge()
            self.assertEqual(receiver.receive(octets), trau_fr.Decoder().decode(self.frame))

    def test_a_sender(self) -> None:
        samples = trau_fr.expand((VECTORS / "harsh.pcm").read_bytes())
        sender, quiet = trau_fr.Sender(), trau_fr.Sender()
        sent = [sender.send(samples[at : at + 160]) for at in range(0, len(samples), 160)]
        self.assertEqual(b"".join(each.octets for each in sent), self.octets)
        self.assertTrue(all(each.speech for each in sent))
        pause = [quiet.send(array("h", [0] * 160), dtx=True) for _ in range(9)]
        self.assertEqual([each.speech for each in pause], [True] * 4 + [False] * 5)
        self.assertEqual(trau_fr.kind_of(pause[-1].octets), trau_fr.Kind.DESCRIPTOR)

    def test_octets_of_a_line(self) -> None:
        line = (VECTORS / "harsh.pcm").read_bytes()
        for law in ("alaw", "mulaw"):
            sender, receiver, whole, heard = (
                trau_fr.Sender(),
                trau_fr.Receiver(7),
                trau_fr.Sender(),
                trau_fr.Receiver(7),
            )
            for at in range(0, len(line), 160):
                sent = sender.send_line(line[at : at + 160], 9000, True, law)
                self.assertEqual(
                    sent, whole.send(trau_fr.expand(line[at : at + 160], law), 9000, True)
                )
                taf = at % 480 == 0
                came = receiver.receive_line(
                    sent.octets, trau_fr.Kind.LOST if taf else None, taf, law
                )
                wanted = heard.receive(sent.octets, trau_fr.Kind.LOST if taf else None, taf)
                self.assertEqual(
                    (came, receiver.quiet), (trau_fr.compress(wanted, law), heard.quiet)
                )

    def test_buffers(self) -> None:
        samples = trau_fr.expand((VECTORS / "harsh.pcm").read_bytes()[:160])
        wanted, heard = trau_fr.Sender().send(samples), trau_fr.Receiver().receive(self.frame)
        for form in (bytes, bytearray, memoryview):
            self.assertEqual(trau_fr.Sender().send(form(samples.tobytes())), wanted)
            self.assertEqual(trau_fr.Receiver().receive(form(self.frame)), heard)
        if numpy:
            self.assertEqual(trau_fr.Sender().send(numpy.array(samples, numpy.int16)), wanted)
            self.assertEqual(
                trau_fr.Receiver().receive(numpy.frombuffer(self.frame, numpy.uint8)), heard
            )

    def test_lines(self) -> None:
        read = trau_fr.read_uplink(trau_fr.write_uplink(self.frame, trau_fr.Kind.DESCRIPTOR, True))
        self.assertEqual(read, trau_fr.Line(self.frame, trau_fr.Kind.DESCRIPTOR, True))
        read = trau_fr.read_downlink(trau_fr.write_downlink(self.frame, trau_fr.Kind.DESCRIPTOR))
        self.assertEqual(read, trau_fr.Line(self.frame, trau_fr.Kind.DESCRIPTOR, False))
        for reader in (trau_fr.read_uplink, trau_fr.read_downlink):
            with self.assertRaises(trau_fr.Refused):
                reader(bytes(40))
            with self.assertRaises(ValueError):
                reader(bytes(41))

    def test_values_that_are_refused(self) -> None:
        receiver, sender, samples = trau_fr.Receiver(), trau_fr.Sender(), array("h", [0] * 160)
        for wrong in (
            lambda: trau_fr.Receiver(65536),
            lambda: receiver.receive(self.frame[1:]),
            lambda: receiver.receive(self.frame, -1),
            lambda: receiver.hand(self.frame, 1 << 32),
            lambda: receiver.receive(samples[:33]),
            lambda: sender.send(samples[1:]),
            lambda: sender.send(samples, 32768),
            lambda: sender.send_line(bytes(161)),
            lambda: sender.send_line(bytes(160), law="beta"),
            lambda: receiver.receive_line(self.frame, law="beta"),
            lambda: receiver.receive_line(self.frame, -1),
            lambda: trau_fr.write_uplink(self.frame, -1),
        ):
            with self.assertRaises(ValueError):
                wrong()


@unittest.skipUnless(numpy, "python3-numpy isn't installed")
class Numpy(unittest.TestCase):
    def setUp(self) -> None:
        self.line = (VECTORS / "harsh.pcm").read_bytes()
        self.octets = (HERE / "data" / "harsh.gsm").read_bytes()
        self.samples = numpy.frombuffer(
            trau_fr.expand(numpy.frombuffer(self.line, numpy.uint8)), numpy.int16
        )

    def test_there_and_back(self) -> None:
        self.assertEqual(trau_fr.Encoder().encode(self.samples), self.octets)
        heard = numpy.frombuffer(
            trau_fr.Decoder().decode(numpy.frombuffer(self.octets, numpy.uint8)), numpy.int16
        )
        recorded = numpy.fromfile(HERE / "data" / "harsh.samples", "<i2")
        self.assertTrue(numpy.array_equal(heard, recorded))
        self.assertEqual(trau_fr.compress(self.samples), self.line)

    def test_shapes_and_steps(self) -> None:
        both = numpy.stack([self.samples, numpy.zeros_like(self.samples)], axis=1)
        self.assertEqual(trau_fr.Encoder().encode(both[:, 0]), self.octets)
        self.assertEqual(trau_fr.Encoder().encode(self.samples.reshape(-1, 160)), self.octets)

    def test_other_items(self) -> None:
        for other in (numpy.int32, numpy.float32, numpy.uint16, ">i2"):
            with self.assertRaises(ValueError):
                trau_fr.Encoder().encode(self.samples[:160].astype(other))
        with self.assertRaises(ValueError):
            trau_fr.Decoder().decode(numpy.zeros(33, numpy.int64))


class Laws(unittest.TestCase):
    def test_expanded(self) -> None:
        for law in ("alaw", "mulaw"):
            recorded = [int(line) for line in (VECTORS / f"{law}_expand.txt").read_text().split()]
            self.assertEqual(list(trau_fr.expand(bytes(range(256)), law)), recorded)

    def test_compressed(self) -> None:
        samples = array("h", range(-32768, 32768))
        self.assertEqual(
            trau_fr.compress(samples, "alaw"), (VECTORS / "alaw_compress.bin").read_bytes()
        )
        recorded = (VECTORS / "mulaw_compress.bin").read_bytes()
        self.assertEqual(trau_fr.compress(samples[32768:], "mulaw"), recorded)
        # The sample -1 - i has the code of i with the other sign.
        self.assertEqual(
            trau_fr.compress(samples[:32768][::-1], "mulaw"),
            bytes(code ^ 0x80 for code in recorded),
        )


if __name__ == "__main__":
    unittest.main()
