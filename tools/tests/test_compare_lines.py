"""Two lines without a report beside each other: the shift is found, frames are compared by their parameters and sound by octets, and what
isn't plain is said to be so."""

import json
import random
import unittest

from support import EXAMPLES, InFolder

from trau.model.codec import FullRateEncoder
from trau.model.receive import effective_frames
from trau.rules.frame import DownFrame, FrameKind, UpFrame, octets_of, write_down, write_up
from trau.rules.g711 import Law, compress_all
from trau.rules.parameters import SILENCE, Parameters, bits_of_parameters
from trau.runs import report
from trau.suite import sounds
from trau.suite.random_source import NamedSource

SAMPLES = 160
DESCRIPTOR = SILENCE._replace(
    blocks=tuple(block._replace(nc=0, mc=0, xmaxc=20, xmc=(0,) * 13) for block in SILENCE.blocks)
)


def encoded(samples):
    """The parameters of the frames of some samples, from the encoder's initial state on."""
    encoder = FullRateEncoder()
    return [
        encoder.encode(samples[at : at + SAMPLES]).parameters
        for at in range(0, len(samples), SAMPLES)
    ]


SOUND = sounds.voice(NamedSource("compared"), 60, 5000)
FRAMES = encoded(SOUND)


def uplink(frames, **control):
    """An uplink of good frames with these parameters."""
    return b"".join(
        octets_of(write_up(UpFrame(FrameKind.SPEECH, data=bits_of_parameters(each), **control)))
        for each in frames
    )


def downlink(frames):
    """A downlink of frames with these parameters; None is an idle frame."""
    return b"".join(
        octets_of(
            write_down(
                DownFrame(FrameKind.IDLE)
                if each is None
                else DownFrame(FrameKind.SPEECH, bits_of_parameters(each))
            )
        )
        for each in frames
    )


def changed(frames, at, block, **values):
    """Frames one of which has other values in a block."""
    blocks = list(frames[at].blocks)
    blocks[block] = blocks[block]._replace(**values)
    return [*frames[:at], Parameters(frames[at].larc, tuple(blocks)), *frames[at + 1 :]]


class ComparedLinesTest(InFolder):
    def compare(self, one, other, status=1, ending="up"):
        first, second = self.path(f"1.{ending}", one), self.path(f"2.{ending}", other)
        got, out, err = self.run_tool(report.main, "compare", first, second, "--json")
        self.assertEqual((got, err), (status, ""))
        return json.loads(out)

    def test_same(self):
        line = uplink(FRAMES)
        self.assertEqual(self.compare(line, line, 0)["likeness"], "the same")

    def test_a_parameter(self):
        old = FRAMES[40].blocks[1].xmaxc
        told = self.compare(uplink(FRAMES), uplink(changed(FRAMES, 40, 1, xmaxc=old ^ 4)))
        self.assertEqual(told["likeness"], "different")
        self.assertEqual(told["why"], "1 frames of 60, the first is 40")
        (row,) = told["differences"]
        self.assertEqual(row["one"], f"block 2 xmaxc {old}")
        self.assertEqual((row["other"], row["from"], row["count"]), (str(old ^ 4), 40, 1))
        self.assertEqual((row["what"], row["seconds"]), ("parameters", 0.8))

    def test_control_bits(self):
        one = uplink(FRAMES)
        for name, value, control in (
            ("alignment field 0", "39", {"field": 39}),
            ("TAF 0", "1", {"taf": True}),
            ("DTXd 0", "1", {"dtxd": True}),
        ):
            other = one[:400] + uplink(FRAMES[10:13], **control) + one[520:]
            (row,) = self.compare(one, other)["differences"]
            self.assertEqual((row["what"], row["one"], row["other"]), ("control", name, value))
            self.assertEqual((row["from"], row["count"]), (10, 3))
        bad = write_up(UpFrame(FrameKind.UNUSABLE, data=bits_of_parameters(FRAMES[10])))
        (row,) = self.compare(one, one[:400] + octets_of(bad) + one[440:])["differences"]
        self.assertEqual((row["one"], row["other"]), ("class good", "bad"))

    def test_delay(self):
        line = uplink(FRAMES)
        told = self.compare(line, b"\xff" * 45 + line[:-45])
        self.assertEqual((told["likeness"], told["shift"]), ("the same but for a delay", 0))
        told = self.compare(line, line[400:] + line[:400])
        self.assertEqual((told["likeness"], told["shift"]), ("the same but for a delay", -10))
        self.assertEqual(told["differences"][0]["other"], "-3200 bits")
        alone = [(row["what"], row["from"], row["count"]) for row in told["differences"][1:]]
        self.assertEqual(alone, [("only one", 0, 10), ("only other", 50, 10)])
        told = self.compare(line, line[:800])
        self.assertEqual(told["likeness"], "the same as far as both go")

    def test_bits_between(self):
        line = b"\xff" * 10 + uplink(FRAMES)
        told = self.compare(line, b"\xef" + line[1:])
        self.assertEqual(told["likeness"], "the same frames, with other bits between them")

    def test_draws(self):
        """What calls of other numbers make of the same losses and pauses."""
        speech = [UpFrame(FrameKind.SPEECH, data=bits_of_parameters(each)) for each in FRAMES]
        noise = UpFrame(FrameKind.VALID_SID, data=bits_of_parameters(DESCRIPTOR))
        lost = [UpFrame(FrameKind.UNUSABLE)]
        frames = speech[:20] + lost * 6 + speech[26:40] + [noise] + lost * 9 + speech[50:]
        one, other = [downlink(effective_frames(call, frames)) for call in (1, 2)]
        told = self.compare(one, other, ending="down")
        self.assertEqual(told["likeness"], "the same but for draws")
        self.assertEqual({row["what"] for row in told["differences"]}, {"draws"})
        self.assertEqual(told["differences"][-1]["from"], 40)
        told = self.compare(one, other[:-400], ending="down")
        self.assertEqual(told["likeness"], "the same but for draws")

    def test_another_grid_position_is_no_draw(self):
        grid = FRAMES[30].blocks[0].mc
        told = self.compare(uplink(FRAMES), uplink(changed(FRAMES, 30, 0, mc=grid ^ 1)))
        self.assertEqual(told["likeness"], "different")

    def test_reset(self):
        """An encoder that starts anew after an idle frame."""
        anew = FRAMES[:30] + [None] + encoded(SOUND[31 * SAMPLES :])
        told = self.compare(downlink(FRAMES), downlink(anew), ending="down")
        self.assertEqual(told["likeness"], "different from a reset on")
        goes_on = FRAMES[:30] + [None] + FRAMES[31:]
        told = self.compare(downlink(FRAMES), downlink(goes_on), ending="down")
        self.assertEqual(told["likeness"], "different")

    def test_not_sure(self):
        source = NamedSource("another")
        others = encoded(sounds.voice(source, 60, 5000))
        told = self.compare(uplink(FRAMES), uplink(others))
        self.assertEqual((told["likeness"], told["shift"]), ("not sure", None))
        # A line of one frame over and over fits by any shift.
        looped = uplink(FRAMES[:10] * 6)
        told = self.compare(looped, looped[40:] + uplink(others[:1]))
        self.assertEqual(told["likeness"], "not sure")
        quiet = b"\xd5" * 1600
        told = self.compare(quiet, quiet[:-1] + b"\x55", ending="out")
        self.assertEqual(told["likeness"], "not sure")

    def test_sound(self):
        line = compress_all(Law.A, SOUND)
        changed_line = line[:1700] + bytes([line[1700] ^ 1]) + line[1701:]
        told = self.compare(line, changed_line, ending="out")
        self.assertEqual((told["likeness"], told["shift"]), ("different", 0))
        (row,) = told["differences"]
        self.assertEqual((row["from"], row["count"], row["seconds"]), (10, 1, 0.2))
        self.assertEqual(row["one"], f"octet 1700 0x{line[1700]:02x}")
        self.assertEqual(row["other"], f"0x{line[1700] ^ 1:02x}")
        for by in (1, 37, 1600):
            told = self.compare(line, b"\xd5" * by + line[:-by], ending="out")
            self.assertEqual((told["likeness"], told["shift"]), ("the same but for a delay", by))
            told = self.compare(line, line[by:], ending="out")
            self.assertEqual((told["likeness"], told["shift"]), ("the same but for a delay", -by))
        told = self.compare(line, line[:-100], ending="out")
        self.assertEqual(told["likeness"], "the same as far as both go")
        other = compress_all(Law.A, sounds.voice(NamedSource("another"), 60, 5000))
        self.assertEqual(self.compare(line, other, ending="out")["likeness"], "not sure")

    def test_reset_of_sound(self):
        line = compress_all(Law.A, SOUND)
        start = line[:4000] + b"\xd5" * 320
        one = start + line[4320:]
        other = start + bytes(octet ^ 1 for octet in line[4320:])
        told = self.compare(one, other, ending="out")
        self.assertEqual(told["likeness"], "different from a reset on")

    def test_random_shifts(self):
        """By any number of bits the frames are those of the line."""
        line = uplink(FRAMES)
        bits = "".join(f"{octet:08b}" for octet in line)
        draw = random.Random(3)
        for _ in range(8):
            by = draw.randrange(1, 900)
            moved = octets_of(("1" * by + bits)[: len(bits) - 8 * 40])
            told = self.compare(line, moved)
            self.assertEqual(told["likeness"], "the same but for a delay", by)
            self.assertEqual(told["differences"][0]["other"], f"{by} bits")

    def test_lines_of_other_kinds(self):
        up, down = self.path("1.up", uplink(FRAMES)), self.path("1.down", downlink(FRAMES))
        sound = self.path("1.out", compress_all(Law.A, SOUND))
        self.assert_refused(report.main, ["compare", up, sound], "can't be compared")
        self.assert_refused(report.main, ["compare", up, down], "is of up")
        self.assert_refused(report.main, ["compare", up, EXAMPLES], "report.txt")

    def test_table(self):
        old = FRAMES[40].blocks[1].xmaxc
        one = self.path("1.up", uplink(FRAMES))
        other = self.path("2.up", uplink(changed(FRAMES, 40, 1, xmaxc=old ^ 4)))
        _, out, _ = self.run_tool(report.main, "compare", one, other)
        self.assertEqual(out.splitlines()[-1], "different: 1 frames of 60, the first is 40")
        self.assertIn(f"block 2 xmaxc {old}", out)


if __name__ == "__main__":
    unittest.main()
