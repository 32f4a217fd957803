"""Tests of the commands on one call: texts, statuses, and what lines hold, with faults and
without."""

import unittest
from typing import Dict, Optional, Tuple

from material import CHECKS, CODEC, DOWN, UP, unusable, line
from trau.rules.frame import DownFrame, FrameKind, bits_of, octets_of, read_up, write_down
from trau.rules.parameters import bits_of_parameters
from trau.model.codec import FullRateEncoder
from trau.model.commands import command
from trau.model.outside import MemoryDesk, MemoryLines

Contents = Dict[Tuple[int, str], bytes]


def run(
    words: str, contents: Contents, room: Optional[int] = None, **faults: object
) -> Tuple[Optional[int], str, Contents]:
    """The status, the text and the lines written; `room` is that of standard output, `faults` go to
    the lines."""
    lines, desk = MemoryLines(contents, **faults), MemoryDesk(room=room)  # type: ignore
    status = command(words.split(), lines, desk)
    return status, desk.text, lines.written


def encoded_idle(frames: int) -> bytes:
    """The downlink frames of so many frames of an idle line of A-law, from home; its samples are
    8."""
    encoder = FullRateEncoder()
    coded = [encoder.encode([8] * 160).parameters for _ in range(frames)]
    return b"".join(
        octets_of(write_down(DownFrame(FrameKind.SPEECH, bits_of_parameters(one)))) for one in coded
    )


class Words(unittest.TestCase):
    """Words that are wrong."""

    def test_wrong_words(self) -> None:
        wrong = [
            "relay",
            "relay 07",
            "relay 4097",
            "relay 0",
            "relay 7 8",
            "relay +7",
            "relay 7 --",
            "decode -1",
            "encode x",
            "frames 1e3",
            "split 4094",
            "split 0",
            "merge 4094",
            "follow 7",
            "follow 7 6",
            "follow 7 320",
            "follow 7 04",
            "follow 0 4",
            "follow 7 4 4",
        ]
        for words in wrong:
            self.assertEqual(run(words, {}), (1, "usage\n", {}), words)

    def test_words_of_others(self) -> None:
        for words in ("", "run", "drill 7", "relays 7"):
            self.assertIsNone(run(words, {})[0])

    def test_usage_that_cant_be_written(self) -> None:
        self.assertEqual(run("relay", {}, room=3), (1, "usa", {}))


class Speech(unittest.TestCase):
    """`relay` and `decode`."""

    def test_relay(self) -> None:
        self.assertEqual(
            run("relay 7", {(7, "up"): UP * 2}), (0, "relay frames 2\n", {(7, "down"): DOWN * 2})
        )
        self.assertEqual(run("relay 7", {(7, "up"): b""}), (0, "relay frames 0\n", {}))

    def test_blocks_that_are_refused(self) -> None:
        for block in (UP[:39], b"\0" * 40, line([unusable()]), DOWN, UP[:3], b"\x01"):
            lines = {(7, "up"): UP + block}
            self.assertEqual(run("relay 7", lines), (8, "relay refused 1\n", {(7, "down"): DOWN}))
            self.assertEqual(run("decode 7", lines)[:2], (8, "decode refused 1\n"))

    def test_decode(self) -> None:
        status, text, written = run("decode 7", {(7, "up"): UP})
        self.assertEqual(
            (status, text, written[7, "out"][:7]),
            (0, "decode frames 1\n", bytes.fromhex("d5d5d5d5d5d5d4")),
        )
        self.assertEqual(len(written[7, "out"]), 160)

    def test_recorded(self) -> None:
        for name in ("speech-loud-m7", "harsh"):
            written = run("decode 7", {(7, "up"): (CODEC / (name + ".up")).read_bytes()})[2]
            self.assertEqual(written[7, "out"], (CODEC / (name + ".out")).read_bytes())

    def test_incoming_faults(self) -> None:
        self.assertEqual(run("relay 7", {}), (6, "line 7 up failed\n", {}))
        failing = {"failing": [(7, "up")]}
        self.assertEqual(
            run("relay 7", {(7, "up"): UP + UP[:39]}, **failing),
            (6, "line 7 up failed\n", {(7, "down"): DOWN}),
        )
        self.assertEqual(
            run("relay 7", {(7, "up"): UP + DOWN + UP[:39]}, **failing)[:2],
            (8, "relay refused 1\n"),
        )

    def test_outgoing_faults_go_first(self) -> None:
        for up in (UP * 2, UP * 2 + DOWN, UP * 2 + UP[:5]):
            lines, desk = MemoryLines({(7, "up"): up}, room={(7, "down"): 50}), MemoryDesk()
            self.assertEqual(
                (command(["relay", "7"], lines, desk), desk.text), (6, "line 7 down failed\n")
            )
            self.assertEqual(lines.written, {(7, "down"): DOWN + DOWN[:10]})

    def test_standard_output_fails(self) -> None:
        self.assertEqual(run("relay 7", {(7, "up"): UP}, room=5), (4, "relay", {(7, "down"): DOWN}))
        self.assertEqual(run("relay 7", {(7, "up"): DOWN}, room=0), (4, "", {}))
        self.assertEqual(run("relay 7", {}, room=0), (4, "", {}))


class Encode(unittest.TestCase):
    """`encode`."""

    def test_a_rest_is_left(self) -> None:
        status, text, written = run("encode 7", {(7, "pcm"): b"\xd5" * 330})
        self.assertEqual(
            (status, text, written),
            (0, "encode frames 2 left 10\n", {(7, "down"): encoded_idle(2)}),
        )
        self.assertEqual(
            run("encode 7", {(7, "pcm"): b"\xd5" * 159}), (0, "encode frames 0 left 159\n", {})
        )

    def test_faults(self) -> None:
        self.assertEqual(run("encode 7", {}), (6, "line 7 pcm failed\n", {}))
        found = run("encode 7", {(7, "pcm"): b"\xd5" * 330}, failing=[(7, "pcm")])
        self.assertEqual(found, (6, "line 7 pcm failed\n", {(7, "down"): encoded_idle(2)}))

    def test_recorded(self) -> None:
        written = run("encode 7", {(7, "pcm"): (CODEC / "speech-loud-m7.pcm").read_bytes()})[2]
        self.assertEqual(written[7, "down"], (CODEC / "speech-loud-m7.down").read_bytes())


class Frames(unittest.TestCase):
    """`frames`."""

    def test_misses(self) -> None:
        up = UP + b"\xff" * 80 + UP + b"abc"
        text = "0 good\n320 miss\n640 miss\n960 good\nframes 4 left 3\n"
        self.assertEqual(run("frames 7", {(7, "up"): up}), (0, text, {}))

    def test_faults(self) -> None:
        text = "0 good\nline 7 up failed\n"
        self.assertEqual(
            run("frames 7", {(7, "up"): UP + UP[:20]}, failing=[(7, "up")]), (6, text, {})
        )
        self.assertEqual(run("frames 7", {(7, "up"): UP * 2}, room=8), (4, "0 good\n3", {}))
        self.assertEqual(run("frames 7", {}), (6, "line 7 up failed\n", {}))


class Slots(unittest.TestCase):
    """`split` and `merge`."""

    SLOT = {(1, "pcm"): b"\x1b" * 5}
    CHANNELS = {(1, "up"): b"\x00", (2, "up"): b"\x55", (3, "up"): b"\xaa", (4, "up"): b"\xff\xff"}

    def test_split(self) -> None:
        written = {
            (call, "down"): octets
            for call, octets in zip((1, 2, 3, 4), (b"\x00", b"\x55", b"\xaa", b"\xff"))
        }
        self.assertEqual(run("split 1", self.SLOT), (0, "split octets 4 left 1\n", written))
        self.assertEqual(
            run("split 1", {(1, "pcm"): b"\x1b" * 3}), (0, "split octets 0 left 3\n", {})
        )
        self.assertEqual(
            run("split 1", {(1, "pcm"): b"\x1b" * 320})[:2], (0, "split octets 320 left 0\n")
        )

    def test_merge(self) -> None:
        self.assertEqual(
            run("merge 1", self.CHANNELS),
            (0, "merge octets 4 left 0 0 0 1\n", {(1, "out"): b"\x1b" * 4}),
        )

    def test_recorded(self) -> None:
        slots = CHECKS / "slots"
        found = run(
            "merge 5",
            {(call, "up"): (slots / ("%d.up" % call)).read_bytes() for call in (5, 6, 7, 8)},
        )
        self.assertEqual(
            found,
            (0, (slots / "merge.txt").read_text(), {(5, "out"): (slots / "5.out").read_bytes()}),
        )
        found = run("split 5", {(5, "pcm"): (slots / "5.pcm").read_bytes()})
        self.assertEqual(found[:2], (0, (slots / "split.txt").read_text()))

    def test_a_channel_that_fails(self) -> None:
        lines = MemoryLines({(1, "pcm"): b"\x1b" * 400}, room={(3, "down"): 55})
        desk = MemoryDesk()
        self.assertEqual(
            (command(["split", "1"], lines, desk), desk.text), (6, "line 3 down failed\n")
        )
        lengths = [len(lines.written[call, "down"]) for call in (1, 2, 3, 4)]
        self.assertEqual(lengths, [80, 80, 55, 40])

    def test_a_slot_that_fails(self) -> None:
        status, text, written = run("split 1", {(1, "pcm"): b"\x1b" * 200}, failing=[(1, "pcm")])
        self.assertEqual((status, text, len(written[1, "down"])), (6, "line 1 pcm failed\n", 40))

    def test_merge_reads_all_lines_before_it_decides(self) -> None:
        """A line that fails behind one that ends is a fault; one that would fail later isn't."""
        lines = {
            (1, "up"): b"a" * 50,
            (2, "up"): b"b" * 60,
            (3, "up"): b"c" * 70,
            (4, "up"): b"d" * 90,
        }
        self.assertEqual(run("merge 1", lines, failing=[(3, "up")])[:2], (6, "line 3 up failed\n"))
        self.assertEqual(
            run("merge 1", lines, failing=[(4, "up")])[:2],
            (0, "merge octets 200 left 0 10 20 30\n"),
        )
        self.assertEqual(
            run("merge 6", {(6, "up"): UP, (7, "up"): UP})[:2], (6, "line 8 up failed\n")
        )


class Follow(unittest.TestCase):
    """`follow`."""

    def test_fields_of_answers(self) -> None:
        whole = (
            "1" * 320 + bits_of(DOWN) + "1" * 312 + bits_of(DOWN)[:316] + bits_of(DOWN) + "1" * 12
        )
        up = octets_of(whole)
        status, text, written = run("follow 7 0", {(7, "up"): up})
        self.assertEqual(
            (status, text), (0, "320 speech\n952 speech\n1268 speech\nfollow frames 3 left 0\n")
        )
        down = written[7, "down"]
        answers = [read_up(bits_of(down[start : start + 40])) for start in range(0, 200, 40)]
        self.assertEqual(
            [one.kind.value for one in answers], ["idle", "good", "idle", "good", "good"]
        )
        self.assertEqual([one.field for one in answers], [0, 0, 0, 1, 1])
        self.assertTrue(all(one.dtxd and not one.taf for one in answers))

    def test_recorded(self) -> None:
        follow = CHECKS / "follow"
        for up, name, wanted in (
            (CODEC / "follow-4.down", "mixed-2-4", 4),
            (CHECKS / "farms/harsh/1.down", "harsh-1-0", 0),
        ):
            status, text, written = run("follow 7 %d" % wanted, {(7, "up"): up.read_bytes()})
            self.assertEqual((status, text), (0, (follow / (name + ".txt")).read_text()))
        self.assertEqual(written[7, "down"], (follow / "harsh-1-0.down").read_bytes())

    def test_faults(self) -> None:
        lines, desk = MemoryLines({(7, "up"): DOWN * 3}, room={(7, "down"): 50}), MemoryDesk()
        self.assertEqual(
            (command(["follow", "7", "0"], lines, desk), desk.text),
            (6, "0 speech\nline 7 down failed\n"),
        )
        status, text, written = run("follow 7 0", {(7, "up"): DOWN * 3}, room=12)
        self.assertEqual((status, text, len(written[7, "down"])), (4, "0 speech\n320", 80))
        status, text, written = run("follow 7 0", {(7, "up"): DOWN + DOWN[:9]}, failing=[(7, "up")])
        self.assertEqual(
            (status, text, len(written[7, "down"])), (6, "0 speech\nline 7 up failed\n", 40)
        )


if __name__ == "__main__":
    unittest.main()
