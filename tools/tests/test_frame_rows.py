"""The frames of a line as text, CSV, JSON and hexadecimal digits, and lines of such text: what comes back is the line, bit for bit."""

import csv
import io
import json
import random
import unittest

from support import EXAMPLES, InFolder

from trau.recordings import lines
from trau.recordings.frame_row_commands import as_hex, by_rows, csv_of, json_of, pieces_of, text_of
from trau.recordings.frame_rows import bits_of_runs, octets_of_pieces, runs_of
from trau.recordings.line_parts import parts_of
from trau.rules.frame import (
    CLASS_BITS,
    FrameKind,
    UpFrame,
    bits_of,
    frame_of,
    octets_of,
    read_up,
    write_up,
)
from trau.rules.search import FRAME_OF_DOWNLINK

FORMS = (by_rows(text_of), by_rows(csv_of), by_rows(json_of), as_hex)
LINES = [EXAMPLES / "7.up", *sorted((EXAMPLES / "farm").glob("*.up"))]
DOWNLINKS = sorted((EXAMPLES / "farm" / "wanted").glob("*.down"))


def random_bits(draw, count):
    return "".join(draw.choice("01") for _ in range(count))


def random_line(draw, start):
    """A line whose first frame begins at a bit: frames with any control, data and time bits, some without time bits, some damaged, and
    bits between some of them."""
    bits = random_bits(draw, start)
    for _ in range(5):
        frame = frame_of(random_bits(draw, 21), random_bits(draw, 260))
        kind = draw.randrange(5)
        if kind == 0:
            frame = frame[:316]
        elif kind == 1:
            frame = frame[:316] + random_bits(draw, 4)
        elif kind == 2:
            place = draw.randrange(16)
            frame = frame[:place] + "1" + frame[place + 1 :]
        elif kind == 3:
            frame += draw.choice(("1" * draw.randrange(400), random_bits(draw, 30)))
        bits += frame
    return octets_of(bits + random_bits(draw, -len(bits) % 8))


class Rows(InFolder):
    def told(self, *words):
        got, out, err = self.run_tool(lines.main, *words)
        self.assertEqual((got, err), (0, ""))
        return out

    def made(self, text):
        """The line of a text, and what is said."""
        rows, new = self.path("rows.txt", text.encode()), self.folder / "new.up"
        said = self.told("assemble", rows, new)
        return new.read_bytes(), said

    def refused(self, text, part):
        rows = self.path("rows.txt", text.encode())
        self.assert_refused(lines.main, ["assemble", rows, self.folder / "never.up"], part)

    def test_random_lines_at_each_bit(self):
        draw = random.Random(85)
        for start in range(320):
            line = random_line(draw, start)
            parts = parts_of(line)
            for form in FORMS:
                text = "".join(form(parts, parts.side()))
                self.assertEqual(octets_of_pieces(pieces_of("rows", text)), line, start)

    def test_recorded_lines(self):
        for name in (*LINES, *DOWNLINKS):
            for form in ((), ("--csv",), ("--json",), ("--hex",)):
                rows = self.path("rows.txt", self.told("frames", name, *form).encode())
                new = self.folder / "new.up"
                self.told("assemble", rows, new)
                self.assertEqual(new.read_bytes(), name.read_bytes(), (name, form))

    def test_what_rows_say(self):
        data = "01" * 130
        frames = [
            UpFrame(FrameKind.SPEECH, False, True, 39, data),
            UpFrame(FrameKind.UNUSABLE, True, False, 0, data),
            UpFrame(FrameKind.IDLE),
        ]
        line = b"\xff" * 5 + b"".join(octets_of(write_up(frame)) for frame in frames)
        rows = json.loads(self.told("frames", self.path("1.up", line), "--json"))
        self.assertEqual(rows[0], {"place": 0, "second": 0.0, "class": "bits", "bits": "40*1"})
        self.assertEqual([row["place"] for row in rows[1:]], [40, 360, 680])
        self.assertEqual([row["second"] for row in rows[1:]], [0.0025, 0.0225, 0.0425])
        said = [(row["class"], row["field"], row["taf"], row["dtxd"]) for row in rows[1:]]
        self.assertEqual(said, [("good", 39, 0, 1), ("bad", 0, 1, 0), ("idle", 0, 0, 0)])
        self.assertEqual(len(rows[1]["parameters"]), 76)
        self.assertEqual(rows[1]["parameters"][:3], [0b101010, 0b101010, 0b01010])
        table = list(csv.DictReader(io.StringIO(self.told("frames", LINES[0], "--csv"))))
        self.assertEqual([row["place"] for row in table[:2]], ["0", "320"])

    def test_downlink_without_time_bits(self):
        """A frame whose timing advanced."""
        rows = self.told("frames", DOWNLINKS[0]).splitlines()
        times = [row.split()[8] for row in rows[1:]]
        self.assertIn("none", times)
        self.assertEqual({row.split()[2] for row in rows[1:]} - {"-"}, {"down"})

    def test_side(self):
        rows = self.told("frames", DOWNLINKS[0], "--side", "up").splitlines()
        self.assertIn("other", {row.split()[3] for row in rows[1:]})

    def test_lines_by_hand(self):
        """Control bits are made of the other columns, and places aren't read."""
        head = "place second side class field taf dtxd control time parameters\n"
        made, said = self.made(
            f"# an uplink\n{head}- - up good 39 0 1 - - -\n- - - bits - - - - - 12*1 0000\n"
            "- - up sid 0 1 0 - 1010 -\n\n- - up idle - - - - none -\n- - - bits - - - - - 1\n"
        )
        self.assertEqual(said, "assemble frames 3 bits 973 filled 3\n")
        bits = bits_of(made)
        first, second = read_up(bits[:320]), read_up(bits[336:656])
        self.assertEqual(first, UpFrame(FrameKind.SPEECH, False, True, 39))
        self.assertEqual(second, UpFrame(FrameKind.VALID_SID, True))
        self.assertEqual(bits[320:336], "1" * 12 + "0000")
        self.assertEqual(bits[652:656], "1010")
        third = FRAME_OF_DOWNLINK.match(bits, 656).group()
        self.assertEqual(read_up(third + "1111").kind, FrameKind.IDLE)
        self.assertEqual(bits[972:], "1111")
        rows = [{"side": "down", "class": each} for each in ("good", "sid", "idle")]
        made, _ = self.made(json.dumps(rows))
        self.assertEqual(made[2:4], b"\xf0\x0f")
        self.assertEqual(self.made("place,class,field\n0,bad,7\n")[0][2], 0b10001000)

    def test_each_class(self):
        for kind in CLASS_BITS:
            made, _ = self.made(json.dumps([{"class": kind.value}]))
            self.assertEqual(read_up(bits_of(made)).kind, kind)

    def test_hex(self):
        line = LINES[0].read_bytes()[:80]
        self.assertEqual(self.made(f"{line[:40].hex()}\n{line[40:].hex()}\n")[0], line)
        self.assertEqual(self.made(f"+8*1\n{line[:40].hex()[:79]}\n+1\n")[0][0], 255)

    def test_runs(self):
        draw = random.Random(1)
        for count in (1, 7, 320, 1000):
            for bits in ("1" * count, "0" * count, random_bits(draw, count)):
                self.assertEqual(bits_of_runs(runs_of(bits)), bits)

    def test_refusals(self):
        head = "place second side class field taf dtxd control time parameters\n"
        control = "0" * 21
        for row, part in (
            ("0 0 up good 0 0 0 - - 1 2 3", "row 1: parameters are 3 and not 76"),
            (f"0 0 up good 0 0 0 {control} - -", "class good isn't that of the control bits"),
            ("0 0 up good 64 0 0 - - -", "field 64 isn't from 0 to 63"),
            ("0 0 up good x 0 0 - - -", "'x' is no whole number"),
            ("0 0 up fine 0 0 0 - - -", "of class fine the control bits are wanted"),
            ("0 0 side good 0 0 0 - - -", "side side isn't up or down"),
            ("0 0 up good 0 0 0 01 - -", "control 01 isn't 21 bits"),
            ("0 0 up good 0 0 0 - 11 -", "time 11 isn't 4 bits or none"),
            ("0 0 - bits - - - - - 3*2", "'3*2' is no bits"),
            ("0 0 up good 0 0 0 - - " + " ".join(["64"] * 76), "parameter 1 is 64"),
        ):
            self.refused(f"{head}{row}\n", part)
        self.refused("00ff\n", "row 1: 4 digits are no frame")
        self.refused("[{\n", "rows.txt: ")
        self.refused("[1]\n", "row 1: ")
        self.refused("", "has no row")
        self.refused("\xe4", "isn't text")
        rows = self.path("rows.txt", (head + "0 0 up good 0 0 0 - - -\n").encode())
        self.assert_refused(lines.main, ["assemble", rows, self.folder / "9.pcm"], "by its name")
        sound = EXAMPLES / "farm" / "1.pcm"
        self.assert_refused(lines.main, ["frames", sound], "1.pcm")


if __name__ == "__main__":
    unittest.main()
