"""Tests of orders.py: what it says of lines that aren't in the grammar, and what it warns of, against the program where one is
built."""

import contextlib
import os
import random
import re
import shutil
import subprocess
import unittest
from unittest import mock

import support
from support import CODEC, EXAMPLES, InFolder

from trau.runs import marks, order_remarks, order_text, orders
from trau.runs import tone_peaks
from trau.rules.frame import bits_of, control_of
from trau.rules.g711 import Law

PROGRAM = os.environ.get("TRAU_PROGRAM", "")

PERIOD = "a period (0 to 4294967294) is expected"
CALL_OF_ORDER = "a call (1 to 4096) is expected"
VERB = "open, close, bridge, unbridge, level or dtx is expected"
LAW = "mulaw, or nothing for A-law, is expected"
LEVEL = "a level (0 to 32767) is expected"
MODE = "on, off or uplink is expected"
END = "the line's end is expected"
SPACES = "; one space separates words"
ZEROS = "; numbers have no leading zeros"
LF = "; lines end with LF alone"
STRIPS = "orders.py strip leaves out comments and empty lines"

# After `0 open 2`.
FAULTS = (
    (b"0 open 1\r", f'"1\\x0d" where {CALL_OF_ORDER}{LF}'),
    (b"0  open 1", f'"" where {VERB}{SPACES}'),
    (b" 0 open 1", f'"" where {PERIOD}{SPACES}'),
    (b"0 open 1 ", f'"" where {LAW}{SPACES}'),
    (b"0\topen 1", f'"0\\x09open" where {PERIOD}'),
    (b"\xef\xbb\xbf0 open 1", f'"\\xef\\xbb\\xbf0" where {PERIOD}'),
    (b"0 open 1\xc2\xa0", f'"1\\xc2\\xa0" where {CALL_OF_ORDER}'),
    (b"", f"an empty line; {STRIPS}"),
    (b" ", f"an empty line; {STRIPS}"),
    (b"0 open 4097", f'"4097" where {CALL_OF_ORDER}'),
    (b"0 open 0", f'"0" where {CALL_OF_ORDER}'),
    (b"0 open 01", f'"01" where {CALL_OF_ORDER}{ZEROS}'),
    (b"0 open x", f'"x" where {CALL_OF_ORDER}'),
    (b"0 open +1", f'"+1" where {CALL_OF_ORDER}'),
    (b"0 open 99999999999999999999", f'"99999999999999999999" where {CALL_OF_ORDER}'),
    (b"00 open 1", f'"00" where {PERIOD}{ZEROS}'),
    (b"4294967295 open 1", f'"4294967295" where {PERIOD}'),
    (b"open 1", f'"open" where {PERIOD}'),
    (b"0", f"the line ends where {VERB}"),
    (b"0 opne 1", f'"opne" where {VERB}'),
    (b"0 OPEN 1", f'"OPEN" where {VERB}'),
    (b"# calls", f"a comment; {STRIPS}"),
    (b"0 open", f"the line ends where {CALL_OF_ORDER}"),
    (b"0 open 1 alaw", f'"alaw" where {LAW}'),
    (b"0 open 1 mulaw 2", f'"2" where {END}'),
    (b"0 close 1 mulaw", f'"mulaw" where {END}'),
    (b"0 bridge 1", f"the line ends where {CALL_OF_ORDER}"),
    (b"0 bridge 1 2 3", f'"3" where {END}'),
    (b"0 level 1 32768", f'"32768" where {LEVEL}'),
    (b"0 dtx 1 On", f'"On" where {MODE}'),
    (b"0 dtx 1", f"the line ends where {MODE}"),
)

CALL = b"call 3 from 20 out 5 down 7\n"
MISSING = "where the line orders is due, which ends a mark, "
P_OF_MARK = "P (1 to 4294967295) is expected"
CALL_OF_MARK = "a mark's line of a call is call C from S out X down Y"
MARK_FAULTS = (
    (1, b"", "a mark's first line is save P"),
    (1, b"0 open 1\n", "a mark's first line is save P"),
    (1, b"orders\n0 open 1\n", "a mark's first line is save P"),
    (1, b"save 060\norders\n", f'"060" where {P_OF_MARK}{ZEROS}'),
    (1, b"save 60\r\norders\n", f'"60\\x0d" where {P_OF_MARK}{LF}'),
    (1, b"save 0\norders\n", f'"0" where {P_OF_MARK}'),
    (1, b"save  60\norders\n", "a mark's first line is save P"),
    (1, b"save 60", "no line feed at its end"),
    (2, b"save 60\n", MISSING + "the text ends"),
    (2, b"save 60\n0 open 1\n", MISSING + "there is '0 open 1'"),
    (2, b"save 60\n\norders\n", MISSING + "there is an empty line"),
    (3, b"save 60\n" + CALL, MISSING + "the text ends"),
    (2, b"save 60\norders", "no line feed at its end"),
    (2, b"save 60\norders \n", MISSING + "there is 'orders '"),
    (2, b"save 60\n" + CALL[:-1], "no line feed at its end"),
    (2, b"save 20\n" + CALL + b"orders\n", '"20" where S (0 to 19) is expected'),
    (2, b"save 60\ncall 3 from 20\norders\n", CALL_OF_MARK),
    (2, b"save 60\ncall 3 form 20 out 5 down 7\norders\n", CALL_OF_MARK),
    (
        2,
        b"save 60\ncall 3 from 20 out 4294967296 down 7\norders\n",
        '"4294967296" where X (0 to 4294967295) is expected',
    ),
    (
        2,
        b"save 60\ncall 3 from 20 out 5 down -7\norders\n",
        '"-7" where Y (0 to 4294967295) is expected',
    ),
    (
        3,
        b"save 60\n" + CALL + b"call 2 from 0 out 1 down 1\norders\n",
        "call 2: not above that of a line before, 3",
    ),
    (3, b"save 60\n" + CALL + CALL + b"orders\n", "call 3: not above that of a line before, 3"),
)

# Of orders that are made at random.
FORMS = (
    "open {}",
    "open {} mulaw",
    "close {}",
    *3 * ("bridge {} {}",),
    *3 * ("unbridge {}",),
    "level {} 5",
)


def refusals(report):
    """The refused orders of a report, as the tool says them."""
    return [
        (int(order), int(number))
        for order, number in re.findall(r"^order (\d+) refused (\d)", report, re.M)
    ]


class Orders(InFolder):
    def check(self, content, *words):
        """The status, and the lines that are said of these orders."""
        status, out, err = self.run_tool(
            orders.main, "check", self.path("orders.txt", content), *words
        )
        self.assertEqual(err, "")
        return status, out.splitlines()

    def test_good(self):
        status, said = self.check(b"0 open 1\n4294967294 close 1")
        self.assertEqual((status, said), (0, ["orders 2 bad 0 warnings 0"]))
        self.assertEqual(self.check(b""), (0, ["orders 0 bad 0 warnings 0"]))

    def test_each_fault(self):
        for line, part in FAULTS:
            with self.subTest(line):
                status, said = self.check(b"0 open 2\n" + line + b"\n0 close 2\n")
                self.assertEqual((status, len(said)), (1, 2), said)
                self.assertTrue(said[0].startswith("line 2: "), said)
                self.assertIn(part, said[0])

    def test_several_faults(self):
        status, said = self.check(b"5 open 1\n4 open  4097\r\n\n3 open 2\n6 open 3\n")
        self.assertEqual(status, 1)
        least = "a period (5, that of the order before, to 4294967294) is expected"
        self.assertEqual(
            said,
            [
                f'line 2: "4" where {least}',
                f"line 3: an empty line; {STRIPS}",
                f'line 4: "3" where {least}',
                "orders 5 bad 3 warnings 0",
            ],
        )

    def test_stamps_count_where_other_words_are_bad(self):
        said = self.check(b"5 opne 1\n4 open 2\n")[1]
        self.assertEqual(
            said[:2],
            [
                f'line 1: "opne" where {VERB}',
                'line 2: "4" where a period (5, that of the order before, to 4294967294) is expected',
            ],
        )

    def test_words_as_they_are_printed(self):
        for word, wanted in (
            ("öffnen".encode(), "\\xc3\\xb6ffnen"),
            (b"\xf6ffnen", "\\xf6ffnen"),
            (b"open\0\x1b[2J", "open\\x00\\x1b[2J"),
            (50 * b"x", f"{40 * 'x'}.."),
        ):
            status, said = self.check(b"0 " + word + b" 1\n")
            self.assertEqual((status, len(said)), (1, 2))
            self.assertEqual(said[0], f'line 1: "{wanted}" where {VERB}')

    def test_what_is_no_text(self):
        up = (EXAMPLES / "7.up").read_bytes()
        said = "7.up: is an uplink, its first frame at bit 0, and no orders; trau run takes it"
        self.assert_refused(orders.main, ["check", self.path("7.up", up)], said)
        report = EXAMPLES / "farm" / "wanted" / "report.txt"
        said = f"{report}: is the report of a run, and no orders; report.py text {report}"
        self.assert_refused(orders.main, ["check", report], said)

    def test_too_long(self):
        status, said = self.check(b"0 open 1\n" * 65537)
        self.assertEqual(status, 1)
        self.assertIn(
            "too long: 589,833 octets and 65,537 lines; the program takes 1,048,576 octets and 65,536 lines",
            said,
        )
        status, said = self.check(b"0 level 1 32767 " + b" " * 1048576)
        self.assertTrue(said[-2].startswith("too long: 1,048,592 octets"), said[-2])
        self.assertEqual(status, 1)

    def test_refusals_of_the_documents(self):
        # The orders of OPERATORS.md that meet all seven refusals.
        text = (support.TOP / "docs" / "OPERATORS.md").read_text()
        found = re.search(
            r"refused\.txt <<END\n(.*?)    > END\n.*?\n(    order 1 .*?)\n    bridge", text, re.S
        )
        content = found[1].replace("    > ", "").encode()
        status, said = self.check(content)
        told = [
            re.match(r"line (\d+): warning: the run will refuse it \((\d)\): ", line)
            for line in said[:-1]
        ]
        self.assertEqual(
            [(int(each[1]), int(each[2])) for each in told], refusals(found[2].replace("    ", ""))
        )
        self.assertEqual(
            {number for _, number in refusals(found[2].replace("    ", ""))}, {1, 2, 3, 4, 5, 6, 7}
        )
        self.assertEqual((status, said[-1]), (0, "orders 13 bad 0 warnings 7"))

    def test_calls_that_end_with_their_lines(self):
        shutil.copy(EXAMPLES / "farm" / "4.up", self.folder)
        shutil.copy(EXAMPLES / "farm" / "4.pcm", self.folder)
        content = b"0 open 4\n75 open 4\n75 close 4\n75 level 4 1\n76 open 4\n80 open 5\n"
        status, said = self.check(content, "--lines", self.folder)
        self.assertEqual(status, 0)
        self.assertEqual(
            said,
            [
                "line 1: note: the last 25 periods of 4.pcm won't be used: 4.up has 75",
                "line 2: warning: the run will refuse it (1): call 4 is open since line 1",
                "line 4: warning: the run will refuse it (2): call 4 has ended",
                "line 5: warning: the run will refuse it (7): call 4 was opened by line 1",
                "line 6: warning: there is no 5.up: the line will fail",
                "line 6: warning: there is no 5.pcm: the line will fail",
                "orders 6 bad 0 warnings 5",
            ],
        )
        self.assertEqual(self.check(b"0 open 4\n76 close 4\n")[1], ["orders 2 bad 0 warnings 0"])
        self.assertIn(
            "(2): call 4 has ended",
            self.check(b"0 open 4\n76 close 4\n", "--lines", self.folder)[1][1],
        )

    def test_a_folder_for_a_line(self):
        self.path("3.up").mkdir()
        self.path("3.pcm", bytes(1600))
        status, said = self.check(b"0 open 3\n", "--lines", self.folder)
        self.assertEqual(
            (status, said),
            (
                0,
                [
                    "line 1: warning: 3.up is a folder: the line will fail",
                    "orders 1 bad 0 warnings 1",
                ],
            ),
        )

    def test_outgoing_lines_that_lead_elsewhere(self):
        for side in ("up", "pcm"):
            shutil.copy(EXAMPLES / "farm" / f"1.{side}", self.folder)
        self.path("1.pcm", bytes(24480))
        (self.folder / "other").mkdir()
        other, beside = self.path("speech.wav", b"RIFF"), self.path("other/1.down", b"")
        for name, target, said in (
            ("1.out", other, f"line 1: note: 1.out is a link: the run empties and writes {other}"),
            (
                "1.out",
                self.folder / "new",
                f"line 1: note: 1.out is a link: the run empties and writes {self.folder / 'new'}",
            ),
            (
                "1.out",
                self.path("1.pcm"),
                "line 1: warning: 1.out is the file of 1.pcm: a line will fail",
            ),
            (
                "1.down",
                self.path("1.up"),
                "line 1: warning: 1.down is the file of 1.up: a line will fail",
            ),
            # As in the folder of a part.
            ("1.down", beside, None),
        ):
            link = self.path(name)
            link.symlink_to(target)
            wanted = [said] if said else []
            count = f"orders 1 bad 0 warnings {int('warning' in (said or ''))}"
            self.assertEqual(
                self.check(b"0 open 1\n", "--lines", self.folder), (0, [*wanted, count])
            )
            link.unlink()
        os.link(self.path("1.up"), self.path("1.down"))
        self.path("1.out").mkdir()
        said = [
            "line 1: warning: 1.down is the file of 1.up: a line will fail",
            "line 1: warning: 1.out is a folder: the line will fail",
            "orders 1 bad 0 warnings 2",
        ]
        self.assertEqual(self.check(b"0 open 1\n", "--lines", self.folder), (0, said))

    def test_a_pipe_for_a_line(self):
        os.mkfifo(self.path("3.up"))
        self.path("3.pcm", bytes(1600))
        wanted = [
            "line 1: note: a line is a pipe or a device, so that nobody knows when the call ends",
            "orders 2 bad 0 warnings 0",
        ]
        self.assertEqual(self.check(b"0 open 3\n11 close 3\n", "--lines", self.folder), (0, wanted))

    def test_lines_of_somebody_else(self):
        # Root may read and write everything: then as if the system said no.
        said_no = mock.patch.object(
            os, "access", lambda path, how: how != os.W_OK and not str(path).endswith("1.up")
        )
        with contextlib.nullcontext() if os.getuid() else said_no:
            self.check_lines_of_somebody_else()

    def check_lines_of_somebody_else(self):
        for name, octets in (("1.up", 400), ("1.pcm", 1600), ("1.out", 1)):
            self.path(name, bytes(octets))
        self.path("1.up").chmod(0)
        self.path("1.out").chmod(0o444)
        self.folder.chmod(0o555)
        self.addCleanup(self.folder.chmod, 0o755)
        self.assertEqual(
            order_remarks.remarks_on(
                order_text.Text.read(b"0 open 1\n").orders, self.folder
            ).warnings,
            [
                (1, "1.up can't be read: the line will fail"),
                (1, "1.down can't be written: the line will fail"),
                (1, "1.out can't be written: the line will fail"),
            ],
        )

    def test_lines_that_show_late_what_they_are(self):
        # Idle for 2 s and for 0.6 s, then sound of another law, and frames of the other way.
        speech = (CODEC / "speech-en-m3.pcm").read_bytes()
        self.path("1.pcm", b"\xd5" * 16_000 + speech.translate(Law.A.table_to(Law.MU)))
        self.path("1.up", b"\xff" * 12_000 + (CODEC / "speech-en-m3.down").read_bytes())
        status, said = self.check(b"0 open 1\n", "--lines", self.folder)
        self.assertEqual((status, said[-1]), (0, "orders 1 bad 0 warnings 2"))
        self.assertIn("1.up is a downlink, its first frame at bit 96", said[0])
        self.assertIn("1.pcm is mu-law, as it seems, and no A-law", said[1])
        _, said = self.check(b"0 open 1 mulaw\n", "--lines", self.folder)
        self.assertEqual(said[-1], "orders 1 bad 0 warnings 1")
        self.path("1.pcm", b"\xd5" * 200_000)
        self.path("1.up", b"\xff" * 50_000)
        _, said = self.check(b"0 open 1\n", "--lines", self.folder)
        self.assertEqual(said, ["orders 1 bad 0 warnings 0"])

    def test_periods_that_wont_be_used(self):
        for up, pcm, note in (
            (400, 1600, None),
            (439, 1759, None),
            (440, 1600, "the last period of 1.up won't be used: 1.pcm has 10"),
            (400, 3200, "the last 10 periods of 1.pcm won't be used: 1.up has 10"),
            (0, 3200, "1.up has no whole period, so the call has none"),
            (400, 159, "1.pcm has no whole period, so the call has none"),
        ):
            self.path("1.up", bytes(up))
            self.path("1.pcm", bytes(pcm))
            status, said = self.check(b"0 open 1\n", "--lines", self.folder)
            self.assertEqual((status, said[:-1]), (0, [f"line 1: note: {note}"] if note else []))
            self.assertEqual(said[-1], "orders 1 bad 0 warnings 0")

    def test_a_mark(self):
        mark = (
            b"save 60\ncall 1 from 0 out 5 down 7\ncall 3 from 20 out 4294967295 down 0\norders\n"
        )
        given = b"0 open 1\n20 open 3\n60 open 5\n"
        counts = ["mark lines 4 bad 0", "orders 3 bad 0 warnings 0"]
        self.assertEqual(self.check(mark + given, "--mark"), (0, counts))
        self.assertEqual(
            self.check(b"save 60\norders\n", "--mark"),
            (0, ["mark lines 2 bad 0", "orders 0 bad 0 warnings 0"]),
        )
        # Calls that these orders don't have open at the mark's period.
        says = "warning: trau resume will refuse the mark: these orders"
        for orders_after, said in (
            (
                b"",
                [
                    f"line 2: {says} don't have call 1 open at period 60",
                    f"line 3: {says} don't have call 3 open at period 60",
                ],
            ),
            (
                b"0 open 1\n20 open 3\n59 close 3\n",
                [f"line 3: {says} don't have call 3 open at period 60"],
            ),
            (b"0 open 1\n20 open 3\n60 close 3\n", []),
            (b"0 open 1\n21 open 3\n", [f"line 3: {says} open call 3 at period 21"]),
        ):
            status, found = self.check(mark + orders_after, "--mark")
            self.assertEqual((status, found[:-2]), (0, [f"mark {each}" for each in said]))
        # With the lines, a call that isn't in the mark, as call 5 of 61 periods, but not one whose lines end before.
        for call, periods in ((1, 61), (3, 61), (5, 60), (7, 59)):
            self.path(f"{call}.up", bytes(40 * periods))
            self.path(f"{call}.pcm", bytes(160 * periods))
        found = self.check(
            mark + b"0 open 1\n0 open 5\n0 open 7\n20 open 3\n", "--mark", "--lines", self.folder
        )[1]
        self.assertEqual(
            [line for line in found if line.startswith("mark")],
            [f"mark line 4: {says} have call 5 open at period 60", counts[0]],
        )

    def test_faults_of_a_mark(self):
        for line, text, said in MARK_FAULTS:
            with self.subTest(text):
                status, found = self.check(text, "--mark")
                self.assertEqual((status, found[0]), (1, f"mark line {line}: {said}"))
        status, found = self.check(b"save 60\norders\n0 open 01\n", "--mark")
        self.assertEqual(
            (status, found[:2]),
            (1, ["mark lines 2 bad 0", f'line 1: "01" where {CALL_OF_ORDER}{ZEROS}']),
        )
        long = b"save 60\norders\n" + b"0 level 1 32767\n" * 65536 + b" " * 300000
        status, found = self.check(long, "--mark")
        self.assertEqual(
            (status, found[0]),
            (1, f"too long: {len(long):,} octets; the program takes 1,310,720 with the mark"),
        )
        # A mark where orders are checked without it.
        status, found = self.check(b"save 60\norders\n0 open 1\n")
        said = "a line of a mark, and no order; orders.py check --mark takes a mark with the orders after it"
        self.assertEqual(
            (status, found),
            (1, [f"line 1: {said}", f"line 2: {said}", "orders 3 bad 2 warnings 0"]),
        )

    def test_strip(self):
        notes = b"# two calls\n\n0 open 1 # Alice\n  \n0 open 2\t#  Bob # her brother\n   # and then\n5 close 1\n \t\r\n9  close 2"
        given, new = self.path("notes.txt", notes), self.path("orders.txt")
        wanted = b"0 open 1\n0 open 2\n5 close 1\n9  close 2\n"
        self.assertEqual(
            self.run_tool(orders.main, "strip", given, new), (0, "strip orders 4\n", "")
        )
        self.assertEqual(new.read_bytes(), wanted)
        ended = subprocess.run(
            [support.TOOLS / "orders.py", "strip", "-"], input=notes, capture_output=True
        )
        self.assertEqual((ended.returncode, ended.stdout, ended.stderr), (0, wanted, b""))
        ended = subprocess.run(
            [support.TOOLS / "orders.py", "strip"], input=notes, capture_output=True
        )
        self.assertEqual((ended.returncode, ended.stdout, ended.stderr), (0, wanted, b""))
        # Nothing else is changed, so orders without comments stay as they are.
        for content in (
            (EXAMPLES / "farm" / "orders.txt").read_bytes(),
            b"",
            b" 0 open 1\r\n",
            b"\xff\n",
        ):
            self.run_tool(orders.main, "strip", self.path("notes.txt", content), new)
            self.assertEqual(new.read_bytes(), content)
        self.assert_refused(orders.main, ["strip", given, given], "is an input")
        self.assert_refused(orders.main, ["strip", self.folder / "gone", new], "gone: No such file")

    def test_refused_words(self):
        self.assert_refused(orders.main, ["check", self.path("gone.txt")], "gone.txt: No such file")
        self.assert_refused(orders.main, ["check"], "ORDERS")
        self.assert_refused(orders.main, [], "required")
        self.path("orders.txt", b"")
        self.assert_refused(
            orders.main,
            ["check", self.path("orders.txt"), "--lines", self.path("no")],
            "isn't a folder",
        )

    def test_as_a_program(self):
        tool = support.TOOLS / "orders.py"
        ended = subprocess.run([tool, "check", "-"], input=b"0 open 1\r\n", capture_output=True)
        self.assertEqual((ended.returncode, ended.stderr), (1, b""))
        self.assertEqual(
            ended.stdout.decode(),
            f'line 1: "1\\x0d" where {CALL_OF_ORDER}{LF}\norders 1 bad 1 warnings 0\n',
        )
        for words in ([], ["check"], ["strip"]):
            ended = subprocess.run([tool, *words, "--help"], capture_output=True)
            self.assertEqual((ended.returncode, ended.stderr), (0, b""))


class LevelOfATone(InFolder):
    def said(self, *words):
        status, out, err = self.run_tool(orders.main, "level", *words)
        self.assertEqual((status, err), (0, ""))
        return out

    def test_numbers(self):
        self.assertEqual(
            self.said("-30", "1000"), "level tone -30 dBm0 1000 Hz speech to 245 silence from 269\n"
        )
        self.assertEqual(
            self.said("-30", "1000", "--law", "mulaw"),
            "level tone -30 dBm0 1000 Hz speech to 247 silence from 270\n",
        )
        for words, part in (
            (["x", "1000"], "x isn't -60 to 3"),
            (["-30", "nan"], "nan isn't 50 to 3950"),
            (["-30"], "HERTZ"),
        ):
            self.assert_refused(orders.main, ["level", *words], part)

    def test_the_loudest(self):
        with mock.patch.object(tone_peaks, "peaks_of_tone", lambda *_: [32000, 32767]):
            self.assertTrue(self.said("3", "1000").endswith("speech to 32000 silence never\n"))

    @unittest.skipUnless(
        support.is_program(PROGRAM), "no program is built, and by the model this takes many minutes"
    )
    def test_by_the_program(self):
        # A second of the tone, at some phase, and its downlink with DTX: at the first number all frames are speech, at the other none is.
        chance = random.Random(1)
        for words, law in (
            (("-30", "1000"), Law.A),
            (("-45", "333"), Law.A),
            (("-10", "2900"), Law.MU),
        ):
            numbers = re.findall(r"(?:to|from) (\d+)", self.said(*words, "--law", law))
            line = tone_peaks.tone(*map(float, words), chance.random(), law, 8000)
            self.path("1.pcm", line)
            self.path("1.up", (EXAMPLES / "7.up").read_bytes()[: 50 * 40])
            kinds = []
            for number in numbers:
                text = (
                    f"0 open 1{' mulaw' if law is Law.MU else ''}\n0 level 1 {number}\n0 dtx 1 on\n"
                )
                subprocess.run(
                    [PROGRAM, "run"],
                    input=text.encode(),
                    cwd=self.folder,
                    check=True,
                    capture_output=True,
                )
                frames = list(
                    support.frames_of_downlink(bits_of(self.path("1.down").read_bytes()))
                )[25:]
                kinds.append({control_of(frame)[15] for frame in frames})
            self.assertEqual(kinds, [{"1"}, {"0"}], words)


@unittest.skipUnless(
    support.is_program(PROGRAM), "no program is built, and by the model this takes many minutes"
)
class AgainstTheProgram(InFolder):
    def run_program(self, content, command="run"):
        """What the program says of these orders, run in the folder."""
        return subprocess.run(
            [PROGRAM, command], input=content, capture_output=True, cwd=self.folder
        ).stdout.decode()

    def test_each_fault(self):
        for line, _ in FAULTS:
            self.assertEqual(
                self.run_program(b"0 open 2\n" + line + b"\n0 close 2\n"), "orders line 2\n", line
            )

    def test_each_fault_of_a_mark(self):
        for line, text, _ in MARK_FAULTS:
            self.assertEqual(self.run_program(text, "resume"), f"save line {line}\n", text)

    def test_any_mark(self):
        # Good marks with a change of an octet or two: the first bad line is the program's, and none where it has none.
        source = random.Random(3)
        good = b"save 60\n" + CALL + b"call 4 from 5 out 0 down 4294967295\norders\n"
        bad = 0
        for _ in range(200):
            content = bytearray(good)
            for _ in range(source.randint(1, 2)):
                content[source.randrange(len(content))] = source.choice(
                    b"0123456789 \n\rcaldownsve"
                )
            faults = marks.read_mark(bytes(content))[0].faults
            said = self.run_program(bytes(content), "resume")
            bad += bool(faults)
            if faults:
                self.assertEqual(said, f"save line {min(faults)}\n", bytes(content))
            else:
                self.assertFalse(said.startswith("save line"), bytes(content))
        self.assertGreater(bad, 60)

    def test_any_lines(self):
        # Good orders with a change of an octet or two: the first bad line is the program's, and none where it has none.
        source = random.Random(1)
        good = (EXAMPLES / "farm" / "orders.txt").read_bytes()
        bad = 0
        for _ in range(200):
            content = bytearray(good)
            for _ in range(source.randint(1, 2)):
                content[source.randrange(len(content))] = source.choice(b"0123456789 \n\r\tdxopen")
            faults = order_text.Text.read(bytes(content)).faults
            said = self.run_program(bytes(content))
            if faults:
                self.assertEqual(said, f"orders line {min(faults)}\n", bytes(content))
                bad += 1
            else:
                self.assertFalse(said.startswith("orders"), bytes(content))
        self.assertGreater(bad, 60)

    def test_refusals_of_any_orders(self):
        # Calls of few periods, opened, closed and bridged at random: each refusal is the run's.
        for call in range(1, 6):
            self.path(f"{call}.up", bytes(80 * call))
            self.path(f"{call}.pcm", bytes(320 * (call + 1) + 3))
        source = random.Random(2)
        seen = set()
        for _ in range(100):
            lines, stamp = [f"0 open {call}" for call in source.sample(range(1, 6), 3)], 0
            for _ in range(source.randint(1, 25)):
                stamp += source.choice((0, 0, 0, 0, 1, 2))
                form = source.choice(FORMS)
                lines.append(f"{stamp} {form}".format(source.randint(1, 6), source.randint(1, 5)))
            content = "\n".join(lines).encode()
            warned = order_remarks.remarks_on(
                order_text.Text.read(content).orders, self.folder
            ).warnings
            found = [
                (line, int(re.search(r"\((\d)\)", what)[1]))
                for line, what in warned
                if "refuse" in what
            ]
            self.assertEqual(found, refusals(self.run_program(content)), content)
            seen.update(number for _, number in found)
        self.assertEqual(seen, {1, 2, 3, 4, 5, 6, 7})


if __name__ == "__main__":
    unittest.main()
