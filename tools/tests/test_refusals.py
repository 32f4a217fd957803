"""Tests of what the program says of words, orders and marks that it doesn't take: its text and status, and the reason on
standard error. Without a program the model says the same."""

import os
import subprocess
import unittest

from support import TOP, InFolder, is_program

PROGRAM = os.environ.get("TRAU_PROGRAM") or TOP / "model" / "trau"

PERIOD = "a period (0 to 4294967294)"
CALL = "a call (1 to 4096)"
VERB = "open, close, bridge, unbridge, level or dtx"
SPACES = "; one space separates words"
ZEROS = "; numbers have no leading zeros"
LF = "; lines end with LF alone"
LEVEL = "a level (0 to 32767)"
WANTED = "W (0 to 316, a multiple of 4)"

WORDS = {
    "": "no command is given; trau help lists them",
    "relya 7": '"relya" is no command; trau help lists them',
    "help relya": '"help" is no command; trau help lists them',
    "relay": "the words end where C (1 to 4096) is expected",
    "relay 4097": '"4097" where C (1 to 4096) is expected',
    "relay 07": f'"07" where C (1 to 4096) is expected{ZEROS}',
    "relay 7 --no-lock": '"--no-lock" where no further word is expected',
    "split 4094": '"4094" where C (1 to 4093) is expected',
    "follow 7": f"the words end where {WANTED} is expected",
    "follow 7 6": f'"6" where {WANTED} is expected',
    "run --workers 65": '"65" where the value of --workers (1 to 64) is expected',
    "run --workers=04": f'"04" where the value of --workers (1 to 64) is expected{ZEROS}',
    "run --batch": "a value is required for '--batch <batch>' but none was supplied",
    "run --batch 2 --batch=3": "the argument '--batch <batch>' cannot be used multiple times",
    "run --work 2": "unexpected argument '--work' found",
    "run orders.txt": "unexpected argument 'orders.txt' found",
    "run -- --periods 5": "unexpected argument '--periods' found",
    "run --\x1b[31m": "unexpected argument '--\ufffd[31m' found",
    "drill --seed 2 -- --": "unexpected argument '--' found",
    "save --workers 3": "save needs --periods, the period of the mark",
    "live --inbox --seed 3": "a value is required for '--inbox <inbox>' but none was supplied",
}

# Orders, their first bad line, and why it is one.
ORDERS = (
    (b"0 opne 1", 1, f'"opne" where {VERB} is expected'),
    (b"0 Open 1", 1, f'"Open" where {VERB} is expected'),
    (b"0 open 1\n5 open  2\nx", 2, f'"" where {CALL} is expected{SPACES}'),
    (b"\n", 1, f"the line ends where {PERIOD} is expected"),
    (b"# orders", 1, f'"#" where {PERIOD} is expected; orders have no comments'),
    (b"0\topen 1", 1, f'"0\\x09open" where {PERIOD} is expected'),
    # The hint is the first that fits: an empty word, a comment, CR, leading zeros.
    (b"0 level 1 0\r\n", 1, f'"0\\x0d" where {LEVEL} is expected{LF}'),
    (b"0 bridge 1 02\r\n", 1, f'"02\\x0d" where {CALL} is expected{LF}'),
    (b"#0\r\n", 1, f'"#0\\x0d" where {PERIOD} is expected; orders have no comments'),
    (b"\r\n", 1, f'"\\x0d" where {PERIOD} is expected{LF}'),
    (
        b"5 open 1\n4 open 2",
        2,
        '"4" where a period (5, that of the order before, to 4294967294) is expected',
    ),
    (b"0 open", 1, f"the line ends where {CALL} is expected"),
    (b"0 open 1\r\n", 1, f'"1\\x0d" where {CALL} is expected; lines end with LF alone'),
    (b"0 open 1 alaw", 1, '"alaw" where mulaw, or nothing for A-law, is expected'),
    (b"0 level 1 32768", 1, '"32768" where a level (0 to 32767) is expected'),
    (b"0 dtx 1", 1, "the line ends where on, off or uplink is expected"),
    (b"0 close 1 mulaw", 1, '"mulaw" where the line\'s end is expected'),
    (b"0 open \xb9" + 50 * b"z", 1, f'"\\xb9{39 * "z"}.." where {CALL} is expected'),
)

CALL_OF_A_MARK = (
    '"call C from S out X down Y", C above that of the line before, or "orders" is expected'
)
MARKS = (
    (b"0 open 1\n", 1, '"save P" is expected, as trau save prints it'),
    (b"save 05\norders\n", 1, '"save P" is expected, as trau save prints it'),
    (b"save 5\n0 open 1\n", 2, CALL_OF_A_MARK),
    (b"save 5\ncall 2 from 0 out 1 down 1\ncall 1 from 0 out 1 down 1\n", 3, CALL_OF_A_MARK),
)


class Answers(InFolder):
    """The program, with orders from a pipe."""

    def answer(self, words, given=b""):
        """The status, standard output and standard error."""
        how = {"input": given, "capture_output": True, "cwd": self.folder}
        ended = subprocess.run([PROGRAM, *words.split()], check=False, **how)
        return ended.returncode, ended.stdout.decode(), ended.stderr.decode()


class Refused(Answers):
    """Words, orders and marks that aren't taken."""

    def test_words(self):
        for words, why in WORDS.items():
            self.assertEqual(self.answer(words), (1, "usage\n", f"trau: {why}\n"), words)

    def test_orders(self):
        for given, line, why in ORDERS:
            said = f"trau: line {line} of the orders: {why}\n"
            self.assertEqual(self.answer("run", given), (2, f"orders line {line}\n", said), given)

    def test_orders_of_other_commands(self):
        said = f'trau: line 2 of the orders: "x" where {PERIOD} is expected\n'
        for words, given in (
            ("save --periods 5", b"0 open 1\nx"),
            ("resume", b"save 5\norders\n0 open 1\nx"),
        ):
            self.assertEqual(self.answer(words, given), (2, "orders line 2\n", said), words)

    def test_marks(self):
        for given, line, why in MARKS:
            said = f"trau: line {line} of the mark: {why}\n"
            self.assertEqual(self.answer("resume", given), (2, f"save line {line}\n", said), given)

    def test_what_is_taken(self):
        self.assertEqual(self.answer("run"), (0, "end period 0 calls 0 left 0\n", ""))


@unittest.skipUnless(is_program(PROGRAM), "no program is built, and the model doesn't say it")
class Downlinks(Answers):
    """Up lines whose first frame is that of a downlink."""

    SAID = "trau: 7.up: its first frame is that of a downlink; trau follow 7 0 reads one\n"

    def setUp(self):
        super().setUp()
        self.path("8.up", (TOP / "examples" / "7.up").read_bytes())
        self.path("7.pcm", bytes(160 * 20))
        self.answer("encode 7")
        (self.folder / "7.down").rename(self.folder / "7.up")

    def test_listed(self):
        self.assertEqual(self.answer("frames 7")[2], self.SAID)
        self.assertEqual(self.answer("frames 8")[2], "")

    def test_run(self):
        self.path("8.pcm", b"")
        opened = b"0 open 7\n0 open 8\n5 close 7\n6 open 7\n"
        self.assertEqual(self.answer("run", opened)[2], self.SAID)
        self.assertEqual(self.answer("run --periods 3", b"3 open 7\n")[2], "")


if __name__ == "__main__":
    unittest.main()
