"""Tests of the two grammars: words of the command line, and orders."""

import unittest

from material import TOP  # noqa: F401  (puts the top of the repository on the path)
from trau.rules import profile
from trau.rules.orders import BadLine, TooLong, lines_of, orders_of, read_order
from trau.rules.numbers import number
from trau.model.words import Asked, asked


class Numbers(unittest.TestCase):
    """How a number is spelled."""

    def test_numbers(self) -> None:
        for text, value in (("0", 0), ("7", 7), ("4294967295", profile.MOST_PERIODS)):
            self.assertEqual(number(text, 0, profile.MOST_PERIODS), value)

    def test_what_is_none(self) -> None:
        for text in (
            "",
            "00",
            "07",
            "+7",
            "-7",
            " 7",
            "7 ",
            "7\n",
            "1_0",
            "4294967296",
            "٣",
            "1e3",
            "0x1",
        ):
            self.assertIsNone(number(text, 0, profile.MOST_PERIODS), repr(text))


class Words(unittest.TestCase):
    """What words ask for."""

    def test_defaults(self) -> None:
        for words, command in (
            ("run", Asked("run", 50, profile.MOST_PERIODS, 0, 0)),
            ("resume", Asked("resume", 50, profile.MOST_PERIODS, 0, 0)),
            ("save --periods 3", Asked("save", 50, 3, 0, 0)),
            ("drill", Asked("drill", 50, 200, 1, 64)),
            ("live", Asked("live", 0, 200, 1, 64)),
        ):
            self.assertEqual(asked(words.split()), command, words)

    def test_options(self) -> None:
        words = "run --batch=7 --workers 1 --slice=250 --periods 4294967295"
        self.assertEqual(asked(words.split()), Asked("run", 7, profile.MOST_PERIODS, 0, 0))
        self.assertEqual(
            asked("drill --seed 0 --calls=256 --periods 1000 --".split()),
            Asked("drill", 50, 1000, 0, 256),
        )
        self.assertEqual(
            asked("live --inbox 1024 --callers 64 --calls 1".split()), Asked("live", 0, 200, 1, 1)
        )
        self.assertEqual(asked(["run", "--"]), Asked("run", 50, profile.MOST_PERIODS, 0, 0))

    def test_words_that_are_wrong(self) -> None:
        for words in (
            "run --workers 0|run --workers 65|run --batch 251|run --slice 0|run --periods 0|run --periods 4294967296|run --batch 2 --batch 3|"
            "run --work 2|run -w 2|run x|run --help|run --workers|run --workers=|run --workers --|run -- x|run -- --|run --workers 3 -- --|"
            "run --seed 1|run --batch 07|run --batch=+7|save|save --workers 1|drill --periods 1001|drill --calls 257|drill --seed -1|"
            "live --callers 65|live --inbox 0|live --workers 2|walk|Run"
        ).split("|"):
            self.assertIsNone(asked(words.split()), words)
        self.assertIsNone(asked([]))
        self.assertIsNone(asked(["run", ""]))
        self.assertIsNone(asked(["run", "--batch", ""]))


class Orders(unittest.TestCase):
    """Orders and their first bad line."""

    def assert_bad(self, text: bytes, line: int) -> None:
        """That this line of the text is the first bad one."""
        with self.assertRaises(BadLine) as caught:
            orders_of(text)
        self.assertEqual(caught.exception.line, line, text)

    def test_each_order(self) -> None:
        text = b"0 open 1\n0 open 4096 mulaw\n5 bridge 1 4096\n5 level 1 32767\n6 dtx 1 on\n6 dtx 1 off\n6 dtx 1 uplink\n7 unbridge 1\n4294967294 close 1"
        self.assertEqual(
            [
                (
                    order.number,
                    order.stamp,
                    order.verb,
                    order.calls,
                    str(order.law()),
                    order.value(),
                )
                for order in orders_of(text)
            ],
            [
                (1, 0, "open", (1,), "alaw", "1"),
                (2, 0, "open", (4096,), "mulaw", "mulaw"),
                (3, 5, "bridge", (1, 4096), "alaw", "4096"),
                (4, 5, "level", (1,), "alaw", "32767"),
                (5, 6, "dtx", (1,), "alaw", "on"),
                (6, 6, "dtx", (1,), "alaw", "off"),
                (7, 6, "dtx", (1,), "alaw", "uplink"),
                (8, 7, "unbridge", (1,), "alaw", "1"),
                (9, profile.MOST_STAMP, "close", (1,), "alaw", "1"),
            ],
        )
        self.assertEqual(
            "".join(f"{order.line()}\n" for order in orders_of(text)).encode(), text + b"\n"
        )
        self.assertEqual(orders_of(b""), [])
        self.assertEqual(read_order(1, "0 bridge 3 2").calls, (3, 2))

    def test_lines(self) -> None:
        self.assertEqual(lines_of(b""), [])
        self.assertEqual(lines_of(b"\n"), [b""])
        self.assertEqual(lines_of(b"a\nb"), lines_of(b"a\nb\n"))

    def test_bad_lines(self) -> None:
        for line in (
            b"|0  open 1|0 open 1 |0 open 01|00 open 1|0 open 0|0 open 4097|4294967295 open 1|0 open 1 alaw|0 open 1 Mulaw|0 open|open 1|"
            b"0 level 1 32768|0 level 1 -1|0 dtx 1|0 dtx 1 ON|0 bridge 1|0 bridge 1 2 3|0 open 1\r|\xff|0\topen 1|0 opens 1|0 close 1 mulaw"
        ).split(b"|"):
            self.assert_bad(b"0 open 9\n" + line + b"\n0 open 7\n", 2)

    def test_stamps_that_fall(self) -> None:
        self.assert_bad(b"5 open 1\n4 open 2\n", 2)
        self.assert_bad(b"5 open 1\nx\n4 open 2\n", 2)

    def test_limits(self) -> None:
        line = b"0 open 1\n"
        self.assertEqual(len(orders_of(line * profile.MOST_ORDERS)), profile.MOST_ORDERS)
        self.assert_bad(b"x" * profile.MOST_ORDER_OCTETS, 1)
        for text in (line * profile.MOST_ORDERS + b"0", b"x" * (profile.MOST_ORDER_OCTETS + 1)):
            self.assertRaises(TooLong, orders_of, text)


if __name__ == "__main__":
    unittest.main()
