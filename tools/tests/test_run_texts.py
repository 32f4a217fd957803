"""Tests of run_texts.py: the grammar of orders and of reports, on the texts of four recorded farms and on damaged ones."""

import unittest
from pathlib import Path

from support import CODEC, EXAMPLES, TOP, InFolder

from trau.runs import run_texts
from trau.rules.profile import MOST_PERIODS
from trau.command_line.words import Refusal

FARMS = (
    (EXAMPLES / "farm" / "orders.txt", EXAMPLES / "farm" / "wanted" / "report.txt"),
    (
        TOP / "checks" / "farms" / "clean" / "orders.txt",
        TOP / "checks" / "farms" / "clean" / "report.txt",
    ),
    (
        TOP / "checks" / "farms" / "mulaw" / "orders.txt",
        TOP / "checks" / "farms" / "mulaw" / "report.txt",
    ),
    (TOP / "checks" / "farms" / "harsh" / "orders.txt", CODEC / "farm-report.txt"),
)
NAME = Path("text")


class Orders(InFolder):
    def test_each_line_comes_back(self):
        for name, _ in FARMS:
            orders = run_texts.read_orders(name)
            self.assertEqual("".join(f"{order.line()}\n" for order in orders), name.read_text())
            self.assertEqual([order.number for order in orders], list(range(1, len(orders) + 1)))

    def test_refused(self):
        for content, why in (
            (b"0 open 1\n0 shut 1\n0 open 2", "text: line 2 isn't an order: '0 shut 1'"),
            (b"5 open 1\n4 open 2\n", "text: line 2 has a stamp below that of the line before"),
            (
                b"5 open 4097\n",
                "text: line 1 names call 4097; the calls of one farm are 1 to 4,096",
            ),
            (65537 * b"0 open 1\n", "text: orders too long: 589,833 octets, 65,537 lines"),
        ):
            with self.assertRaisesRegex(Refusal, why):
                run_texts.read_orders(NAME, content)


class Reports(unittest.TestCase):
    def test_each_comes_back(self):
        for orders, name in FARMS:
            report = run_texts.read_report(name)
            self.assertEqual(report.text(), name.read_text())
            run_texts.hold_to_orders(name, report, run_texts.read_orders(orders), MOST_PERIODS)

    def test_no_front_and_no_rest_is_a_report(self):
        text = FARMS[0][1].read_bytes()
        ends = [place + 1 for place, octet in enumerate(text) if octet == 10]
        for end in (0, *ends[:-1], len(text) - 1):
            with self.assertRaisesRegex(Refusal, "isn't a whole report"):
                run_texts.report_of(NAME, text[:end])
        for start in ends[:-1]:
            with self.assertRaises(Refusal):
                run_texts.report_of(NAME, text[start:])

    def test_no_line_may_be_wanting_doubled_or_elsewhere(self):
        lines = FARMS[0][1].read_bytes().splitlines(True)
        for number, line in enumerate(lines):
            others = lines[:number] + lines[number + 1 :]
            for changed in (
                others,
                lines[:number] + [line, line] + lines[number + 1 :],
                [*others, line],
                [line, *others],
            ):
                # That a bridge's line or the last order is wanting the orders tell alone.
                if changed != lines and not line.startswith((b"bridge", b"order 18")):
                    with self.subTest(line), self.assertRaises(Refusal):
                        run_texts.report_of(NAME, b"".join(changed))

    def test_wrong_sums(self):
        text = FARMS[0][1].read_bytes()
        for old, new in (
            (b"good 61", b"good 60"),
            (b"sent 73 73", b"sent 73 72"),
            (b"lost 0 0", b"lost 1 0"),
            (b"end period 153", b"end period 152"),
            (b"calls 4 left", b"calls 5 left"),
            (b"call 3 from 73 to 131", b"call 3 from 73 to 72"),
            (b"order 14 refused 5 call 3", b"order 14 refused 5 call 3 partner 1"),
            (b"order 14 refused 5 call 3", b"order 14 refused 3 call 3"),
            (b"bridge 1 3", b"bridge 1 5"),
            (b"call 1 from", b"call 01 from"),
            (b"end up 0", b"end up 00"),
        ):
            self.assertIn(old, text)
            with self.subTest(new), self.assertRaises(Refusal):
                run_texts.report_of(NAME, text.replace(old, new, 1))

    def test_reports_of_other_orders(self):
        name, orders = FARMS[0][1], run_texts.read_orders(FARMS[0][0])
        report = run_texts.read_report(name)
        for others in (orders[:-1], orders[1:], orders + orders[-1:]):
            with self.assertRaises(Refusal):
                run_texts.hold_to_orders(name, report, others, MOST_PERIODS)
        for periods in (131, 144, 145, 152, 153):
            with self.assertRaises(Refusal):
                run_texts.hold_to_orders(name, report, orders, periods)
        run_texts.hold_to_orders(name, report, orders, 154)


if __name__ == "__main__":
    unittest.main()
