"""The texts of a run: its orders and its report, by their grammar.

A report is taken only where it is whole: its lines stand in their order, its sums are right, and it
is, octet for octet, what the program writes.
"""

import argparse
import re
import shlex
from pathlib import Path
from typing import Dict, List, Optional, Sequence

from trau.command_line.files import read_file
from trau.command_line.words import Refusal, as_started, option
from trau.rules.board import OrderRefusal
from trau.rules.g711 import Law
from trau.rules.lines import SIDES
from trau.rules.orders import BadLine, Order, TooLong, Verb, orders_of
from trau.rules.profile import MOST_CALLS, MOST_PERIODS
from trau.rules.report import COUNTS, FailedLine, Reply, Report, ReportedBridge, ReportedCall

REFUSALS = {
    1: "the call is open",
    2: "the call isn't open",
    3: "the call is bridged",
    4: "the call isn't bridged",
    5: "a bridge of a call with itself",
    6: "its bridge ended in this very period",
    7: "the number was used before",
}
REFUSALS_WITH_PARTNER = (OrderRefusal.BRIDGED, OrderRefusal.DRAINING)


def calls_named(word: str) -> List[int]:
    """The calls that a word names: parts `A` and `A-B` with commas between."""
    calls: List[int] = []
    for part in word.split(","):
        found = re.fullmatch(r"(\d{1,4})(?:-(\d{1,4}))?", part, re.ASCII)
        first, last = (int(found[1]), int(found[2] or found[1])) if found else (0, 0)
        if not 1 <= first <= last <= MOST_CALLS:
            raise argparse.ArgumentTypeError(f"'{part}' isn't a call A or calls A-B")
        calls += range(first, last + 1)
    return sorted(set(calls))


ORDERS = option(
    "--orders", type=Path, metavar="FILE", help="the orders of the run (default FOLDER/orders.txt)"
)
REPORT = option(
    "--report", type=Path, metavar="FILE", help="the report of the run (default FOLDER/report.txt)"
)
CALLS = option(
    "--calls",
    type=calls_named,
    metavar="CALLS",
    help="only these calls: parts A and A-B with commas",
)


def read_orders(name: Path, content: Optional[bytes] = None) -> List[Order]:
    """Reads a file of orders, or what it has."""
    try:
        return orders_of(read_file(name) if content is None else content)
    except (TooLong, BadLine) as why:
        raise Refusal(f"{name}: {why}") from None


# The report


CAUSE = r"closed|limit|end (?:up|pcm) (?:0|[1-9]\d*)|fault (?:up|pcm)"
REPORT_LINES = {
    "order": re.compile(
        r"order \d+ (?:ok|refused ([1-7]) call (\d+)(?: partner (\d+))?)", re.ASCII
    ),
    "bridge": re.compile(
        r"bridge (\d+) (\d+) from (\d+) to (\d+) sent (\d+) (\d+) lost (\d+) (\d+)", re.ASCII
    ),
    "call": re.compile(rf"call (\d+) from (\d+) to (\d+) ({CAUSE})", re.ASCII),
    "counts": re.compile(
        r"counts (\d+) " + " ".join(rf"{word} (\d+)" for word in COUNTS), re.ASCII
    ),
    "line": re.compile(r"line (\d+) (up|pcm|down|out) failed", re.ASCII),
    "end": re.compile(r"end period \d+ calls \d+ left (\d+)", re.ASCII),
}


def take_line(report: Report, line: str) -> None:
    """Takes a line of a report's text; raises ValueError if it isn't one that may stand there."""
    kind = line.split(" ")[0]
    found = REPORT_LINES[kind].fullmatch(line) if kind in REPORT_LINES else None
    if not found:
        raise ValueError
    words, is_wrong = found.groups(), False
    if kind == "order":
        refusal, call, partner = (None if word is None else int(word) for word in words)
        is_wrong = refusal is not None and (partner is None) == (refusal in REFUSALS_WITH_PARTNER)
        report.replies.append(Reply(refusal, call, partner))
    elif kind == "bridge":  # each of its periods gives a frame each way
        a, b, start, end, sent_a, sent_b, lost_a, lost_b = map(int, words)
        is_wrong = not sent_a + lost_a == sent_b + lost_b == end - start
        report.bridges.append(
            ReportedBridge((a, b), start, end, (sent_a, sent_b), (lost_a, lost_b))
        )
    elif kind == "call":  # these stand in rising order
        call, start, end = map(int, words[:3])
        is_wrong = end < start or not max(report.calls, default=0) < call <= MOST_CALLS
        report.calls[call] = ReportedCall(start, end, words[3], {})
    elif kind == "counts":  # which follow their call's line and add up to its periods
        call, counts = max(report.calls), dict(zip(COUNTS, map(int, words[1:])))
        span = report.calls[call]
        is_wrong = (
            int(words[0]) != call
            or bool(span.counts)
            or sum(counts.values()) - counts["made"] != span.end - span.start
        )
        span.counts.update(counts)
    elif kind == "line":  # these stand by their calls, and then by their sides
        failed = FailedLine(int(words[0]), SIDES.index(words[1]))
        is_wrong = (
            failed.call not in report.calls or bool(report.failed) and failed <= report.failed[-1]
        )
        report.failed.append(failed)
    else:
        report.left = int(words[0])
    if is_wrong:
        raise ValueError


def report_of(name: Path, content: bytes) -> Report:
    """The report that a text is, whole and in its grammar."""
    text = content.decode("latin-1")
    lines = text.split("\n")
    if lines.pop() != "" or not lines or not lines[-1].startswith("end "):
        raise Refusal(f"{name}: isn't a whole report: its last line 'end period ..' is missing")
    report = Report()
    for number, line in enumerate(lines, 1):
        try:
            take_line(report, line)
        except ValueError:
            raise Refusal(
                f"{name}: line {number} isn't one of a report there: {line[:60]!a}"
            ) from None
    for number, (line, wanted) in enumerate(zip(lines, report.text().split("\n")), 1):
        if line != wanted:
            raise Refusal(f"{name}: line {number} isn't one of a report there: {line[:60]!a}")
    for call in (call for bridge in report.bridges for call in bridge.calls):
        if call not in report.calls:
            raise Refusal(f"{name}: has a bridge of call {call}, and no such call")
    accepted = sum(reply.refusal is None for reply in report.replies)
    if accepted < len(report.calls) + len(report.bridges):
        raise Refusal(f"{name}: has more calls and bridges than orders that were accepted")
    return report


def missing_report(name: Path) -> str:
    """Why a folder has no report: its lines were unpacked, or are a gateway's recording, and no run
    has processed them yet. Empty if that isn't known."""
    folder = name.parent
    if (folder / "calls.csv").is_file():
        return f"no run has made it yet; trau run <orders.txt >report.txt in {folder} does"
    if (folder / "clock.txt").is_file():
        replays = as_started(f"gateway.py check {shlex.quote(str(folder))} --again NEW")
        return f"a recording has no report; {replays} makes a run of it, in the folder NEW"
    return ""


def read_report(name: Path) -> Report:
    """Reads the file of a report."""
    missing = "" if name.exists() else missing_report(name)
    if missing:
        raise Refusal(f"{name}: {missing}")
    return report_of(name, read_file(name))


def hold_numbers(name: Path, report: Report, numbers: Optional[Sequence[int]]) -> None:
    """Refuses numbers of calls that the report doesn't have."""
    absent = sorted(set(numbers or ()) - report.calls.keys())
    if absent:
        raise Refusal(f"{name}: has no call {absent[0]}")


def hold_to_orders(name: Path, report: Report, orders: Sequence[Order], periods: int) -> None:
    """Refuses a report that no run of these orders to this number of periods gives."""
    executed = [order for order in orders if order.stamp < periods]
    if (len(report.replies), report.left) != (len(executed), len(orders) - len(executed)):
        raise Refusal(
            f"{name}: speaks of {len(report.replies)} orders and {report.left} left;"
            f" these orders to period {periods} give {len(executed)} and {len(orders) - len(executed)}"
        )
    accepted = [order for order, reply in zip(executed, report.replies) if reply.refusal is None]
    opened = {order.calls[0]: order.stamp for order in accepted if order.verb is Verb.OPEN}
    if opened != {call: span.start for call, span in report.calls.items()}:
        raise Refusal(f"{name}: has other calls than these orders open, or at other periods")
    bridged = [(order.calls, order.stamp) for order in accepted if order.verb is Verb.BRIDGE]
    if bridged != [(bridge.calls, bridge.start) for bridge in report.bridges]:
        raise Refusal(f"{name}: has other bridges than these orders make")
    for call, span in report.calls.items():
        if span.end > periods or (span.end == periods) != (span.cause == "limit"):
            raise Refusal(
                f"{name}: has call {call} to {span.end} {span.cause}, which isn't of a run to period {periods}"
            )


def laws_of(report: Report, orders: Sequence[Order]) -> Dict[int, Law]:
    """The law of each call of a run of these orders: that of the order that opened it."""
    answered = zip(orders, report.replies)
    return {
        order.calls[0]: order.law()
        for order, reply in answered
        if order.verb is Verb.OPEN and reply.refusal is None
    }


def periods_told(report: Report, orders: Sequence[Order]) -> int:
    """The number of periods at which a run of these orders ended, as far as its report shows."""
    limits = [span.end for span in report.calls.values() if span.cause == "limit"]
    if limits:
        return limits[0]
    executed = len(report.replies)
    return orders[executed].stamp if executed < len(orders) else MOST_PERIODS
