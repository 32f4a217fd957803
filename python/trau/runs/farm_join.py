"""The command of shard.py that joins the reports of a cut farm's parts."""

from __future__ import annotations

import argparse
import json
import re
import shlex
import sys
from dataclasses import dataclass
from pathlib import Path
from typing import Dict, Iterator, List, Optional, Tuple

from trau.command_line.files import read_file, write_file
from trau.command_line.words import Refusal, as_started, option
from trau.rules.lines import OUTGOING
from trau.rules.orders import Order, Verb
from trau.rules.report import FailedLine, Reply, Report, ReportedBridge, ReportedCall
from trau.runs import run_texts
from trau.runs.farm_cut import CUT, ORDERS, REPORT, SCRIPT, STATUS
from trau.runs.folder_lock import alone_in

STATUSES_WITH_A_REPORT = (0, 6)


@dataclass
class Cut:
    """A cut farm."""

    folder: Path
    farm: Path
    copied: bool
    periods: int
    orders: List[Order]
    orders_of_parts: List[List[int]]

    @staticmethod
    def read(folder: Path) -> Cut:
        """Reads the folder that `cut` made."""
        name = folder / CUT
        try:
            noted = json.loads(read_file(name))
            orders = run_texts.read_orders(folder / ORDERS)
            parts = noted["orders_of_parts"]
            if sorted(number for part in parts for number in part) != [
                order.number for order in orders
            ]:
                raise ValueError
            return Cut(
                folder, Path(noted["farm"]), noted["copied"], noted["periods"], orders, parts
            )
        except (ValueError, KeyError, TypeError):
            raise Refusal(f"{name}: isn't what {as_started('shard.py cut')} writes") from None

    def part(self, number: int) -> Path:
        """The folder of a part."""
        return self.folder / str(number)


def status_of(folder: Path) -> Optional[int]:
    """The status of a part's run, or None if it wasn't run."""
    try:
        return int((folder / STATUS).read_text())
    except (OSError, ValueError):
        return None


def check_all_were_run(cut: Cut) -> None:
    """Refuses a cut with parts that weren't run, and says how to run these."""
    lacking = [
        number
        for number in range(len(cut.orders_of_parts))
        if status_of(cut.part(number)) not in STATUSES_WITH_A_REPORT
    ]
    if lacking:
        said = ("part " if len(lacking) == 1 else "parts ") + ",".join(
            str(number) for number in lacking
        )
        again = "; ".join(
            f"sh {shlex.quote(str(cut.part(number) / SCRIPT))}" for number in lacking[:4]
        )
        more = "; .." if len(lacking) > 4 else ""
        raise Refusal(f"{cut.folder}: no whole report of {said}; run again: {again}{more}")


def report_of_part(cut: Cut, number: int) -> Report:
    """The report of a part, held to its orders."""
    name = cut.part(number) / REPORT
    own = [cut.orders[order - 1] for order in cut.orders_of_parts[number]]
    try:
        report = run_texts.read_report(name)
        run_texts.hold_to_orders(name, report, own, cut.periods)
        if report.status() != status_of(cut.part(number)):
            raise Refusal(f"{name}: isn't the report of a run with this part's status")
        return report
    except Refusal as refusal:
        script = shlex.quote(str(cut.part(number) / SCRIPT))
        raise Refusal(
            f"{refusal}; was this part run by other words? run it again: sh {script}"
        ) from None


def accepted_bridges(cut: Cut, number: int, report: Report) -> Iterator[Tuple[int, ReportedBridge]]:
    """The bridges of a part, each with the number of its order; a report lists them as they were
    accepted."""
    bridges = iter(report.bridges)
    for order, reply in zip(cut.orders_of_parts[number], report.replies):
        if reply.refusal is None and cut.orders[order - 1].verb is Verb.BRIDGE:
            yield order, next(bridges)


def joined(cut: Cut) -> Report:
    """The report of the one run."""
    replies: Dict[int, Reply] = {}
    bridges: Dict[int, ReportedBridge] = {}
    calls: Dict[int, ReportedCall] = {}
    failed: List[FailedLine] = []
    left = 0
    for number, orders in enumerate(cut.orders_of_parts):
        report = report_of_part(cut, number)
        replies.update(zip(orders, report.replies))
        bridges.update(accepted_bridges(cut, number, report))
        calls.update(report.calls)
        failed += report.failed
        left += report.left
    return Report(
        [replies[order] for order in sorted(replies)],
        [bridges[order] for order in sorted(bridges)],
        dict(sorted(calls.items())),
        sorted(failed),
        left,
    )


def join(words: argparse.Namespace) -> int:
    """Prints the report of the one run; the status is 0, or 6 if lines failed, as in the one run.
    If the lines were copied, it brings the outgoing ones to the farm's folder. If a part has no
    whole report, or its report isn't one of its orders and its number of periods, it says which
    part, writes nothing and exits with status 2."""
    cut = Cut.read(words.cut)
    check_all_were_run(cut)
    report = joined(cut)
    if cut.copied:
        lines = (
            line
            for number in range(len(cut.orders_of_parts))
            for line in sorted(cut.part(number).iterdir())
        )
        with alone_in(cut.farm):
            for line in lines:
                if re.fullmatch(rf"\d+\.(?:{'|'.join(OUTGOING)})", line.name, re.ASCII):
                    write_file(cut.farm / line.name, read_file(line), [])
    sys.stdout.write(report.text())
    return report.status()


JOIN_OPTIONS = (option("cut", type=Path, metavar="CUT", help="the folder that `cut` made"),)
