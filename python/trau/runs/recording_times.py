"""The time (UTC) of a run's periods, if its lines are of a gateway's recording (docs/GATEWAY.md):
clock.txt has the time of some periods, and how many periods the clock gave up at which."""

import argparse
import os
import re
from datetime import datetime, timedelta
from pathlib import Path
from typing import Dict, List, Optional, Tuple

from trau.command_line.files import read_file
from trau.command_line.words import Refusal, option
from trau.rules.lines import UP, name_of
from trau.rules.profile import PERIODS_A_SECOND
from trau.runs.answers import Answer, ReportCommand
from trau.runs.run_lines import RecordedCall

LINE = re.compile(
    r"(\d{1,10}) (?:at (20\d\d-\d\d-\d\dT\d\d:\d\d:\d\d\.\d{3}\+00:00)|given-up (\d{1,10}))",
    re.ASCII,
)
PERIOD = timedelta(milliseconds=20)


def whole_lines(name: Path) -> List[str]:
    """The lines of a text, without a last one that was cut."""
    return read_file(name).decode("latin-1").split("\n")[:-1]


class RecordingClock:
    """The times of a recording's periods, and the orders that open its calls."""

    def __init__(self, folder: Path) -> None:
        name, orders = folder / "clock.txt", folder / "orders.txt"
        self.marks: List[Tuple[int, datetime]] = []
        for number, line in enumerate(whole_lines(name) if name.is_file() else (), 1):
            found = LINE.fullmatch(line)
            try:
                if found and found[2]:
                    self.marks.append((int(found[1]), datetime.fromisoformat(found[2])))
                elif found and self.marks:
                    self.marks.append(
                        (int(found[1]), self.time(int(found[1])) + int(found[3]) * PERIOD)
                    )
            except (ValueError, OverflowError):
                raise Refusal(f"{name}: line {number} has no time: {line!a}") from None
        lines = whole_lines(orders) if self.marks and orders.is_file() else []
        self.opened = {" ".join(line.split(" ")[:3]) for line in lines}

    def time(self, period: int) -> datetime:
        """When a period was: 20 ms each after the last one up to it whose time is known."""
        known, time = next(
            (mark for mark in reversed(self.marks) if mark[0] <= period), self.marks[0]
        )
        return time + (period - known) * PERIOD

    def said(self, period: int) -> Optional[str]:
        """The time of a period in words, if any is known."""
        return self.time(period).isoformat(timespec="milliseconds") if self.marks else None


class Times:
    """The times of a run's calls. Their uplinks are in the folder of a recording, or are links into
    one, as those of a replay."""

    def __init__(self, folder: Path) -> None:
        self.folder = folder
        self.clocks: Dict[Path, RecordingClock] = {}

    def said(self, call: RecordedCall, period: int) -> Optional[str]:
        """The time of a period of the run, if a recording has the call's uplink, and opens it at
        the same period."""
        uplink = Path(os.path.realpath(self.folder / name_of(call.number, UP)))
        clock = self.clocks[uplink.parent] = self.clocks.get(uplink.parent) or RecordingClock(
            uplink.parent
        )
        return (
            clock.said(period) if f"{call.span.start} open {uplink.stem}" in clock.opened else None
        )


EVENT_COLUMNS = ("period", "seconds", "call", "what", "count", "why", "utc")


EVENT = re.compile(r"(\d{1,10}) call (\d{1,4})((?: \S+ \d{1,18})+)((?:, .*)?)", re.ASCII)


REASON = re.compile(r", ((?:gsm|pcm)-\S+): (.*?)(?=, (?:gsm|pcm)-\S+: |$)")


def events(words: argparse.Namespace) -> Answer:
    """A row for each count that rose: the period at which it was written, within a second, the
    call, the count with its side, by how much, why (of a fault of the gateway), and UTC.
    `gateway.py --help` explains the counts."""
    name = words.recording / "events.txt"
    clock, rows = RecordingClock(words.recording), []
    for number, line in enumerate(whole_lines(name), 1):
        found = EVENT.fullmatch(line)
        if not found:
            raise Refusal(f"{name}: line {number} isn't one of a recording's events: {line[:60]!a}")
        period, counts = int(found[1]), found[3].split()
        row = {
            "period": period,
            "seconds": period / PERIODS_A_SECOND,
            "call": int(found[2]),
            "utc": clock.said(period),
        }
        reasons = dict(REASON.findall(found[4]))
        rows += [
            {**row, "what": what, "count": int(count), "why": reasons.get(what, "")}
            for what, count in zip(counts[::2], counts[1::2])
        ]
    return Answer(EVENT_COLUMNS, rows, rows)


EVENTS = ReportCommand(
    events,
    "what the network did to the calls of a gateway's recording",
    options=(
        option("recording", type=Path, metavar="RECORDING", help="the folder of the recording"),
    ),
)
