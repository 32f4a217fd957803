"""Shows how far a run is, and when it will be done, while `trau run <orders.txt >report.txt` works
in a folder.

It reads the sizes of the lines, and writes nothing. A run writes its report at its end, in one
piece. While the report's file is empty and a process has the lock of the folder, the run goes on;
outgoing lines that are older than this file are from an earlier run. Status 1: there is no run, or
it ended without a report, or its lines have stopped growing. Of several folders those are watched
that have a run; each other one gets a line on standard error, and the status is that of the worst.
"""

from __future__ import annotations


import argparse
import contextlib
import importlib
import sys
import time
from dataclasses import dataclass
from pathlib import Path
from typing import Callable, Dict, Iterator, List, NamedTuple, Optional, Sequence

from trau.command_line.ends import for_each, tool
from trau.command_line.files import read_file
from trau.command_line.words import Refusal, Words, number_within, option, switch
from trau.rules.board import Board
from trau.rules.lines import OUT, OUTGOING, incoming_periods, name_of, whole_periods
from trau.rules.orders import Order
from trau.rules.profile import MOST_PERIODS
from trau.runs import run_texts
from trau.runs.folder_lock import is_locked


def expected_periods(folder: Path, orders: Sequence[Order], periods: int) -> Dict[int, int]:
    """How many periods each call will have, if no line fails and its orders are accepted."""
    board, expected = Board(lambda order: None), {}
    for order in orders:
        board.execute(order)
    for call, opening in board.opened.items():
        lines = incoming_periods(folder, call)
        end = min(board.closed.get(call, periods), periods)
        expected[call] = max(0, min(lines, end - opening.stamp))
    return expected


class NoRun(Refusal):
    """There is no run to watch, or it doesn't go on. The text says why, in one line."""

    status = 1


class RunProgress(NamedTuple):
    """How far runs are: periods of calls that are on the lines, and calls that are done; when the
    first run began, and whether all have ended."""

    periods: int
    calls: int
    began: float
    ended: bool


TOOL = "watch.py"
NOT_LOCKED = "no process of this machine has the folder's lock"


@dataclass
class Watched:
    """The folder of a run. A single look takes a run with lines that nobody has locked for ended;
    else its lock has to be gone, since some runs have none."""

    folder: Path
    report: Path
    expected: Dict[int, int]
    once: bool = False
    was_locked: bool = False
    ended: bool = False

    @staticmethod
    def read(folder: Path, words: argparse.Namespace) -> Watched:
        """Reads the orders of the run."""
        name = words.orders or folder / "orders.txt"
        if not words.orders and not name.is_file():
            raise NoRun(f"{folder}: no run in this folder: there is no {name.name}")
        report = words.report or folder / "report.txt"
        return Watched(
            folder,
            report,
            expected_periods(folder, run_texts.read_orders(name), words.periods),
            words.once,
        )

    def octets(self) -> int:
        """How many octets are on the outgoing lines of the calls."""
        lines = (self.folder / name_of(call, side) for call in self.expected for side in OUTGOING)
        return sum(line.stat().st_size for line in lines if line.is_file())

    def done(self, call: int, began: float) -> int:
        """How many periods of a call are on its Out line."""
        line = self.folder / name_of(call, OUT)
        if not line.is_file() or line.stat().st_mtime < began:
            return 0
        return min(self.expected[call], whole_periods(self.folder, call, OUT))

    def progress(self) -> RunProgress:
        """How far this run is. The lock is looked at first: a run lets it go after its report is
        written."""
        locked = is_locked(self.folder)
        if not self.report.is_file():
            return RunProgress(0, 0, time.time(), False)
        found = self.report.stat()
        if found.st_size:
            self.ended = True
            return RunProgress(
                sum(self.expected.values()), len(self.expected), found.st_mtime, True
            )
        done = {call: self.done(call, found.st_mtime) for call in self.expected}
        calls = sum(done[call] == self.expected[call] for call in done)
        self.ended = locked is False and (self.was_locked or self.once and any(done.values()))
        self.was_locked = self.was_locked or bool(locked)
        return RunProgress(sum(done.values()), calls, found.st_mtime, self.ended)


def progress_of(runs: Sequence[Watched]) -> RunProgress:
    """How far all runs are together."""
    each = [run.progress() for run in runs]
    began = min((one.began for one in each if not one.ended), default=time.time())
    return RunProgress(
        sum(one.periods for one in each),
        sum(one.calls for one in each),
        began,
        all(one.ended for one in each),
    )


class Pace(NamedTuple):
    """What a pace is measured from: a time, and the periods that were done then."""

    time: float
    periods: int

    @staticmethod
    def of(runs: Sequence[Watched], first: RunProgress) -> Pace:
        """Of one run from its beginning; of several from the first look, since nothing shows when
        the ended ones began."""
        return Pace(first.began, 0) if len(runs) == 1 else Pace(time.time(), first.periods)

    def seconds_left(self, progress: RunProgress, expected: int) -> Optional[float]:
        """The seconds until it is done at this pace, or None if nothing is done yet."""
        went, passed = progress.periods - self.periods, time.time() - self.time
        if progress.ended or went <= 0 or passed <= 0:
            return None
        return passed * (expected - progress.periods) / went


def said(progress: RunProgress, expected: int, calls: int, left: Optional[float]) -> str:
    """The progress in one line."""
    percent = 100 * progress.periods // expected if expected else 100
    until = "" if left is None else f", {left:.0f} s left"
    return f"watch periods {progress.periods} of {expected}, {percent} %, calls done {progress.calls} of {calls}{until}"


@contextlib.contextmanager
def display(
    words: argparse.Namespace, expected: int
) -> Iterator[Callable[[RunProgress, str], None]]:
    """What shows the progress: a bar of the library tqdm at a terminal where that is installed,
    else lines of text."""
    tqdm = None
    if not words.plain and sys.stdout.isatty():
        with contextlib.suppress(ImportError):
            tqdm = importlib.import_module("tqdm")
    if tqdm is None:
        yield lambda _, line: print(line, flush=True)
        return
    with tqdm.tqdm(total=expected, unit=" periods", file=sys.stdout) as bar:
        yield lambda progress, _: bar.update(progress.periods - bar.n)


def check_end(run: Watched) -> None:
    """Raises NoRun, with what a run printed, if it ended without a report."""
    if not run.ended:
        return
    text = read_file(run.report)
    try:
        run_texts.report_of(run.report, text)
    except Refusal:
        first = text.decode("latin-1").split("\n")[0] or NOT_LOCKED
        raise NoRun(f"{run.folder}: ended without a report: {first[:60]}") from None


def follow(runs: Sequence[Watched], words: argparse.Namespace) -> None:
    """Shows the progress of runs until all have ended, or once. Raises NoRun if none has begun, or
    none goes on."""
    expected = sum(sum(run.expected.values()) for run in runs)
    calls = sum(len(run.expected) for run in runs)
    if not any(run.report.is_file() for run in runs):
        raise NoRun(f"{runs[0].folder}: no run in this folder: there is no {runs[0].report.name}")
    pace: Optional[Pace] = None
    octets, since = -1, 0.0  # what is on the lines, and since when
    with display(words, expected) as show:
        while True:
            progress = progress_of(runs)
            pace = pace or Pace.of(runs, progress)
            left = pace.seconds_left(progress, expected)
            show(progress, said(progress, expected, calls, left))
            if progress.ended or words.once:
                return
            grown, now = sum(run.octets() for run in runs) + progress.periods, time.monotonic()
            if grown != octets:
                octets, since = grown, now
            elif now - since >= words.patience:
                raise NoRun(f"no growth for {words.patience:g} s: stalled or ended")
            time.sleep(words.interval)


def watch(words: argparse.Namespace) -> int:
    """Watches the runs of the folders that have one. Returns the status of the worst folder."""
    runs: List[Watched] = []
    read = for_each(TOOL, words.folders, lambda folder: runs.append(Watched.read(folder, words)))
    if not runs:
        return read
    followed = for_each(TOOL, [runs], lambda each: follow(each, words))
    return max(read, followed, for_each(TOOL, runs, check_end))


@tool(TOOL)
def main(words: Sequence[str]) -> int:
    """Runs the words of the command line. Returns 0 if all runs ended with a report or go on."""
    reader = Words(
        __doc__,
        option(
            "folders",
            type=Path,
            nargs="+",
            metavar="FOLDER",
            help="the folder of a run; several for several runs",
        ),
        run_texts.ORDERS,
        run_texts.REPORT,
        option(
            "--periods",
            type=number_within(1, MOST_PERIODS),
            default=MOST_PERIODS,
            metavar="N",
            help="as of trau run",
        ),
        option(
            "--interval",
            type=float,
            default=1.0,
            metavar="SECONDS",
            help="between two looks (default 1)",
        ),
        option(
            "--patience",
            type=float,
            default=60.0,
            metavar="SECONDS",
            help="after how long without growth the run counts as stalled or ended (default 60)",
        ),
        switch("--once", "look once"),
        switch("--plain", "print lines of text even at a terminal with the library tqdm"),
        epilog="example: watch.py farm; or of a farm that was cut: watch.py cut/[0-9]*",
    )
    asked = reader.parse_args(words)
    if not 0.01 <= asked.interval <= 3600:
        reader.error(f"--interval {asked.interval} isn't 0.01 to 3600")
    if len(asked.folders) > 1 and (asked.orders or asked.report):
        reader.error("--orders and --report are of one folder")
    if not 0.01 <= asked.patience <= 1_000_000:
        reader.error(f"--patience {asked.patience} isn't 0.01 to 1,000,000")
    return watch(asked)
