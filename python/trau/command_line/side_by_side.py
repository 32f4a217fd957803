"""Pieces of work side by side, in as many processes as there are processors, with the progress on
standard error."""

import os
import signal
import sys
import time
from concurrent.futures import ProcessPoolExecutor
from concurrent.futures.process import BrokenProcessPool
from pathlib import Path
from typing import Any, Callable, Iterator, Optional, Sequence, Tuple, TypeVar

from trau.command_line.words import Refusal, number_within, option


MOST_PROCESSES = 64
LEAST_OCTETS = 8_000_000  # less isn't worth the start of processes, and shows no progress
QUIET_SECONDS = 3  # work that takes no longer shows no progress
SECONDS_BETWEEN_LINES = 10  # where standard error isn't a terminal

Result = TypeVar("Result")


def number_in(path: str, place: int = 0) -> Optional[int]:
    """A number of a small file of the system, or None where there is no such number."""
    try:
        return int(Path(path).read_text().split()[place])
    except (OSError, ValueError, IndexError):
        return None


def processors() -> int:
    """How many processors may be used: those of this process, or fewer by the quota of its
    group."""
    found = (
        len(os.sched_getaffinity(0)) if hasattr(os, "sched_getaffinity") else os.cpu_count() or 1
    )
    quota, period = number_in("/sys/fs/cgroup/cpu.max"), number_in("/sys/fs/cgroup/cpu.max", 1)
    return min(found, max(1, quota // period)) if quota and period else found


def with_progress(what: str, results: Iterator[Result], pieces: int) -> Iterator[Result]:
    """The results of so many pieces of work, and how many there are so far on standard error: at a
    terminal in one line, which it clears, else in a line now and then. It shows nothing in the
    first seconds."""
    terminal, shown = sys.stderr.isatty(), False
    due = time.monotonic() + QUIET_SECONDS
    try:
        for done, result in enumerate(results, 1):
            now = time.monotonic()
            if now >= due and done < pieces:
                due, shown = now + (0.2 if terminal else SECONDS_BETWEEN_LINES), True
                print(
                    f"{what}: {done} of {pieces} calls",
                    end="\r" if terminal else "\n",
                    file=sys.stderr,
                    flush=True,
                )
            yield result
    finally:
        if shown and terminal:
            print("\x1b[K", end="", file=sys.stderr, flush=True)


def by_processes(
    processes: int, function: Callable[..., Result], pieces: Sequence[Tuple[Any, ...]]
) -> Iterator[Result]:
    """The function's results for the pieces of work, in order, by this many processes, which leave
    interrupts to this one."""
    ignored = (signal.SIGINT, signal.SIG_IGN)
    with ProcessPoolExecutor(
        min(processes, len(pieces)), initializer=signal.signal, initargs=ignored
    ) as pool:
        try:
            yield from pool.map(function, *zip(*pieces))
        except BrokenProcessPool:
            raise Refusal("a process ended early; was there enough memory?") from None


def results_of(
    processes: int,
    what: str,
    function: Callable[..., Result],
    pieces: Sequence[Tuple[Any, ...]],
    octets: int,
) -> Iterator[Result]:
    """The function's results for pieces of work, each the arguments of a call of it, in order, by
    this many processes. `octets` is what they read together. An exception of one of them is
    raised."""
    small = octets < LEAST_OCTETS
    alone = processes == 1 or len(pieces) < 2 or small
    results = (
        (function(*piece) for piece in pieces)
        if alone
        else by_processes(processes, function, pieces)
    )
    return results if small else with_progress(what, results, len(pieces))


PROCESSES = option(
    "--processes",
    type=number_within(1, MOST_PROCESSES),
    default=min(MOST_PROCESSES, processors()),
    metavar="N",
    help="the number of processes that work side by side (default: one for each processor)",
)
