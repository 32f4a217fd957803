"""The gateway's clock: a tick every 20 ms for each call, in four phases of 5 ms, so that not all
packets leave at once.
"""

from __future__ import annotations

import time
from collections import deque
from typing import Callable, Deque, Iterator, NamedTuple, Tuple

from trau.rules.profile import PERIODS_A_SECOND

PHASES = 4
PERIOD = 1_000_000_000 // PERIODS_A_SECOND  # nanoseconds
PHASE = PERIOD // PHASES
# Up to here late turns are made up for, so that neither the recording nor a peer with room for a
# burst loses speech. Time beyond it is given up.
MOST_LATE = 1_000_000_000


def since_start() -> int:
    """The nanoseconds since the machine was started, also those in which it was suspended."""
    return time.clock_gettime_ns(time.CLOCK_BOOTTIME)


class Turn(NamedTuple):
    """A tick of the calls of one phase: its period, how many periods late it is, and how many were
    given up just now."""

    period: int
    phase: int
    behind: int
    given_up: int


class Clock:
    """Turn n is due at start + 5 ms n. Late turns follow one another until they are in time again."""

    def __init__(
        self,
        now: Callable[[], int] = since_start,
        sleep: Callable[[int], None] = lambda wait: time.sleep(wait / 1e9),
    ) -> None:
        """A turned clock, as tests have it, gives its own time and its own waiting, both in
        nanoseconds."""
        self.now, self.sleep = now, sleep
        self.slept = 0  # nanoseconds for which it waited
        self.marks: Deque[Tuple[int, int]] = deque(maxlen=PERIODS_A_SECOND + 1)  # its time, slept
        self.late = self.given_up = 0  # turns late by more than a period; periods
        self.latest = (
            self.lately
        ) = 0  # how late a turn was at most, up to the last report and since; nanoseconds

    def report(self) -> int:
        """How many nanoseconds late a turn was at most since the last report."""
        lately, self.lately = self.lately, 0
        self.latest = max(self.latest, lately)
        return lately

    def load(self) -> int:
        """The share of its time, in per cent, in which the gateway didn't wait for a tick, in the
        last second; 0 before a second is over."""
        if len(self.marks) <= PERIODS_A_SECOND:
            return 0
        (begun, before), (ended, slept) = self.marks[0], self.marks[-1]
        return 100 - 100 * (slept - before) // (ended - begun)

    def wait(self, due: int) -> int:
        """Waits until a turn is due; the result is the time then."""
        begun = self.now()
        if begun >= due:
            return begun
        self.sleep(due - begun)
        woken = self.now()
        self.slept += woken - begun
        return woken

    def turns(self) -> Iterator[Turn]:
        """The turns without end."""
        start, number = self.now(), 0
        while True:
            due = start + number * PHASE
            woken = self.wait(due)
            if number % PHASES == 0:
                self.marks.append((woken, self.slept))
            late = max(0, woken - due)
            given_up = late // PERIOD if late > MOST_LATE else 0
            start += given_up * PERIOD
            self.given_up += given_up
            self.late += late > PERIOD
            self.lately = max(self.lately, late)
            yield Turn(number // PHASES, number % PHASES, late // PERIOD - given_up, given_up)
            number += 1
