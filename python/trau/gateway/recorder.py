"""The recording: the four lines of each call and the orders, from which `trau run` makes the same
again, when its periods were, and what the network did.

Down is held back by one frame, since a run's Down begins with 320 ones and ends with the frame
before the last: so the recorded lines are those of the run, octet for octet. A thread writes, so
a disk that stalls stops no call; a write that fails, or a disk that is too slow, ends the
recording, and no call.
"""

from __future__ import annotations

import contextlib
import os
import queue
import threading
import time
from datetime import datetime, timezone
from pathlib import Path
from typing import Callable, Dict, Iterable, List, Optional, Set, Tuple, Union

from trau.rules.lines import SIDES
from trau.rules.profile import FRAME_OCTETS, MOST_CALLS, MOST_ORDER_OCTETS, MOST_ORDERS, MOST_STAMP
from trau.command_line.words import Refusal

NEW = os.O_WRONLY | os.O_CREAT | os.O_EXCL | os.O_APPEND
FIRST_DOWN = b"\xff" * FRAME_OCTETS
CLOSE_OCTETS = len(f"{MOST_STAMP} close {MOST_CALLS}\n")
ORDER_OCTETS = 32  # of any order, or more
MOST_WAITING = 32 << 20  # octets that wait for the disk, some 8 s of 200 calls
LAST_WRITES = 10  # seconds that the disk has at the end
TO_BEGIN = 0.02  # seconds that it has to make a folder while calls go on
FILES = 4  # descriptors of a recording without calls: its folder and its texts
FIRST_NUMBER = 2  # of the recordings that the gateway begins by itself
CLOCK, EVENTS, ORDERS = "clock.txt", "events.txt", "orders.txt"

Period = Tuple[bytes, bytes, bytes, bytes]  # of Up, Pcm, Down and Out, or some periods of them
Work = Callable[[], object]
# Since when it waits, its octets (None: it is done also after a failure), and what is done.
Given = Tuple[float, Optional[int], Work]


def write_all(descriptor: int, data: bytes) -> None:
    """Writes all octets, or fails. If a write is short, the next one has the system's reason."""
    while data:
        data = data[os.write(descriptor, data) :]


def write_lines(written: Iterable[Tuple[List[int], List[bytes]]]) -> None:
    """Writes parts of lines, of each call its descriptors and their octets."""
    for descriptors, lines in written:
        for descriptor, line in zip(descriptors, lines):
            write_all(descriptor, line)


def close_all(descriptors: Iterable[int]) -> None:
    """Closes all of these, and then fails if one failed. A file system of the network may say only
    then that there is no room."""
    failures: List[OSError] = []
    for descriptor in descriptors:
        try:
            os.close(descriptor)
        except OSError as failure:
            failures.append(failure)
    if failures:
        raise failures[0]


def reason_of(failure: Exception) -> str:
    """Why something failed, as the system says it if it does."""
    return getattr(failure, "strerror", None) or str(failure) or type(failure).__name__


def make_numbered(folder: Path) -> Path:
    """Makes a folder with this name and the next number that is free, from 2 on."""
    number = FIRST_NUMBER
    while True:
        numbered = folder.with_name(f"{folder.name}-{number}")
        with contextlib.suppress(FileExistsError):
            numbered.mkdir(mode=0o700, parents=True)
            return numbered
        number += 1


def now() -> str:
    """The time (UTC)."""
    return datetime.now(timezone.utc).isoformat(timespec="milliseconds")


class NoRecorder:
    """What calls have that aren't recorded."""

    used: Set[int] = set()
    has_ended = False
    ending = ""

    def ending_of(self, _: int) -> str:
        """There is nothing that could end."""
        return ""

    def has_room(self, *_: int) -> bool:
        """There is no order that could be too many."""
        return True

    def ignore(self, *_: object) -> None:
        """Records nothing."""

    def planned(self, _: str) -> Callable[[int], None]:
        """No order is recorded."""
        return self.ignore

    order = event = open = period = block = write = close = ignore


class Recorder:
    """Writes a recording into a new folder, after `make`. Its period 0 is the gateway's period
    `first`."""

    def __init__(
        self,
        folder: Path,
        every: int,
        say: Callable[[str], None],
        first: int = 0,
        is_next: bool = False,
    ) -> None:
        """`every` is the number of periods that are held before a write; `say` is told once if the
        recording ends. `is_next`: the folder's name gets the next number that is free."""
        self.folder, self.every, self.say, self.first = folder, every, say, first
        self.is_next = is_next
        self.directory: List[int] = []  # once it is made, its descriptor, as it may be moved
        self.texts: Dict[str, int] = {}
        self.descriptors: Dict[int, List[int]] = {}
        self.without: Dict[int, str] = {}  # calls whose lines couldn't be made, and why
        self.held: Dict[int, List[Period]] = {}
        self.down: Dict[int, bytes] = {}  # that a call's Down has next
        self.due: List[Tuple[int, List[Period]]] = []  # what is to be written, of which calls
        self.used: Set[int] = set()  # numbers of calls: each serves once
        self.orders = self.order_octets = 0
        self.opened = self.closed = 0  # calls, by the two threads
        self.has_ended = self.is_behind = False
        self.reason = ""  # why it has ended
        self.given = self.written = 0  # octets, by the two threads
        self.oldest: Optional[float] = None  # since when that waits which the thread does now
        self.work: "queue.SimpleQueue[Optional[Given]]" = queue.SimpleQueue()
        self.writer = threading.Thread(target=self.write_what_comes, daemon=True)
        self.writer.start()

    def make(self) -> None:
        """Makes the folder and its texts. Raises OSError if they can't be had."""
        if self.is_next:
            self.folder = make_numbered(self.folder)
        else:
            self.folder.mkdir(mode=0o700, parents=True)
        self.directory.append(os.open(self.folder, os.O_RDONLY | os.O_DIRECTORY))
        for name in (ORDERS, CLOCK, EVENTS):
            self.texts[name] = self.file(name)
        write_all(self.texts[CLOCK], f"0 every {self.every}\n".encode())

    def file(self, name: str) -> int:
        """Makes a file in the folder, wherever that is by now."""
        return os.open(name, NEW, 0o600, dir_fd=self.directory[0])

    def make_soon(self) -> None:
        """Makes the folder by the thread, as the disk may be slow. Raises Refusal if it says in
        time that it can't be had; else that ends the recording."""
        said: List[str] = []
        say, self.say, is_made = self.say, said.append, threading.Event()
        self.attempt(0, self.make)
        self.put(None, is_made.set)
        is_made.wait(TO_BEGIN)
        self.say = say
        if self.has_ended:
            self.end()
            raise Refusal(self.reason)

    def say_begun(self, period: int) -> None:
        """Says the name of the folder, as soon as it is made."""
        self.attempt(0, lambda: self.say(f"recording {self.folder} begun at {period}"))

    def has_room(self, orders: int, opens: int = 0) -> bool:
        """Whether a run will take so many orders more, and then a `close` of each open call."""
        closes = opens + len(self.held)
        more, octets = orders + closes, ORDER_OCTETS * orders + CLOSE_OCTETS * closes
        return (
            self.has_ended
            or self.orders + more <= MOST_ORDERS
            and self.order_octets + octets <= MOST_ORDER_OCTETS
        )

    def attempt(self, octets: int, work: Work) -> None:
        """Has the thread do what may fail or wait, unless the recording has ended."""
        if self.has_ended:
            return
        if self.given - self.written > MOST_WAITING:
            self.fail("the disk is too slow")
        else:
            self.given += octets
            self.put(octets, work)

    def put(self, octets: Optional[int], work: Work) -> None:
        """Gives the thread what it is to do."""
        self.work.put((time.monotonic(), octets, work))

    def write_what_comes(self) -> None:
        """The thread that writes. After a failure nothing more is written, so that no line has a
        gap; files are closed all the same."""
        has_failed = False
        while (given := self.work.get()) is not None:
            self.oldest, octets, work = given
            try:
                if not has_failed or octets is None:
                    work()
            except (
                Exception
            ) as failure:  # of any kind, or nothing would be written, and nobody told
                has_failed = True
                self.fail(reason_of(failure))
            self.written += octets or 0
            if self.work.empty():
                self.oldest = None
        self.oldest = None

    def fail(self, reason: str) -> None:
        """Ends the recording, and says so once."""
        if not self.has_ended:
            self.reason, self.has_ended = reason, True
            self.say(f"recording {self.folder} ended: {reason}")

    @property
    def ending(self) -> str:
        """What is said of a recording that has ended; else empty."""
        return f"recording {self.folder} ended: {self.reason}" if self.has_ended else ""

    def ending_of(self, call: int) -> str:
        """What is said of a call that isn't recorded any longer, or never was; else empty."""
        return self.ending or self.without.get(call, "")

    @property
    def is_whole(self) -> bool:
        """Whether all of its calls were recorded as long as they were open."""
        return not self.has_ended and not self.without

    def look_after(self, period: int) -> None:
        """Says that the disk is behind by a second, and that it isn't any longer."""
        oldest = self.oldest
        waits = int(time.monotonic() - oldest) if oldest is not None else 0
        if self.is_behind != (waits > 0):
            self.is_behind = waits > 0
            state = f"{waits} s behind" if waits else "in time again"
            self.say(f"recording {self.folder}: the disk is {state} at {period}")

    def finish(self, until: float) -> None:
        """Waits for the disk, at most until this time of the monotonic clock, and says what isn't
        written then."""
        self.writer.join(max(0, until - time.monotonic()))
        if self.writer.is_alive():
            self.fail(f"{self.given - self.written} octets aren't written")

    def text(self, name: str, text: str) -> None:
        """Writes a line of a text."""
        line = f"{text}\n".encode()
        self.attempt(len(line), lambda: write_all(self.texts[name], line))

    def planned(self, text: str) -> Callable[[int], None]:
        """Counts an order that will be executed; the result records it in its period, before anything
        that it concerns."""
        self.orders += 1
        self.order_octets += ORDER_OCTETS

        def record(period: int) -> None:
            line = f"{period - self.first} {text}"
            self.order_octets += len(line) + 1 - ORDER_OCTETS
            self.text(ORDERS, line)

        return record

    def order(self, period: int, text: str) -> None:
        """Records an order, before anything that it concerns."""
        self.planned(text)(period)

    def time(self, period: int) -> None:
        """Records when a period is."""
        self.text(CLOCK, f"{period - self.first} at {now()}")

    def give_up(self, period: int, periods: int) -> None:
        """Records that the clock has given up time, unless it was before the recording."""
        if period >= self.first:
            self.text(CLOCK, f"{period - self.first} given-up {periods}")

    def event(self, period: int, text: str) -> None:
        """Records what the network did."""
        self.text(EVENTS, f"{period - self.first} {text}")

    def open(self, call: int) -> None:
        """Makes the lines of a call."""
        descriptors: List[int] = []
        self.descriptors[call] = descriptors
        self.used.add(call)
        self.opened += 1
        self.held[call], self.down[call] = [], FIRST_DOWN
        self.attempt(0, lambda: self.make_lines(call, descriptors))

    def make_lines(self, call: int, descriptors: List[int]) -> None:
        """Makes the files of a call's lines. If one can't be made, this call has none; others go
        on."""
        made: List[str] = []
        try:
            for name in (f"{call}.{side}" for side in SIDES):
                descriptors.append(self.file(name))
                made.append(name)
        except OSError as failure:
            self.without[call] = reason_of(failure)
            self.say(f"call {call} isn't recorded: {self.without[call]}")
            for name in made:
                os.unlink(name, dir_fd=self.directory[0])
            close_all(descriptors)
            descriptors.clear()

    def period(self, call: int, period: Period) -> None:
        """Holds a period of a call. It is written by `write`, after the packets of all calls have
        left."""
        self.held[call].append(period)
        if len(self.held[call]) >= self.every:
            self.take_held(call)

    def take_held(self, call: int) -> None:
        """What is held of a call is due."""
        if self.held[call]:
            self.due.append((call, self.held[call]))
        self.held[call] = []

    def block(self, call: int, lines: Period) -> None:
        """Takes some periods of a call at once, which are due."""
        self.due.append((call, [lines]))

    def write(self) -> None:
        """Writes what is due: one write for each line, as a kill hardly comes within one, and in the
        order in which it became due, so that a kill leaves all calls with about the same periods.
        """
        if self.due:
            written = [(self.descriptors[call], self.lines(call, held)) for call, held in self.due]
            self.due = []
            octets = sum(len(line) for _, lines in written for line in lines)
            self.attempt(octets, lambda: write_lines(written))

    def lines(self, call: int, held: List[Period]) -> List[bytes]:
        """Periods of a call as four parts of its lines."""
        up, pcm, down, out = (b"".join(parts) for parts in zip(*held))
        down = self.down[call] + down
        self.down[call] = down[-FRAME_OCTETS:]
        return [up, pcm, down[:-FRAME_OCTETS], out]

    def close(self, call: int) -> None:
        """Writes what is held of a call and closes its lines."""
        self.take_held(call)
        self.write()
        del self.held[call], self.down[call]
        descriptors = self.descriptors.pop(call)
        self.put(None, lambda: self.close_lines(descriptors))

    def close_lines(self, descriptors: List[int]) -> None:
        """Closes the files of a call."""
        self.closed += 1
        close_all(descriptors)

    @property
    def files(self) -> int:
        """The descriptors that it has, or will have as soon as the disk has made them."""
        return FILES + len(SIDES) * (self.opened - self.closed)

    def end(self, period: Optional[int] = None) -> None:
        """Ends the recording. What is held of calls that weren't closed is written. A period says
        that all is whole, with so many orders."""
        for call in list(self.held):
            self.close(call)
        self.put(
            None,
            lambda: close_all(
                self.texts.pop(name) for name in (ORDERS, EVENTS) if name in self.texts
            ),
        )
        if period is not None:
            self.text(CLOCK, f"{period - self.first} end {self.orders}")
        self.put(None, lambda: close_all([*self.texts.values(), *self.directory]))
        self.work.put(None)


AnyRecorder = Union[Recorder, NoRecorder]
