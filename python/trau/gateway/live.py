"""The gateway while it runs: the clock turns, lines are taken at the start of a period, and calls
are processed phase by phase.
"""

from __future__ import annotations

import contextlib
import gc
import os
import queue
import resource
import select
import shutil
import signal
import sys
import threading
import time
from collections import deque
from pathlib import Path
from typing import Deque, List, NamedTuple, Optional, Tuple

from trau.gateway.clock import PHASES, Clock, Turn
from trau.command_line.words import Refusal
from trau.rules.profile import PERIODS_A_SECOND
from trau.gateway.network import Network
from trau.gateway.pump import PumpBoard, PumpClock, library_path, load
from trau.gateway.recorder import Recorder
from trau.gateway.switchboard import (
    DESCRIPTORS_OF_CALL,
    DESCRIPTORS_OF_REST,
    Switchboard,
    TooSoon,
)
from trau.command_line.ends import complain, naming

MOST_LINES = 50  # that are executed in a period
MOST_LINE = 1000  # octets
MOST_REPLY = 1000  # characters: a pipe takes them whole or not at all (PIPE_BUF)
MOST_SAID = 1000  # lines that wait for a reader
LAST_WORDS = 2  # seconds that a reader has at the end
MOST_BEHIND = (
    10  # periods by which the clock may have been late in the last second when a call is opened
)
MOST_LOAD = 80  # per cent of its time that the gateway may use when a call is opened


class Options(NamedTuple):
    """The words of the command line."""

    folder: Path
    calls: Optional[Path]
    address: str
    seconds: Optional[int]
    every: int
    most_calls: int


def printable(text: str) -> bytes:
    """A text in UTF-8; octets of a name that aren't, and lone surrogates, are escaped."""
    return text.encode("utf-8", "backslashreplace")


class Speaker:
    """Prints lines on standard output by a thread, so that nothing waits for a reader: lines for
    which there is no room are dropped and counted."""

    def __init__(self) -> None:
        self.dropped = 0
        self.lines: "queue.Queue[Optional[str]]" = queue.Queue(MOST_SAID)
        self.writer = threading.Thread(target=self.write, daemon=True)
        self.writer.start()

    def __call__(self, text: str) -> None:
        try:
            self.lines.put_nowait(text)
        except queue.Full:
            self.dropped += 1

    def write(self) -> None:
        """The thread that prints. Whatever fails, the next lines are printed."""
        while (text := self.lines.get()) is not None:
            try:
                rest = printable(f"{text}\n")
                while rest:
                    rest = rest[os.write(1, rest) :]
            except Exception:
                self.dropped += 1

    def end(self) -> None:
        """Prints what is left, if somebody reads it soon."""
        with contextlib.suppress(queue.Full):
            self.lines.put_nowait(None)
        self.writer.join(LAST_WORDS)


class Commands:
    """The lines of standard input, as they come."""

    def __init__(self, descriptor: Optional[int] = 0) -> None:
        self.descriptor, self.rest = descriptor, b""
        self.lines: Deque[bytes] = deque()

    def read(self) -> None:
        """Takes what has come, without waiting. Standard input may end; the calls go on."""
        if self.descriptor is None or len(self.lines) >= MOST_LINES:
            return
        try:
            if not select.select([self.descriptor], [], [], 0)[0]:
                return
            data = os.read(self.descriptor, 65536)
        except BlockingIOError:
            return
        except OSError as failure:  # nohup gives one that can't be read, and a terminal may go
            complain("gateway.py", f"standard input: {failure.strerror}")
            data = b""
        if not data:
            self.end()
            return
        *lines, self.rest = (self.rest + data).split(b"\n")
        self.rest = self.rest[: MOST_LINE + 1]
        self.lines.extend(lines)

    def end(self) -> None:
        """Standard input has ended. A line without its end may have been cut, and isn't executed."""
        if self.rest:
            complain("gateway.py", "standard input: the last line has no end, and isn't executed")
        self.descriptor, self.rest = None, b""

    def taken(self) -> List[str]:
        """The lines that are executed now; comments and empty ones are left out."""
        self.read()
        lines = [self.lines.popleft() for _ in range(min(MOST_LINES, len(self.lines)))]
        return [line for line in map(line_of, lines) if line]


def without_comment(line: str) -> str:
    """A line up to its comment, if any."""
    return line.partition("#")[0].strip()


def line_of(octets: bytes) -> str:
    """A line without its comment. One that is too long stays as it is, so that all of it is
    refused."""
    line = octets.decode("utf-8", "surrogateescape")
    return line if len(octets) > MOST_LINE else without_comment(line)


class Gateway:
    """The calls on a clock."""

    def __init__(self, board: Switchboard, clock: Clock, commands: Commands, say: Speaker) -> None:
        self.board, self.clock, self.commands, self.say = board, clock, commands, say
        self.lines: Deque[str] = deque()  # that are to be executed
        self.is_to_end, self.late = False, 0  # turns that were said to be late
        self.busy_until = 0  # the period up to which no call is opened

    def sources(self) -> List[int]:
        """From where the next line may come: from nowhere, while others wait."""
        descriptor = self.commands.descriptor
        waits = self.lines or self.commands.lines
        return [] if descriptor is None or waits else [descriptor]

    def end(self, *_: object) -> None:
        """Ends the gateway at its next turn; for signals."""
        self.is_to_end = True

    def obey(self, line: str, period: int) -> bool:
        """Executes a line in a period, and says whether it was. The result is whether it doesn't
        wait for the next one."""
        try:
            if len(line.encode("utf-8", "surrogateescape")) > MOST_LINE:
                raise Refusal("the line is too long")
            if period < self.busy_until and line.split()[0] == "open":
                raise Refusal("the gateway was behind its clock in the last second")
            load = self.clock.load()
            if load >= MOST_LOAD and line.split()[0] == "open":
                raise Refusal(f"the gateway uses {load} % of its time")
            if line == "counts":
                self.board.when_done(period, self.say_state)
            else:
                self.board.execute(line, period)
            words = " ".join(line.split()[:2])
            self.board.when_done(period, lambda at: self.say(f"ok {at} {words}"))
        except TooSoon:
            return False
        except (Refusal, OSError) as refused:
            reason = getattr(refused, "strerror", None) or str(refused)
            self.board.when_done(period, lambda at: self.refuse(line, reason, at))
        return True

    def refuse(self, line: str, reason: str, period: int) -> None:
        """Says that a line was refused."""
        reply = printable(f"refused {period} {line[:80]}: {reason}").decode()
        self.say(reply[:MOST_REPLY])

    def say_state(self, period: int) -> None:
        """Says the counts of the gateway."""
        self.say(f"at {period} calls {len(self.board.connections)} {self.state()}")

    def state(self) -> str:
        """What a line says of the gateway: late turns and the latest one, what was given up and
        dropped, its processor time, and the share of its time that it uses."""
        clock, used = self.clock, time.process_time()
        latest = max(clock.latest, clock.lately) // 1_000_000
        times = f"late {clock.late} latest {latest} ms given-up {clock.given_up}"
        ending = self.board.recorders[-1].ending if self.board.recorders else ""
        state = f"{times} dropped {self.say.dropped} processor {used:.2f} s"
        state += f" load {clock.load()} %"
        return f"{state}, {ending}" if ending else state

    def begin_period(self, turn: Turn) -> None:
        """What is done before the calls of a period; with the loop, perhaps more than once."""
        late = self.clock.late - self.late
        if turn.period % PERIODS_A_SECOND == 0 and late:
            self.say(f"late {late} latest {self.clock.report() // 1_000_000} ms at {turn.period}")
            self.late = self.clock.late
            if late > PERIODS_A_SECOND * PHASES // 2:  # most turns
                self.busy_until = turn.period + PERIODS_A_SECOND
        self.lines.extend(() if self.lines else self.commands.taken())
        while self.lines and self.board.is_ready and self.obey(self.lines[0], turn.period):
            self.lines.popleft()
        self.board.look_after(turn.period)

    def run(self, periods: Optional[int]) -> Tuple[int, bool]:
        """Processes this time, or until it is ended; the result is how many periods there were, and
        whether all is recorded."""
        is_whole, end, self.board.is_running = False, None, True
        try:
            for turn in self.clock.turns():
                if turn.given_up:
                    self.board.give_up(turn.given_up, turn.period)
                if turn.given_up or turn.behind > MOST_BEHIND:
                    self.busy_until = turn.period + PERIODS_A_SECOND
                if turn.phase == 0:
                    if (
                        self.is_to_end
                        or periods is not None
                        and turn.period + self.clock.given_up >= periods
                    ):
                        break
                    self.begin_period(turn)
                self.board.process(turn.phase, turn.period, turn.behind)
            end = self.board.end(turn.period)
        finally:
            is_whole = self.board.end_recordings(end)
        return end, is_whole


def open_file(board: Switchboard, path: Path) -> None:
    """Executes the lines of a file before the first period; each one has to be accepted."""
    with naming(path):
        lines = path.read_text(encoding="utf-8", errors="surrogateescape").splitlines()
    for number, line in enumerate(map(without_comment, lines), 1):
        if line:
            try:
                board.execute(line, 0)
            except (Refusal, OSError) as refused:
                raise Refusal(
                    f"{path} line {number}: {getattr(refused, 'strerror', None) or refused}"
                ) from None


def begin(board: Switchboard, calls: Optional[Path]) -> None:
    """Opens the calls of a file, if there is one. If a line is refused, or it is interrupted,
    nothing is left of the recordings."""
    try:
        if calls:
            open_file(board, calls)
    except BaseException:  # an interrupt too
        board.end_recordings(None)
        for recorder in board.ended:  # one may be in another's folder
            shutil.rmtree(recorder.folder, ignore_errors=True)
        raise


def most_calls(wanted: int) -> int:
    """How many calls the process may have in one recording, by its descriptors."""
    soft = most_descriptors(DESCRIPTORS_OF_CALL * wanted + DESCRIPTORS_OF_REST)
    return min(wanted, (soft - DESCRIPTORS_OF_REST) // DESCRIPTORS_OF_CALL)


def most_descriptors(wanted: int) -> int:
    """How many descriptors the process may have: as many as the system allows it, or as are wanted
    if there is no limit."""
    soft, hard = resource.getrlimit(resource.RLIMIT_NOFILE)
    if soft >= 0:  # below 0 there is no limit
        with contextlib.suppress(ValueError, OSError):
            most = max(soft, wanted) if hard < 0 else hard
            resource.setrlimit(resource.RLIMIT_NOFILE, (most, hard))
    soft, _ = resource.getrlimit(resource.RLIMIT_NOFILE)
    return soft if soft >= 0 else sys.maxsize


def heed_signals(gateway: Gateway) -> None:
    """Interrupts and hangups end the gateway, unless they are ignored as nohup has it. In the
    background the terminal never stops it."""
    for number in (signal.SIGINT, signal.SIGTERM, signal.SIGHUP):
        if number != signal.SIGHUP or signal.getsignal(number) != signal.SIG_IGN:
            signal.signal(number, gateway.end)
    for number in (signal.SIGTTIN, signal.SIGTTOU):
        signal.signal(number, signal.SIG_IGN)


def board_of(options: Options, say: Speaker) -> PumpBoard:
    """The switchboard over the loop in C."""
    library = load(library_path())
    with naming(options.folder):
        recorder = Recorder(options.folder, options.every, say)
        recorder.make()
    calls = most_calls(options.most_calls)
    return PumpBoard(Network(options.address), recorder, calls, say, library)


def run(options: Options) -> int:
    """Runs the gateway. Status 0, or 1 if the recording ended before."""
    say = Speaker()
    periods = None if options.seconds is None else options.seconds * PERIODS_A_SECOND
    board = board_of(options, say)
    board.most_descriptors = most_descriptors(0)
    commands = Commands(None if sys.stdin is None else 0)
    clock = PumpClock(board.pump, periods)
    gateway = Gateway(board, clock, commands, say)
    clock.sources = gateway.sources
    begin(board, options.calls)
    heed_signals(gateway)
    gc.collect()
    gc.freeze()
    say("ready")
    ended, is_whole = gateway.run(periods)
    say(f"end period {ended} {gateway.state()}")
    say.end()
    return 0 if is_whole else 1
