"""One command, and what it costs: times, memory, calls of the system, instructions."""

import collections
import dataclasses
import os
import re
import subprocess
import sys
import time
from pathlib import Path
from typing import Callable, Counter, Iterable, Mapping, Optional, Sequence

GNU_TIME = "/usr/bin/time"

# The mark of one of the instances of a generic function.
INSTANCE = re.compile(r"::<#[0-9a-f]+>")


def say(text: str) -> None:
    """Prints on standard error how far a measurement is, or why it ends."""
    print(f"bench: {text}", file=sys.stderr, flush=True)


def refusal(why: str, status: int = 2) -> SystemExit:
    """The end of a measurement, to be raised, with its reason printed."""
    say(why)
    return SystemExit(status)


@dataclasses.dataclass(frozen=True)
class Times:
    """The seconds of a command: by the clock, and of the processor, user and system together."""

    wall: float
    processor: float


@dataclasses.dataclass(frozen=True)
class Cost:
    """What a run costs: seconds of the processor, user and system together, and the peak of
    resident memory in MiB."""

    processor: float
    peak: float


@dataclasses.dataclass(frozen=True)
class Command:
    """Words that run in a folder, the files there that are the standard streams, patterns of the
    other files that they make, and what is added to the environment."""

    words: Sequence[str]
    folder: Path
    input: Optional[str] = None
    output: Optional[str] = None
    makes: tuple[str, ...] = ()
    environment: Mapping[str, str] = dataclasses.field(default_factory=dict)

    def __str__(self) -> str:
        """The command as one would type it in its folder."""
        streams = (("<", self.input), (">", self.output))
        redirected = [mark + name for mark, name in streams if name]
        return " ".join([os.path.basename(self.words[0]), *self.words[1:], *redirected])

    def made(self) -> list[Path]:
        """The files that the last run made."""
        patterns = (*self.makes, *filter(None, [self.output]))
        return [path for pattern in patterns for path in self.folder.glob(pattern)]

    def clear(self) -> None:
        """Removes what an earlier run made. If a file is truncated, some file systems (ext4) write
        it out when it is closed, and the command would wait for that."""
        for path in self.made():
            path.unlink()

    def start(self, before: Sequence[str] = ()) -> "subprocess.Popen[bytes]":
        reads, writes = (self.folder / (name or os.devnull) for name in (self.input, self.output))
        words, environment = [*before, *self.words], {**os.environ, **self.environment}
        with open(reads, "rb") as given, open(writes, "wb") as made:
            return subprocess.Popen(
                words, cwd=self.folder, stdin=given, stdout=made, env=environment
            )

    def check(self, status: int) -> None:
        if status:
            raise refusal(f"status {status} of {self}")

    def run(self, *before: str) -> None:
        """Runs it, by another program if words come before it."""
        self.clear()
        self.check(self.start(before).wait())

    def times(self) -> Times:
        self.clear()
        begun = time.perf_counter()
        process = self.start()
        _, status, usage = os.wait4(process.pid, 0)
        wall = time.perf_counter() - begun
        process.returncode = os.waitstatus_to_exitcode(status)
        self.check(process.returncode)
        return Times(wall, usage.ru_utime + usage.ru_stime)

    def peak(self) -> float:
        """The peak of resident memory in MiB."""
        return self.cost().peak

    def cost(self) -> Cost:
        """What one run costs. GNU time starts the command, since a child of a large process would
        report its parent's peak."""
        report = self.folder / "cost"
        self.run(GNU_TIME, "-f", "%U %S %M", "-o", str(report))
        user, system, kibibytes = report.read_text().split()[-3:]
        return Cost(float(user) + float(system), int(kibibytes) / 1024)

    def system_calls(self) -> int:
        """How many calls of the system the command and its threads make, by strace."""
        report = self.folder / "strace.out"
        self.run("strace", "-f", "-c", "-o", str(report))
        rows = (line.split() for line in report.read_text().splitlines())
        return [int(row[3]) for row in rows if row[-1:] == ["total"]][-1]

    def instructions(self) -> Counter[str]:
        """The instructions by function, by callgrind."""
        say(f"callgrind: {self}")
        report = self.folder / "callgrind.out"
        self.run("valgrind", "-q", "--tool=callgrind", f"--callgrind-out-file={report}")
        with open(report) as lines:
            return own_costs(lines)


def own_costs(lines: Iterable[str]) -> Counter[str]:
    """The costs of a callgrind report by function, without those of the functions that it calls."""
    costs: Counter[str] = collections.Counter()
    names: dict[str, str] = {}
    function, is_of_call = "", False
    for line in lines:
        if line.startswith(("fn=", "cfn=")):
            kind, _, named = line.strip().partition("=")
            number, _, name = named.partition(" ")
            names.setdefault(number, INSTANCE.sub("", name))
            if kind == "fn":
                function = names[number]
        elif line.startswith("calls="):
            is_of_call = True
        elif line[0] in "0123456789+-*":
            if not is_of_call:
                costs[function] += int(line.split()[1])
            is_of_call = False
    return costs


def least(commands: Sequence[Command], turns: int) -> list[Times]:
    """The least times of each command. The commands take turns, so that what else the machine does,
    and its neighbours, falls on all alike."""
    for command in commands:
        say(f"{turns} x {command}")
    taken = [[command.times() for command in commands] for _ in range(turns)]
    return [
        Times(min(each.wall for each in times), min(each.processor for each in times))
        for times in zip(*taken)
    ]


def by_unit(command_of: Callable[[int], Command], short: int, long: int) -> dict[str, float]:
    """The instructions by function of one unit (a frame, a period), from a command over `short` and
    over `long` of them: what a command costs once is in neither."""
    once = command_of(short).instructions()
    more = command_of(long).instructions()
    more.subtract(once)
    return {function: cost / (long - short) for function, cost in more.items() if cost}
