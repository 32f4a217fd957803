"""The check of a recording: `trau run` makes its outgoing lines again in another folder, and they
are compared octet for octet.

If clock.txt says that the recording ended, all must be there. Else a kill or a full disk has cut
lines anywhere: only whole periods count, and all calls end at one period, since a bridge would
else end elsewhere. A line that lacks more than that takes is a difference, and a recording of
which nothing is left to compare isn't equal.
"""

from __future__ import annotations

import shutil
import subprocess
import tempfile
from dataclasses import dataclass
from pathlib import Path
from typing import List, Optional

from trau.rules.lines import INCOMING, OCTETS_OF_SIDE, OUTGOING, SIDES, whole_periods
from trau.rules.orders import Order
from trau.command_line.words import Refusal
from trau.rules.numbers import number
from trau.recordings import listening
from trau.gateway.recorder import CLOCK
from trau.runs.run_texts import read_orders, report_of
from trau.command_line.ends import naming

CHUNK = 1 << 20
MOST_EVERY = 250  # periods that a recorder holds, if clock.txt doesn't say how many


@dataclass
class Recorded:
    """A call of a recording: the periods at which it begins and is closed, how many periods all its
    lines have, and how many the longest has."""

    number: int
    start: int
    closed: Optional[int]
    whole: int
    longest: int

    def end(self) -> int:
        """The period at which it ends as far as its lines tell."""
        return self.start + self.whole

    def is_over(self, end: Optional[int]) -> bool:
        """Whether it is closed before the comparison ends, so that nothing of it is cut."""
        return self.closed is not None and (end is None or self.closed <= end)

    def periods(self, end: Optional[int]) -> int:
        """How many of its periods are compared."""
        last = self.end() if self.closed is None else self.closed
        return max(0, (last if end is None else min(last, end)) - self.start)

    def is_cut(self) -> bool:
        """Whether it isn't closed, or its lines end before."""
        return self.closed is None or self.end() < self.closed

    def lacks(self, end: int) -> int:
        """How many periods its shortest line lacks, where an open call ends at this period."""
        return (end if self.closed is None else self.closed) - self.end()


def whole_orders(folder: Path) -> List[Order]:
    """The orders of a recording, without a last one that was cut."""
    path = folder / "orders.txt"
    with naming(path):
        content = path.read_bytes()
    return read_orders(path, content[: content.rfind(b"\n") + 1])


def calls_of(folder: Path, orders: List[Order]) -> List[Recorded]:
    """The calls that the orders open."""
    closed = {order.calls[0]: order.stamp for order in orders if order.verb == "close"}
    calls = []
    for order in orders:
        if order.verb == "open":
            number = order.calls[0]
            sizes = [whole_periods(folder, number, side) for side in SIDES]
            calls.append(Recorded(number, order.stamp, closed.get(number), min(sizes), max(sizes)))
    return calls


def clock_of(folder: Path) -> List[List[str]]:
    """The words of the whole lines of clock.txt."""
    path = folder / CLOCK
    with naming(path):
        clock = path.read_text(encoding="utf-8", errors="replace") if path.exists() else ""
    return [line.split() for line in clock.split("\n")[:-1]]


def lost_orders(folder: Path) -> str:
    """Empty, or how many orders there are of those that a recording had at its end."""
    count = len(whole_orders(folder))
    ends = [row[2] for row in clock_of(folder) if row[1:2] == ["end"] and len(row) == 3]
    return f"orders.txt has {count} orders of {ends[0]}" if ends and ends[0] != str(count) else ""


def slack_of(folder: Path) -> int:
    """How many periods a line may lack: none if the recording ended, else as many as were held
    before a write, and one."""
    rows = clock_of(folder)
    if any(row[1:2] == ["end"] for row in rows):
        return 0
    every = [number("".join(row[2:]), 1, MOST_EVERY) for row in rows if row[1:2] == ["every"]]
    return 1 + ((every and every[0]) or MOST_EVERY)


def end_of(calls: List[Recorded]) -> Optional[int]:
    """The period at which the comparison ends for all calls, or None if no call is cut."""
    return min((call.end() for call in calls if call.is_cut()), default=None)


def short_ones(calls: List[Recorded], slack: int) -> List[Recorded]:
    """The calls that lack more than a kill takes, where it came at the end of the longest line of
    an open call."""
    end = max((call.start + call.longest for call in calls if call.closed is None), default=0)
    return [call for call in calls if call.lacks(end) > slack]


def lay(folder: Path, again: Path, calls: List[Recorded]) -> None:
    """Puts links to the incoming lines into the folder of the replay, which may be on another disk.
    A call whose files couldn't be made has empty lines there, so that the run goes on without it.
    """
    for call in calls:
        for side in INCOMING:
            line = folder / f"{call.number}.{side}"
            if line.exists():
                (again / line.name).symlink_to(line.resolve())
            else:
                (again / line.name).touch()


def replayed(program: str, again: Path, orders: List[Order], end: Optional[int]) -> str:
    """Runs the orders in the folder of the replay; the result is empty, or which order the run
    refused. Raises Refusal if it failed."""
    words = [program, "run"] + ([] if end is None else ["--periods", str(end)])
    given = "".join(f"{order.line()}\n" for order in orders).encode()
    (again / "orders.txt").write_bytes(given)
    try:
        ran = subprocess.run(
            words, cwd=again, input=given, stdout=subprocess.PIPE, env=listening.from_here()
        )
    except OSError as failure:
        other = "; --trau names another, as trau-model, the model, which is slow"
        is_missing = isinstance(failure, FileNotFoundError)
        raise Refusal(f"{program}: {failure.strerror}{other if is_missing else ''}") from None
    report = again / "report.txt"
    report.write_bytes(ran.stdout)
    if ran.returncode:
        said = ran.stdout[:200].decode(errors="replace").partition("\n")[0]
        raise Refusal(f"{program} run ended with status {ran.returncode}: {said}")
    replies = report_of(report, ran.stdout).replies
    refused = next((order for order, reply in zip(orders, replies) if reply.refusal), None)
    return f"the run refused the order {refused.line()}" if refused else ""


def first_difference(one: Path, other: Path, octets: int) -> Optional[int]:
    """The first octet at which a file with this many octets differs from the beginning of the
    recorded line."""
    if octets == 0:
        return None
    at = 0
    with open(one, "rb") as recorded, open(other, "rb") as made:
        while at < octets:
            first, second = recorded.read(min(CHUNK, octets - at)), made.read(
                min(CHUNK, octets - at)
            )
            if first != second:
                pairs = zip(first, second)
                return at + next(
                    (k for k, (a, b) in enumerate(pairs) if a != b), min(len(first), len(second))
                )
            at += len(first)
        return at if made.read(1) else None


def wrong_size(folder: Path, call: Recorded, periods: int) -> str:
    """Empty, or which line of a call of which nothing is cut has another size than its periods."""
    for side in SIDES:
        size = (folder / f"{call.number}.{side}").stat().st_size
        if size != OCTETS_OF_SIDE[side] * periods:
            return f"{side} differs: it has {size} octets"
    return ""


def compared(folder: Path, again: Path, call: Recorded, end: Optional[int]) -> str:
    """What is said of a call: its periods, and where a line differs."""
    periods = call.periods(end)
    if call.is_over(end) and (wrong := wrong_size(folder, call, periods)):
        return f"call {call.number} periods {periods} {wrong}"
    for side in OUTGOING:
        size = OCTETS_OF_SIDE[side]
        name = f"{call.number}.{side}"
        at = first_difference(folder / name, again / name, size * periods)
        if at is not None:
            return f"call {call.number} periods {periods} {side} differs in period {at // size}, octet {at}"
    return f"call {call.number} periods {periods} equal"


def replay_in(folder: Path, again: Path, program: str) -> bool:
    """Replays and compares in this folder; the result is whether all is equal."""
    orders = whole_orders(folder)
    calls, slack = calls_of(folder, orders), slack_of(folder)
    short = short_ones(calls, slack)
    calls = [call for call in calls if call not in short]
    end = end_of(calls)
    if end is not None:
        rest = sum(call.longest - call.periods(end) for call in calls)
        print(f"cut at period {end}, {rest} recorded periods of calls not compared")
    for call in short:
        print(f"call {call.number} periods {call.whole} a line is short or missing")
    is_replayed = end != 0 and calls != []
    if is_replayed:
        lay(folder, again, [*calls, *short])
        wrong = replayed(program, again, orders, end)
        if wrong and not short:  # where a line is short, a call ends before its orders
            print(wrong)
            return False
    lines = [compared(folder, again, call, end) for call in calls] if is_replayed else []
    differ = len(short) + sum(not line.endswith(" equal") for line in lines)
    print(*lines, f"calls {len(short) + len(lines)} differ {differ}", sep="\n")
    if slack and not any(call.periods(end) for call in calls):
        print("it has no end, and nothing was compared")
        return False
    return differ == 0


def check(folder: Path, trau: Optional[str], again: Optional[Path]) -> int:
    """Checks a recording. Status 0 if all is equal, 1 if not."""
    program = listening.program_named(trau) if trau else listening.program_beside()
    if lost := lost_orders(folder):
        print(lost)
        return 1
    if again:
        with naming(again):
            again.mkdir(mode=0o700, parents=True)  # call speech, as the recording's folder
    made = again or Path(tempfile.mkdtemp(prefix="trau-gateway-"))
    is_kept = again is not None
    try:
        is_equal = replay_in(folder, made, program)
        is_kept = is_kept or not is_equal
    finally:
        if not is_kept:
            shutil.rmtree(made, ignore_errors=True)
    if not is_equal:
        print(f"the replay is in {made}")
    return 0 if is_equal else 1
