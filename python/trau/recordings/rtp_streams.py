"""What a stream of RTP carried, in the order of its time stamps: units that came, and units that
didn't. A unit is a frame of GSM, or a sample of A-law or mu-law. A stream may begin anew with other
numbers and stamps; the times of the capture then say how it goes on."""

import heapq
import itertools
from dataclasses import dataclass
from pathlib import Path
from typing import Iterable, Iterator, List, NamedTuple, Optional, Set, Tuple, Union

from trau.command_line.words import Refusal
from trau.recordings import rtp_packets
from trau.recordings.packet_rows import SEQUENCES, STAMPS, PacketRow
from trau.rules.parameters import GSM_MAGIC, GSM_OCTETS
from trau.rules.payload_types import GSM
from trau.rules.profile import PCM_OCTETS, SAMPLES_A_SECOND

GSM_STARTS = bytes(GSM_MAGIC << 4 | low for low in range(16))  # first octets of frames of GSM
LONGEST_GAP = 3600 * SAMPLES_A_SECOND
MOST_GAPS = 24 * LONGEST_GAP  # of a line
# A time stamp that jumps by more, and by more than the capture's times do, is of a sender that
# began anew.
MOST_JUMP = 5 * SAMPLES_A_SECOND


@dataclass
class Counts:
    """What the numbers of packets show."""

    packets: int = 0
    late: int = 0
    doubled: int = 0
    others: int = 0
    over: int = 0  # units that overlapped with those before
    wrong: int = 0  # packets whose payload isn't of their type
    restarts: int = 0


class LostUnits(NamedTuple):
    """Units whose packets have missing numbers."""

    units: int


class Gap(NamedTuple):
    """Units that the time stamps leave out while no number is missing."""

    units: int


class EmptyFrames(NamedTuple):
    """Packets of GSM without payload: frames that their sender had lost."""

    units: int


# A stretch of a stream: the octets of units that came, or units that didn't.
Stretch = Union[bytes, LostUnits, Gap, EmptyFrames]


def near(value: int, before: int, size: int) -> int:
    """The number with this remainder by `size` that is nearest to another."""
    return before + (value - before + size // 2) % size - size // 2


# Where a stream begins anew


def jump_of(before: PacketRow, row: PacketRow) -> int:
    """How far the time stamp goes on from the last packet of a row to the first of the next."""
    return near(row.stamp, before.last_stamp(), STAMPS) - before.last_stamp()


def has_jumped(before: PacketRow, row: PacketRow) -> bool:
    """Whether a row's time stamp is one of a sender that began anew."""
    jump = jump_of(before, row)
    passed = round((row.time - before.last_time) * SAMPLES_A_SECOND)
    return min(abs(jump), abs(jump - passed)) > MOST_JUMP


def refuse_restart(name: Path, before: PacketRow, row: PacketRow) -> None:
    """Refuses a stream whose sender began anew."""
    jump = jump_of(before, row) / SAMPLES_A_SECOND
    raise Refusal(
        f"{name}: the time stamp of packet {row.number} is {jump:.0f} s after that of packet {before.last_number}, which came"
        f" {row.time - before.last_time:.2f} s before it: the sender began anew; --restart goes on by the times of the capture"
    )


def by_runs(
    name: Path, rows: Iterable[PacketRow], kind: int, restart: bool, counts: Counts
) -> Iterator[Iterator[PacketRow]]:
    """The packets of a stream, as they were captured, from each start of the sender to the next.
    Only those with speech tell."""

    def numbered() -> Iterator[Tuple[int, PacketRow]]:
        before: Optional[PacketRow] = None
        for row in rows:
            if row.kind == kind:
                if before and has_jumped(before, row):
                    if not restart:
                        refuse_restart(name, before, row)
                    counts.restarts += 1
                before = row
            yield counts.restarts, row

    for _, run in itertools.groupby(numbered(), lambda each: each[0]):
        yield (row for _, row in run)


# A run of packets in the order of its time stamps

MOST_WAITING = 2048  # packets that may come before one with a lower number: 40 s


class WaitingPackets:
    """Puts packets in the order of their numbers, which go on counting where they wrap around; each
    number once. A packet waits until so many later ones are there."""

    def __init__(self, counts: Counts) -> None:
        self.counts = counts
        self.waiting: List[Tuple[int, PacketRow]] = []
        self.size = 0  # packets that wait
        self.known: Set[int] = set()  # numbers that came, as far back as any may wait
        self.newest: Optional[int] = None
        self.stamp = 0
        self.given: Optional[int] = None  # the number that was given last

    def take(self, row: PacketRow) -> None:
        """One more row, as it was captured. Numbers after all others are new together; of a row
        that came late each is looked at."""
        if self.newest is None:
            self.newest, self.stamp = row.sequence - 1, row.stamp
        if row.packets == 1 or near(row.sequence, self.newest, SEQUENCES) > self.newest:
            self.take_numbers(row, self.newest)
        else:
            for each in row.singles():
                self.take_numbers(each, self.newest)

    def take_numbers(self, row: PacketRow, newest: int) -> None:
        """Takes a row of new numbers, or a packet."""
        sequence = near(row.sequence, newest, SEQUENCES)
        stamp = near(row.stamp, self.stamp, STAMPS)
        last = sequence + row.packets - 1
        self.stamp = stamp + row.step * (row.packets - 1)
        self.counts.packets += row.packets
        if sequence in self.known:
            self.counts.doubled += 1
            return
        self.counts.late += sequence < newest
        self.newest = max(newest, last)
        self.known.update(range(sequence, last + 1))
        if self.given is not None and sequence < self.given:
            self.counts.over += 1
            return
        heapq.heappush(self.waiting, (sequence, row._replace(sequence=sequence, stamp=stamp)))
        self.size += row.packets

    def given_until(self, size: int) -> Iterator[PacketRow]:
        """The packets with the lowest numbers, until so many wait."""
        while self.size > size:
            sequence, row = heapq.heappop(self.waiting)
            count = self.size - size
            if row.packets > count:
                row, rest = row.split(count)
                heapq.heappush(self.waiting, (rest.sequence, rest))
            self.size -= row.packets
            self.given = sequence + row.packets - 1
            if len(self.known) > 4 * MOST_WAITING:
                self.known = {each for each in self.known if each > self.given - MOST_WAITING}
            yield row


def in_order(rows: Iterable[PacketRow], counts: Counts) -> Iterator[PacketRow]:
    """The packets in the order of their numbers, each number once."""
    waiting = WaitingPackets(counts)
    for row in rows:
        waiting.take(row)
        yield from waiting.given_until(MOST_WAITING)
    yield from waiting.given_until(0)


def has_frames(payload: bytes) -> bool:
    """Whether a payload is whole frames of GSM. One without octets is a frame that its sender had
    lost."""
    if len(payload) % GSM_OCTETS:
        return False
    return not payload[::GSM_OCTETS].strip(GSM_STARTS)


def units_of(row: PacketRow, kind: int) -> Optional[Stretch]:
    """The units of a row, frames of GSM or octets, one a sample; None for packets of another kind."""
    if row.kind != kind:
        return None
    payload = row.payload or b""
    if kind == GSM and not payload:
        return EmptyFrames(row.packets)
    return payload if kind != GSM or has_frames(payload) else None


def without_wrong(
    name: Path, rows: Iterable[PacketRow], partial: bool, counts: Counts
) -> Iterator[PacketRow]:
    """The packets whose payload is of their type. Another one is refused or, where `partial` says
    so and some are right, left out, so that it is missing."""
    first: Optional[PacketRow] = None
    has_right = False
    for row in rows:
        if row.kind == GSM and not has_frames(row.payload or b""):
            counts.wrong += row.packets
            first = first or row
            if not partial:
                break
        else:
            has_right |= row.kind == GSM
            yield row
    if first and not (partial and has_right):
        said = rtp_packets.payload_said(first.payload or b"")
        more = "; --partial counts such packets as lost" if has_right else ""
        raise Refusal(f"{name}: packet {first.number} has no whole frames of GSM, but {said}{more}")


@dataclass
class Gaps:
    """How long gaps may be, each and all together, in samples; and how long they were so far."""

    name: Path
    are_long: bool  # whether any length is taken
    passed: int = 0

    def take(self, samples: int, row: PacketRow) -> None:
        """One more gap, before this row."""
        if self.are_long:
            return
        self.passed += max(0, samples)
        if samples > LONGEST_GAP:
            raise Refusal(
                f"{self.name}: the time stamp of packet {row.number} is {samples / SAMPLES_A_SECOND:.0f} s after the packet before;"
                f" at most {LONGEST_GAP // SAMPLES_A_SECOND} s are taken; --long-gaps takes any"
            )
        if self.passed > MOST_GAPS:
            raise Refusal(
                f"{self.name}: up to packet {row.number} the time stamps leave out {self.passed / SAMPLES_A_SECOND:.0f} s,"
                f" and at most {MOST_GAPS // SAMPLES_A_SECOND} s are taken; --long-gaps takes any"
            )


def gap(missing: int, units: int) -> Iterator[Stretch]:
    """The stretches between two packets: first what the missing packets held, if they were like the
    one before."""
    lost = max(0, min(units, missing))
    if lost:
        yield LostUnits(lost)
    if units > lost:
        yield Gap(units - lost)


class Stretches:
    """The stretches of runs of packets, one after the other. Units that overlap with those before
    are left out."""

    def __init__(self, gaps: Gaps, kind: int, counts: Counts) -> None:
        self.gaps, self.kind, self.counts = gaps, kind, counts
        self.samples, self.octets = (PCM_OCTETS, GSM_OCTETS) if kind == GSM else (1, 1)  # of a unit
        self.place = 0  # after all units so far
        self.last: Optional[
            Tuple[int, float]
        ] = None  # where the packet captured last of those before begins, and its time

    def start_of(self, row: PacketRow) -> int:
        """Where a run begins whose first packet with speech this is: by the times of the capture,
        after what came before."""
        if self.last is None:
            return 0
        place, time = self.last
        passed = round((row.time - time) * SAMPLES_A_SECOND / self.samples)
        return max(self.place, place + passed)

    def of_run(self, rows: Iterable[PacketRow]) -> Iterator[Stretch]:
        """The stretches of a run, from its first packet with speech on."""
        start, first = 0, None
        length, missing, following = 0, 0, 0
        latest: Optional[Tuple[float, int]] = None
        for row in in_order(rows, self.counts):
            came = units_of(row, self.kind)
            missing += row.sequence - following
            following = row.sequence + row.packets
            if not came:
                self.counts.others += row.packets
                continue
            if first is None:
                start, first, missing = self.start_of(row), row.stamp, 0
            begin = start + (row.stamp - first + self.samples // 2) // self.samples
            units = came.units if isinstance(came, EmptyFrames) else len(came) // self.octets
            self.gaps.take((begin - self.place) * self.samples, row)
            yield from gap(missing * length, begin - self.place)
            yield from self.new_units(came, units, begin)
            length, missing = units // row.packets, 0
            last = row.last_time, begin + units - length
            latest = max(latest or last, last)
        if latest:
            time, begin = latest
            self.last = (begin, time)

    def new_units(self, came: Stretch, units: int, begin: int) -> Iterator[Stretch]:
        """What follows the units before of so many units that begin at a place."""
        over = min(units, max(0, self.place - begin))
        self.counts.over += over
        if over < units:
            yield came[self.octets * over :] if isinstance(came, bytes) else came
        self.place = max(self.place, begin + units)


def stretches(
    name: Path,
    streams: Iterable[Iterable[PacketRow]],
    kind: int,
    restart: bool,
    counts: Counts,
    gaps_are_long: bool = False,
) -> Iterator[Stretch]:
    """What streams carried, one after the other, from the first packet with speech on."""
    found = Stretches(Gaps(name, gaps_are_long), kind, counts)
    for rows in streams:
        for run in by_runs(name, rows, kind, restart, counts):
            yield from found.of_run(run)
