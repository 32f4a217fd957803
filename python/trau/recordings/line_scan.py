"""A scan of a whole recording of a line, an E1 line or a slot alone: how it is read, its calls and
its other stretches."""

import itertools
import sys
from collections import Counter
from pathlib import Path
from typing import Callable, Dict, Iterable, Iterator, List, NamedTuple, Optional, Tuple

from trau.command_line.words import Refusal
from trau.recordings import file_kinds, readings, recordings
from trau.recordings.bit_order import WAYS, BitWay, decide
from trau.recordings.excerpts import EXCERPT_OCTETS, excerpts_of
from trau.recordings.e1_line import (
    BOTH_FRAMES_BITS,
    HEAD_OCTETS,
    LineReader,
    LineWay,
    signal_way,
)
from trau.recordings.line_calls import ChannelCall, calls_of, in_order, row_of_stretch
from trau.recordings.scan_rows import ScanRow
from trau.recordings.slot_scan import SAMPLE_OCTETS, RunScan, SlotStretch, StretchScan
from trau.rules import hunt
from trau.rules.profile import SAMPLES_A_SECOND
from trau.rules.slots import SLOTS_OF_E1, octets_from

BLOCK = 1 << 22  # octets that are taken at a time
MOST_BLOCKS = 16  # in which the first signal, or the first frames, are sought
LEAST_FRAMES = 3
BY_CHANCE = 0.1  # of the marks of the slot with most of them, below which a slot has no frames
MOST_SAID = 5  # places where octets were lost
LEAST_STRETCH = SAMPLES_A_SECOND // 10  # octets; a shorter one isn't listed


class LineScan(NamedTuple):
    """What a recording of a line has: how it is read, calls, stretches of slots without frames, the
    octets of a slot, and the octets of a slot before which some were lost or gained."""

    way: LineWay
    calls: List[ChannelCall]
    stretches: List[SlotStretch]
    length: int
    breaks: List[int]

    def rows(self) -> List[ScanRow]:
        """All of it as rows, in the order of slots and time."""
        return in_order(
            [*(call.row() for call in self.calls), *map(row_of_stretch, self.stretches)]
        )

    def breaks_said(self) -> str:
        """Where octets were lost or gained, in words; empty without any."""
        if not self.breaks:
            return ""
        places = [f"{place / SAMPLES_A_SECOND:.3f}" for place in self.breaks[:MOST_SAID]]
        more = " s and later" if len(self.breaks) > MOST_SAID else " s"
        said = f"octets were lost or gained, times {len(self.breaks)}"
        return f"{said}, at {', '.join(places)}{more}"


class ReadingProgress:
    """A line on standard error, if that is a terminal: how much of a recording was read."""

    def __init__(self, word: str, octets: int) -> None:
        self.word, self.octets = word, octets
        self.shows = octets > 0 and sys.stderr.isatty()
        self.said = -1

    def at(self, octets: int) -> None:
        """Says how many octets were read."""
        percent = min(100, 100 * octets // max(1, self.octets))
        if self.shows and percent != self.said:
            self.said = percent
            print(f"\r{self.word} {percent} %", end="", file=sys.stderr, flush=True)

    def end(self) -> None:
        """Clears the line."""
        if self.shows and self.said >= 0:
            print("\r" + " " * (len(self.word) + 6) + "\r", end="", file=sys.stderr, flush=True)


def larger_blocks(blocks: Iterable[bytes]) -> Iterator[bytes]:
    """The octets of blocks in larger blocks."""
    parts: List[bytes] = []
    size = 0
    for block in blocks:
        parts.append(block)
        size += len(block)
        if size >= BLOCK:
            yield b"".join(parts)
            parts, size = [], 0
    if parts:
        yield b"".join(parts)


def blocks_of(path: Path, word: str, partial: bool = False) -> Iterator[bytes]:
    """The octets of a recording in blocks, with its progress on a terminal."""
    progress = ReadingProgress(word, path.stat().st_size if path.suffix != recordings.PACKED else 0)
    passed = 0
    for block in larger_blocks(recordings.blocks_of(path, partial)):
        yield block
        passed += len(block)
        progress.at(passed)
    progress.end()


# How a recording is read


def signal_way_of(octets: bytes) -> Optional[LineWay]:
    """How octets of a recording are read by the first signal in them."""
    for start in range(0, len(octets), HEAD_OCTETS // 2):
        way = signal_way(octets[start : start + HEAD_OCTETS])
        if way:
            return way._replace(bit=(way.bit + 8 * start) % BOTH_FRAMES_BITS)
    return None


def frames_by_way(octets: bytes, slots: int) -> Dict[BitWay, Tuple[int, bytes]]:
    """How many frames there are in each way to read octets of so many slots; and the octets of the
    slot with most of them."""
    found = {}
    for way in WAYS:
        read = way.read(octets)
        marks = hunt.places(hunt.marks(hunt.hits(read, slots), len(read)), len(read))
        of_slots = Counter(mark // 8 % slots for mark in marks)
        most = max(of_slots, key=lambda slot: of_slots[slot], default=0)
        found[way] = len(marks), octets[most::slots]
    return found


def ways_by_frames(octets: bytes, slots: int, turned: Optional[bool]) -> Tuple[BitWay, ...]:
    """In which ways octets of so many slots may be read by their frames, if they have any; one
    where these decide. The words may say in which order the bits are."""
    found = frames_by_way(octets, slots)
    best = max(found, key=lambda way: found[way][0])
    if found[best][0] < LEAST_FRAMES:
        return ()
    order = decide(found[best][1])
    return tuple(way for way in order.ways if turned in (None, way.turned))


def laws_read(octets: bytes, slots: Iterable[int], of: int) -> int:
    """In how many samples of these slots the law is plain."""
    found = 0
    for slot in slots:
        of_slot = octets[slot::of]
        for start in (len(of_slot) // 3, 2 * len(of_slot) // 3):
            reading = readings.best_reading(of_slot[start : start + SAMPLE_OCTETS])
            found += bool(reading and reading.law and not reading.turned)
    return found


def first_bit(octets: bytes, way: BitWay, slots: int) -> int:
    """The bit at which octets of slots begin that are read in this way. Frames show it but for
    pairs of bits, and the laws of slots without frames show the rest."""
    read = way.read(octets)
    marks = hunt.places(hunt.marks(hunt.hits(read, slots), len(read)), len(read))
    of_slots = Counter(mark // 8 % slots for mark in marks)
    most = max(of_slots.values())
    busy = {slot for slot, count in of_slots.items() if count >= BY_CHANCE * most}
    free = [slot for slot in range(slots) if not {slot, (slot + 1) % slots} & busy]
    counts = {
        bit: laws_read(octets_from(read, bit - way.bit), free, slots)
        for bit in range(way.bit, 8, 2)
    }
    best, second = sorted(counts, key=lambda bit: -counts[bit])[:2]
    return best if counts[best] > counts[second] else way.bit


def way_of(name: Path, slots: Optional[int], turned: Optional[bool], partial: bool) -> LineWay:
    """How a recording is read: by its first signal, or by its first frames. The words may say of
    how many slots it is, and in which order its bits are."""
    undecided = False
    for block in itertools.islice(larger_blocks(recordings.blocks_of(name, partial)), MOST_BLOCKS):
        way = signal_way_of(block) if slots in (None, SLOTS_OF_E1) else None
        if way:
            return way
        for each in [slots] if slots else [1, SLOTS_OF_E1]:
            ways = ways_by_frames(block, each, turned)
            if len(ways) == 1:
                return LineWay(ways[0].turned, first_bit(block, ways[0], each), each, False)
            undecided |= len(ways) > 1
    if undecided and turned is None:
        raise Refusal(
            f"{name}: its frames don't show the order of its bits;"
            " --lsb-first or --msb-first says it"
        )
    if slots:
        return LineWay(bool(turned), 0, slots, False)
    raise Refusal(
        f"{name}: no E1 line, time slot or capture is found in it;"
        " --of 32 or --of 1 says how many slots it has"
    )


def refuse_others(name: Path, partial: bool) -> None:
    """Refuses what is plainly no recording of a line, by its first octets."""
    head = b"".join(itertools.islice(recordings.blocks_of(name, partial), 1))
    head = head[:EXCERPT_OCTETS]
    if not head:
        raise Refusal(f"{name}: holds no octets")
    not_this = "no recording of a line of slots"
    file_kinds.refuse_head(name, head, not_this)
    found = file_kinds.by_frames(excerpts_of(head))
    if found and not signal_way(head):
        file_kinds.refuse(name, found, not_this)


# The scan


def scan_blocks(blocks: Iterable[bytes], way: LineWay) -> LineScan:
    """What the blocks of a recording have that is read in this way."""
    reader, runs, stretches = LineReader(way), RunScan(way.slots), StretchScan(way.slots)
    length = 0
    for block in reader.blocks(blocks):
        stretches.block(block, runs.block(block))
        length = block.frame + len(block.octets) // way.slots
    first = 1 if way.has_signal else 0
    listed = itertools.chain.from_iterable(stretches.stretches()[first:])
    found = [each for each in listed if each.end - each.start >= LEAST_STRETCH]
    return LineScan(way, list(calls_of(runs.runs())), found, length, reader.breaks)


def scan_line(
    name: Path,
    slots: Optional[int] = None,
    turned: Optional[bool] = None,
    partial: bool = False,
    blocks: Callable[[Path, str, bool], Iterator[bytes]] = blocks_of,
) -> LineScan:
    """What a recording of a line has."""
    if slots is None:
        refuse_others(name, partial)
    return scan_blocks(blocks(name, "scan", partial), way_of(name, slots, turned, partial))
