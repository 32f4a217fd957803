"""What the slots of a line carry, in one pass over its blocks: runs of frames in the channels of 16
kbit/s, and stretches of the slots without them.

A run is frames of a channel that follow one another exactly. `hunt` finds all of them at once, so
Python's own work goes with the starts and ends of runs, and with some strided slices a run and
block, and not with the frames. Places of a slot are counted in its octets (8000 a second) from the
recording's start.
"""

from dataclasses import dataclass, field
from typing import Dict, Iterator, List, NamedTuple, Optional, Tuple

from trau.recordings import readings
from trau.recordings.e1_line import LineBlock
from trau.recordings.readings import Reading
from trau.rules import hunt
from trau.rules.hunt import FRAME_SLOT_OCTETS, LAST_ONE
from trau.rules.profile import CHANNELS

WINDOW = 1 << 18  # octets in which frames are sought at a time
LEAST_ROW = 3  # frames in a row; fewer may be there by chance
LEAD_FRAMES = 2  # before a window, so that its first frames and those before them are whole in it

# C1 to C5 and C12 to C14 of a frame as one octet: by the parity of its first bit and by channel,
# which octets of the slot have them, and where the first and the second bit of the channel's pair
# belong (None: nowhere).
EVEN_BITS = ((8, None, 7), (9, 6, 5), (10, 4, 3), (14, 2, 1), (15, 0, None))
ODD_BITS = ((9, 7, 6), (10, 5, 4), (11, 3, None), (14, None, 2), (15, 1, 0))


def pair_table(channel: int, first: Optional[int], second: Optional[int]) -> bytes:
    """A table that puts the bits of a channel's pair to these places of an octet."""

    def put(bit: int, place: Optional[int]) -> int:
        return 0 if place is None else (bit & 1) << place

    shift = 6 - 2 * channel
    return bytes(
        put(octet >> shift + 1, first) | put(octet >> shift, second) for octet in range(256)
    )


CODE_TABLES = [
    [
        [(octet, pair_table(channel, first, second)) for octet, first, second in bits]
        for channel in range(CHANNELS)
    ]
    for bits in (EVEN_BITS, ODD_BITS)
]


@dataclass
class FrameRun:
    """Frames in a row: the octet of the slot in which the first one begins, whether at its pair's
    second bit, and the codes of all: C1 to C5, and C12 to C14 as the three lowest bits."""

    slot: int
    channel: int
    is_odd: bool
    mark: int  # of the first frame, in bits of the line
    start: int
    codes: bytearray = field(default_factory=bytearray)

    def end(self) -> int:
        """The octet of the slot after the last frame, but for the bit of an odd one."""
        return self.start + FRAME_SLOT_OCTETS * len(self.codes)


class Event(NamedTuple):
    """The mark of a run's first frame, or of the first one that it lacks, in bits of the data."""

    place: int
    is_start: bool


class RunScan:
    """Finds the runs of all slots of a line, given its blocks."""

    def __init__(self, slots: int) -> None:
        self.slots = slots
        self.period = FRAME_SLOT_OCTETS * slots  # octets of a frame's time
        self.lead = LEAD_FRAMES * self.period
        self.open: Dict[int, FrameRun] = {}  # by the mark's place in a frame's time
        self.done: List[FrameRun] = []
        self.kept = b""

    def block(self, block: LineBlock) -> Dict[int, List[Tuple[int, int]]]:
        """Takes a block, and gives by slot the spans of it that runs cover, in octets of the
        slot."""
        if block.is_anew:
            self.end()
        data, at = self.kept + block.octets, len(self.kept)
        base = self.slots * block.frame - at  # of the data, in octets of the line
        spans: Dict[int, List[Tuple[int, int]]] = {}
        for run, first, end in self.parts(data, at, base):
            count = -(-(end - first) // (8 * self.period))
            if count > 0:
                self.take_codes(data, run, first, count)
                if len(run.codes) >= LEAST_ROW:
                    begin = run.end() - FRAME_SLOT_OCTETS * count
                    spans.setdefault(run.slot, []).append((begin, run.end()))
        self.kept = data[-self.lead :]
        return spans

    def end(self) -> None:
        """Ends all runs, as at the end of the line or where octets were lost."""
        self.done += self.open.values()
        self.open = {}
        self.kept = b""

    def runs(self) -> List[FrameRun]:
        """All runs so far, in the order of slots, channels and time."""
        everything = [*self.done, *self.open.values()]
        return sorted(everything, key=lambda run: (run.slot, run.channel, run.mark))

    def events(self, data: bytes, at: int) -> Iterator[Event]:
        """The starts and ends of runs from an octet of the data on, in no order."""
        for start in range(at, len(data), WINDOW):
            low = max(0, start - self.lead)
            window = data[low : start + WINDOW]
            found = hunt.marks(hunt.hits(window, self.slots), len(window))
            if not found:
                continue
            before = found >> 8 * self.period
            goes_on = found & before
            for is_start, changed in ((True, found ^ goes_on), (False, before ^ goes_on)):
                for place in hunt.places(changed, len(window)):
                    if place >= 8 * (start - low):
                        yield Event(8 * low + place, is_start)

    def parts(self, data: bytes, at: int, base: int) -> List[Tuple[FrameRun, int, int]]:
        """The parts of runs in the data from an octet on: each run with the marks of its first
        frame there and of the first that it lacks, or the end of the data."""
        period, found = 8 * self.period, []
        begun: Dict[int, int] = {}
        for key in self.open:  # the first mark of a run that goes on from the block before
            begun[key] = 8 * at + (key - 8 * (base + at)) % period
        for place, is_start in sorted(self.events(data, at)):
            key = (8 * base + place) % period
            if is_start:
                self.open[key] = self.new_run(base, place)
                begun[key] = place
            elif key in self.open:
                run = self.open.pop(key)
                found.append((run, begun.pop(key), place))
                self.done.append(run)
        found += [(self.open[key], first, 8 * len(data)) for key, first in begun.items()]
        return found

    def new_run(self, base: int, place: int) -> FrameRun:
        """The run whose first frame has its mark at this bit of the data."""
        octet = base + place // 8
        return FrameRun(
            octet % self.slots,
            place % 8 // 2,
            bool(place % 2),
            8 * base + place,
            octet // self.slots - LAST_ONE,
        )

    def take_codes(self, data: bytes, run: FrameRun, first: int, count: int) -> None:
        """Reads the codes of so many frames of a run, the first of which has its mark at this bit
        of the data."""
        start = first // 8 - LAST_ONE * self.slots
        codes = 0
        for octet, table in CODE_TABLES[run.is_odd][run.channel]:
            begin = start + octet * self.slots
            column = data[begin : begin + self.period * count : self.period][:count]
            codes |= int.from_bytes(column.translate(table), "big")
        run.codes += codes.to_bytes(count, "big")


# Slots without frames

CHUNK = 400  # octets of a slot, 50 ms
LEAST_UNCOVERED = 2 * CHUNK
JOINED_WITHIN = 16000  # octets between two stretches of sound that are one, 2 s
SAMPLE_OCTETS = 4000  # by which the law is found
LEAST_SAMPLE = 1600
FAR_IN_CHUNK = 133  # octets apart, two that differ show a busy chunk


@dataclass
class SlotStretch:
    """Octets of a slot without frames, from one up to another: all the same (`value`), or not
    (None), and then as they seem to be read, if that is plain."""

    slot: int
    start: int
    end: int
    value: Optional[int] = None
    reading: Optional[Reading] = None


class StretchScan:
    """Finds the stretches of all slots of a line that no run covers, given its blocks."""

    def __init__(self, slots: int) -> None:
        self.slots = slots
        self.by_slot: List[List[SlotStretch]] = [[] for _ in range(slots)]
        self.samples: Dict[int, bytearray] = {}  # of a slot's last stretch, until it is long enough

    def block(self, block: LineBlock, spans: Dict[int, List[Tuple[int, int]]]) -> None:
        """Takes a block, of which runs cover these spans by slot."""
        for slot in range(self.slots):
            octets = block.octets[slot :: self.slots]
            for start, end in uncovered(spans.get(slot, []), block.frame, len(octets)):
                part = octets[start - block.frame : end - block.frame]
                if part.count(part[:1]) == len(part):
                    self.note(slot, start, end, part[0])
                else:
                    self.chunks(slot, start, part)

    def chunks(self, slot: int, start: int, octets: bytes) -> None:
        """Takes octets that aren't all the same, chunk by chunk."""
        rows = self.by_slot[slot]
        for at in range(0, len(octets), CHUNK):
            end = start + min(at + CHUNK, len(octets))
            far = min(at + FAR_IN_CHUNK, len(octets) - 1)
            if rows and rows[-1].value is None and octets[at] != octets[far]:
                if rows[-1].end == start + at and slot not in self.samples:
                    rows[-1].end = end
                    continue
            chunk = octets[at : at + CHUNK]
            value = chunk[0] if chunk.count(chunk[:1]) == len(chunk) else None
            self.note(slot, start + at, end, value, chunk)

    def note(
        self, slot: int, start: int, end: int, value: Optional[int], chunk: bytes = b""
    ) -> None:
        """Adds octets to a slot's stretches. Sound that begins soon after other sound goes on with
        it."""
        rows = self.by_slot[slot]
        last = rows[-1] if rows else None
        if last and last.value == value and last.end == start:
            last.end = end
        elif value is None and len(rows) > 1 and self.goes_on(rows[-2], rows[-1], start):
            rows.pop()
            rows[-1].end = end
            if rows[-1].reading is None:
                self.samples.setdefault(slot, bytearray())
        else:
            self.samples.pop(slot, None)
            rows.append(SlotStretch(slot, start, end, value))
            if value is None:
                self.samples[slot] = bytearray()
        if value is None and slot in self.samples:
            self.sample(slot, chunk)

    @staticmethod
    def goes_on(sound: SlotStretch, pause: SlotStretch, start: int) -> bool:
        """Whether what begins at an octet goes on with sound before a pause."""
        is_near = start - sound.end < JOINED_WITHIN
        return sound.value is None and is_near and sound.end == pause.start and pause.end == start

    def sample(self, slot: int, chunk: bytes) -> None:
        """Adds octets to those by which the law of a slot's last stretch is found."""
        sample = self.samples[slot]
        sample += chunk
        if len(sample) >= SAMPLE_OCTETS:
            self.read_sample(slot)

    def read_sample(self, slot: int) -> None:
        """Finds the reading of a slot's last stretch, but not by too little."""
        sample = bytes(self.samples.pop(slot))
        if len(sample) >= LEAST_SAMPLE:
            self.by_slot[slot][-1].reading = readings.best_reading(sample)

    def stretches(self) -> List[List[SlotStretch]]:
        """All stretches so far by slot."""
        for slot in list(self.samples):
            if self.by_slot[slot][-1].value is None:
                self.read_sample(slot)
        return self.by_slot


def uncovered(spans: List[Tuple[int, int]], start: int, count: int) -> Iterator[Tuple[int, int]]:
    """The parts of so many octets from one on that spans leave out, but for short ones between
    them."""
    place = start
    for begin, end in sorted(spans):
        if begin - place >= LEAST_UNCOVERED:
            yield place, begin
        place = max(place, end)
    if start + count - place >= (LEAST_UNCOVERED if spans else 1):
        yield place, start + count
