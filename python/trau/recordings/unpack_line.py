"""The lines of a recorded line of slots, written in a second pass over its blocks, after the scan.
"""

import hashlib
from pathlib import Path
from typing import BinaryIO, Dict, Iterable, Iterator, List, NamedTuple, Optional

from trau.recordings import scan_rows
from trau.recordings.e1_line import LineBlock, LineReader
from trau.recordings.line_calls import ChannelCall, row_of_stretch
from trau.recordings.line_scan import LineScan
from trau.recordings.scan_rows import ScanRow
from trau.recordings.slot_scan import SlotStretch
from trau.recordings.unpacked_folder import UnpackedCall, UnpackedFolder, UnpackedLine
from trau.rules.g711 import Law
from trau.rules.lines import DOWN, OCTETS_OF_SIDE, PCM, UP
from trau.rules.profile import CHANNELS, PCM_OCTETS
from trau.rules.slots import channels_of_line

FILLING = b"\xff"  # of a channel where the recording has nothing
# Frames that are taken at a time: the columns of many are far slower, as they leave the caches.
PIECE_FRAMES = 1 << 14
LAWS = {scan_rows.ALAW: Law.A, scan_rows.MULAW: Law.MU}


def line_of(row: ScanRow, side: str, start: int, end: int, law: Law = Law.A) -> UnpackedLine:
    """The line from an octet of a slot to another, in whole periods of the recording."""
    period = start // PCM_OCTETS
    periods = -(-end // PCM_OCTETS) - period
    return UnpackedLine(row, side, period, periods, PCM_OCTETS * period, law)


def call_of_channel(call: ChannelCall) -> Optional[UnpackedCall]:
    """The call of a channel with full rate speech."""
    side = {scan_rows.UPLINK: UP, scan_rows.DOWNLINK: DOWN}.get(call.kind)
    if side is None:
        return None
    return UnpackedCall({side: line_of(call.row(), side, call.start, call.end)})


def call_of_stretch(stretch: SlotStretch) -> Optional[UnpackedCall]:
    """The call of a stretch of a slot that has a law."""
    row = row_of_stretch(stretch)
    law = LAWS.get(row.kind)
    if law is None:
        return None
    return UnpackedCall({PCM: line_of(row, PCM, stretch.start, stretch.end, law)})


def calls_of_line(scan: LineScan) -> List[UnpackedCall]:
    """All calls of a line that are unpacked."""
    found = [*map(call_of_channel, scan.calls), *map(call_of_stretch, scan.stretches)]
    return [call for call in found if call]


class LineWriter:
    """Writes one line as the octets of its slot, or of its channel, come. Where the recording
    leaves out some of them, it is filled up."""

    def __init__(self, line: UnpackedLine, path: Path) -> None:
        self.line, self.path = line, path
        size = OCTETS_OF_SIDE[line.side]
        self.next = size * line.period  # octet of the slot or channel
        self.end = self.next + size * line.periods
        self.sum = hashlib.sha256()
        self.file: Optional[BinaryIO] = None
        self.filling = FILLING if line.side != PCM else bytes([line.law.idle()])

    def take(self, first: int, octets: bytes) -> None:
        """Takes octets, the first of which has this place."""
        start = max(self.next, first)
        self.fill(min(start, self.end))
        self.put(octets[start - first : max(0, self.end - first)])
        if self.next >= self.end:
            self.close()

    def fill(self, until: int) -> None:
        """Fills the line up to an octet."""
        if until > self.next:
            self.put(self.filling * (until - self.next))

    def put(self, octets: bytes) -> None:
        """Writes octets."""
        self.next += len(octets)
        if self.file is None:
            self.file = open(self.path, "wb")
        self.file.write(octets)
        self.sum.update(octets)

    def close(self) -> None:
        """Ends the line, at its last period."""
        if self.file is not None and not self.file.closed:
            self.fill(self.end)
            self.file.close()
            self.line.sha256 = self.sum.hexdigest()


class SlotBlock(NamedTuple):
    """Octets of all slots, or of all channels, of a line: the place of the first one of each, and
    the octets of all, in turns."""

    first: int
    octets: bytes


class ChannelGroups:
    """The octets of all channels of a line. Four frames give one of each; where blocks don't begin
    or end with four whole ones, frames wait."""

    def __init__(self, slots: int) -> None:
        self.slots = slots
        self.waiting = b""
        self.next = 0  # the frame after those that came

    def take(self, block: LineBlock) -> SlotBlock:
        """Takes a block. Frames that the recording doesn't have are filled up."""
        missing = self.slots * (block.frame - self.next)
        first = (self.next - len(self.waiting) // self.slots) // CHANNELS
        frames = self.waiting + FILLING * missing + block.octets[max(0, -missing) :]
        whole = len(frames) // (CHANNELS * self.slots) * CHANNELS * self.slots
        self.waiting = frames[whole:]
        self.next = CHANNELS * first + len(frames) // self.slots
        return SlotBlock(first, channels_of_line(frames[:whole], self.slots))

    def rest(self) -> SlotBlock:
        """The octets of the frames that wait at the recording's end, filled up."""
        filling = FILLING * (-len(self.waiting) % (CHANNELS * self.slots))
        first = (self.next - len(self.waiting) // self.slots) // CHANNELS
        return SlotBlock(first, channels_of_line(self.waiting + filling, self.slots))


class LineWriters:
    """Writes all lines of a recording, each while the blocks come that it lies in."""

    def __init__(self, calls: Iterable[UnpackedCall], folder: UnpackedFolder, slots: int) -> None:
        self.slots, self.groups = slots, ChannelGroups(slots)
        self.waiting: List[LineWriter] = []
        for call in calls:
            for side, line in call.lines.items():
                self.waiting.append(LineWriter(line, folder.path(call, side)))
        self.waiting.sort(key=lambda writer: -writer.line.period)
        self.open: List[LineWriter] = []

    def take(self, block: LineBlock) -> None:
        """Takes a block of the recording, piece by piece."""
        for at in range(0, len(block.octets), PIECE_FRAMES * self.slots):
            octets = block.octets[at : at + PIECE_FRAMES * self.slots]
            frame = block.frame + at // self.slots
            self.take_piece(LineBlock(octets, frame, block.is_anew and at == 0))

    def take_piece(self, block: LineBlock) -> None:
        """Takes a piece of a block."""
        end = block.frame + len(block.octets) // self.slots
        while self.waiting and PCM_OCTETS * self.waiting[-1].line.period < end:
            self.open.append(self.waiting.pop())
        self.write(SlotBlock(block.frame, block.octets), self.groups.take(block))
        self.open = [writer for writer in self.open if writer.next < writer.end]

    def write(self, of_slots: SlotBlock, of_channels: SlotBlock) -> None:
        """Gives all open lines their octets."""
        found: Dict[int, bytes] = {}
        for writer in self.open:
            slot, channel = writer.line.row.slot or 0, writer.line.row.channel
            if channel is not None:
                column, step = self.slots * channel + slot, CHANNELS * self.slots
                writer.take(of_channels.first, of_channels.octets[column::step])
                continue
            if slot not in found:
                found[slot] = of_slots.octets[slot :: self.slots]
            writer.take(of_slots.first, found[slot])

    def close(self) -> None:
        """Ends the lines that go on to the recording's end."""
        self.write(SlotBlock(self.groups.next, b""), self.groups.rest())
        for writer in self.open:
            writer.close()


def hashed(blocks: Iterable[bytes], found: "hashlib._Hash") -> Iterator[bytes]:
    """Blocks, whose SHA-256 is found on the way."""
    for block in blocks:
        found.update(block)
        yield block


def write_lines(
    blocks: Iterable[bytes], scan: LineScan, calls: List[UnpackedCall], folder: UnpackedFolder
) -> str:
    """Writes the lines of calls from the blocks of a recording, and gives its SHA-256."""
    found = hashlib.sha256()
    writers = LineWriters(calls, folder, scan.way.slots)
    for block in LineReader(scan.way).blocks(hashed(blocks, found)):
        writers.take(block)
    writers.close()
    return found.hexdigest()
