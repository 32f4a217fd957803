"""The lines of the streams of a capture. One pass over the capture puts each stream's packets into
a file of its own; then stream by stream becomes a line, as by the command `pcap`."""

import hashlib
import itertools
import os
import struct
from dataclasses import dataclass
from pathlib import Path
from typing import BinaryIO, Dict, Iterable, Iterator, List, NamedTuple, Optional, Sequence, Tuple

from trau.command_line.words import Refusal
from trau.recordings import capture_rows, captures, scan_rows
from trau.recordings.code_word import Marker
from trau.recordings.packet_rows import PacketRow
from trau.recordings.rtp_packets import TRAU_FRAMES
from trau.recordings.rtp_streams import Counts, stretches, without_wrong
from trau.recordings.rtp_walk import CapturedStream, CaptureScan, Key
from trau.recordings.udp_layers import other_way
from trau.recordings.unpacked_folder import (
    UnpackedCall,
    UnpackedFolder,
    UnpackedLine,
    idle_period,
    sha256_of,
)
from trau.rules.g711 import Law
from trau.rules.lines import DOWN, OCTETS_OF_SIDE, PCM, UP
from trau.rules.payload_types import GSM
from trau.rules.profile import PERIODS_A_SECOND

# A row in a stream's file: its fields but for the payload, and the payload's octets.
ROW = struct.Struct("<HHQHIdIQdI")
MOST_HELD = 1 << 16  # octets of a stream that wait for its file
MOST_HELD_IN_ALL = 1 << 25
BY_ADDRESSES = "addresses"


class PacketFiles:
    """Files with the packets of streams, in a folder."""

    def __init__(self, folder: Path) -> None:
        self.folder = folder
        self.held: Dict[Key, bytearray] = {}
        self.names: Dict[Key, Path] = {}
        self.octets = 0

    def take(self, key: Key, row: PacketRow) -> None:
        """Takes a row. Packets that were cut off are lost."""
        *others, payload = row
        if payload is None:
            return
        held = self.held.get(key)
        if held is None:
            held = self.held[key] = bytearray()
        held += ROW.pack(*others, len(payload))
        held += payload
        self.octets += ROW.size + len(payload)
        if len(held) >= MOST_HELD:
            self.write(key)
        elif self.octets >= MOST_HELD_IN_ALL:
            for key in list(self.held):
                self.write(key)

    def write(self, key: Key) -> None:
        """Writes what is held of a stream."""
        held = self.held.pop(key, None)
        if held:
            name = self.names.setdefault(key, self.folder / f".{len(self.names)}.packets")
            with open(name, "ab") as file:
                file.write(held)
            self.octets -= len(held)

    def rows(self, key: Key) -> Iterator[PacketRow]:
        """The packets of a stream, in the order in which they were captured."""
        self.write(key)
        if key in self.names:
            with open(self.names[key], "rb") as file:
                yield from rows_in(file)

    def remove(self) -> None:
        """Removes the files."""
        for name in self.names.values():
            os.unlink(name)


def rows_in(file: BinaryIO) -> Iterator[PacketRow]:
    """The packets of a stream's file."""
    for head in iter(lambda: file.read(ROW.size), b""):
        *others, size = ROW.unpack(head)
        yield PacketRow._make([*others, file.read(size)])


class StreamWish(NamedTuple):
    """What the words of the command want of streams."""

    name: Path
    gaps_are_idle: bool
    keeps_descriptors: bool


def chunks_of(rows: Iterable[PacketRow], kind: int, wish: StreamWish) -> Iterator[bytes]:
    """The line of the packets of a stream, as it is made: an uplink, a Pcm line of its own law, or
    the TRAU frames one after another."""
    if kind == TRAU_FRAMES:
        return (row.payload or b"" for row in rows if row.kind == TRAU_FRAMES)
    counts = Counts()
    right = without_wrong(wish.name, rows, True, counts)
    found = stretches(wish.name, [right], kind, True, counts)
    if kind == GSM:
        marker = Marker(wish.keeps_descriptors)
        return captures.UplinkOfStream(found, 0, marker, wish.gaps_are_idle).chunks()
    law = captures.LAWS[kind]
    return captures.PcmOfStream(found, 0, law, law).chunks()


@dataclass
class StreamCall:
    """A stream, its line, and the call that has it."""

    key: Key
    stream: CapturedStream
    kind: int
    line: UnpackedLine
    call: UnpackedCall


def side_of(stream: CapturedStream, kind: int) -> Optional[str]:
    """The side of the line of a stream with this type of speech; None if it makes no line."""
    if kind == TRAU_FRAMES:
        return {scan_rows.UPLINK: UP, scan_rows.DOWNLINK: DOWN}.get(
            capture_rows.word_of(stream, kind)
        )
    return UP if kind == GSM else PCM if kind in captures.LAWS else None


def call_of_stream(key: Key, stream: CapturedStream, begins: float) -> Optional[StreamCall]:
    """The call of a stream with speech; how many periods it has is known when it is written."""
    kind = capture_rows.speech_type(stream)
    side, law = side_of(stream, kind), captures.LAWS.get(kind, Law.A)
    if side is None:
        return None
    row = capture_rows.row_of_stream(key, stream, begins)
    period = max(0, round((stream.first - begins) * PERIODS_A_SECOND))
    line = UnpackedLine(row, side, period, 0, stream.number, law)
    return StreamCall(key, stream, kind, line, UnpackedCall({side: line}))


def overlap(one: CapturedStream, other: CapturedStream) -> float:
    """For how many seconds two streams are there at once."""
    return min(one.last, other.last) - max(one.first, other.first)


def pairs_of(streams: Sequence[StreamCall]) -> Iterator[Tuple[StreamCall, StreamCall]]:
    """The pairs of streams that go both ways between the same addresses and ports, each the only
    one that is there at the time of the other."""
    by_flow: Dict[bytes, List[StreamCall]] = {}
    for each in streams:
        by_flow.setdefault(each.key[0], []).append(each)

    def partners(one: StreamCall) -> List[StreamCall]:
        others = by_flow.get(other_way(one.key[0]), [])
        return [other for other in others if overlap(one.stream, other.stream) > 0]

    for one in streams:
        found = partners(one)
        if len(found) == 1 and one.stream.number < found[0].stream.number:
            if partners(found[0]) == [one]:
                yield one, found[0]


def pair_streams(streams: Sequence[StreamCall]) -> None:
    """Pairs streams. An uplink and a Pcm line are one call; two of a kind are two."""
    for one, other in list(pairs_of(streams)):
        if one.line.side == other.line.side:
            one.call.pair, other.call.pair = other.call, one.call
        else:
            one.call.lines[other.line.side] = other.line
            other.call = one.call
        one.call.paired_by = other.call.paired_by = BY_ADDRESSES


def calls_of_capture(scan: CaptureScan) -> List[StreamCall]:
    """The calls of a capture's streams with speech, in pairs where that is sure."""
    listed = capture_rows.listed_streams(scan)
    found = [call_of_stream(key, stream, scan.begins) for key, stream in listed]
    calls = [each for each in found if each]
    pair_streams([each for each in calls if each.kind != TRAU_FRAMES])
    return calls


def write_stream(each: StreamCall, chunks: Iterator[bytes], folder: UnpackedFolder) -> None:
    """Writes the line of a stream, after idle periods from where its call begins."""
    line, found, octets = each.line, hashlib.sha256(), 0
    lead = (line.period - each.call.period()) * idle_period(line)
    with open(folder.path(each.call, line.side), "wb") as file:
        for chunk in itertools.chain([lead], chunks):
            file.write(chunk)
            found.update(chunk)
            octets += len(chunk)
    line.periods = octets // OCTETS_OF_SIDE[line.side]
    line.sha256 = found.hexdigest()


def even_out(call: UnpackedCall, folder: UnpackedFolder) -> None:
    """Fills the shorter line of a call with idle periods: a run ends with the shorter one."""
    begins, periods = call.period(), max(line.periods for line in call.lines.values())
    for side, line in call.lines.items():
        line.period = begins
        missing, line.periods = periods - line.periods, periods
        if missing:
            with open(folder.path(call, side), "ab") as file:
                file.write(missing * idle_period(line))
            line.sha256 = sha256_of(folder.path(call, side))


def refuse_doubtful(name: Path, stream: CapturedStream) -> None:
    """Refuses a stream of which no line can be made for sure."""
    if stream.has_two_senders():
        raise Refusal(f"{name}: {capture_rows.TWO_SENDERS}")
    if stream.cut == stream.packets:
        raise Refusal(f"{name}: none of its packets was captured whole")


def cut_said(streams: Sequence[StreamCall]) -> str:
    """How many packets of the streams that have lines weren't captured whole, in words."""
    cut = sum(each.stream.cut for each in streams if each.line.side in each.call.lines)
    return f"{cut} packets of speech weren't captured whole; they count as lost" if cut else ""


def write_streams(
    streams: Sequence[StreamCall], files: PacketFiles, folder: UnpackedFolder, wish: StreamWish
) -> List[str]:
    """Writes the lines of streams, and says of those that have none why. Their calls lose them."""
    refused = []
    for each in streams:
        try:
            refuse_doubtful(wish.name, each.stream)
            write_stream(each, chunks_of(files.rows(each.key), each.kind, wish), folder)
        except Refusal as refusal:
            folder.path(each.call, each.line.side).unlink(missing_ok=True)
            reason = str(refusal).partition(": ")[2]
            refused.append(f"{each.line.row.place()}: not unpacked: {reason}")
            del each.call.lines[each.line.side]
            if each.call.pair:
                each.call.pair.pair, each.call.pair.paired_by = None, ""
    for call in {id(each.call): each.call for each in streams}.values():
        if len(call.lines) > 1:
            even_out(call, folder)
    return refused
