"""The lines that check.py is given: files of a line, slots and channels of recorded E1 lines, and
streams of captures. Recordings are read as `lines.py scan` and `unpack` read them."""

import tempfile
from pathlib import Path
from typing import List, NamedTuple, Optional, Sequence, Tuple

from trau.command_line.files import read_file
from trau.command_line.words import Refusal
from trau.recordings import line_scan
from trau.recordings.capture_scan import capture_octets, has_capture
from trau.recordings.e1_line import LineReader
from trau.recordings.rtp_walk import scan_capture
from trau.recordings.unpack_capture import (
    PacketFiles,
    StreamCall,
    StreamWish,
    calls_of_capture,
    chunks_of,
)
from trau.rules.frame import DownFrame, FrameKind, bits_of, octets_of, read_up, write_down
from trau.rules.lines import PCM, UP
from trau.rules.search import search
from trau.rules.slots import channel_octets

BEHIND = "@"  # between a recording and a place in it
SENT_KINDS = (FrameKind.SPEECH, FrameKind.VALID_SID)


class RecordingWords(NamedTuple):
    """What the words say of recordings: of how many slots a line is, in which order its bits are,
    and which payload types of packets stand for others."""

    slots: Optional[int] = None
    turned: Optional[bool] = None
    types: Sequence[Tuple[int, int]] = ()


class GivenLine(NamedTuple):
    """A line that was given: its octets, and whether it was made of packets."""

    octets: bytes
    is_of_packets: bool = False


class SlotPlace(NamedTuple):
    """A slot of a line, or a channel of one."""

    slot: int
    channel: Optional[int]


def slot_place(name: str, where: str) -> SlotPlace:
    """The slot, or the slot and the channel, that a word names, as 16.0."""
    slot, point, channel = where.partition(".")
    is_known = slot.isdecimal() and (channel in ("0", "1", "2", "3") if point else not channel)
    if not is_known:
        raise Refusal(f"{name}: '{where}' is no slot or channel of it, as 5 or 16.0 is")
    return SlotPlace(int(slot), int(channel) if point else None)


def slot_line(name: Path, where: str, words: RecordingWords) -> bytes:
    """The octets of a slot, or of a channel, of the recording of a line, from its start on."""
    place = slot_place(str(name), where)
    if words.slots is None:
        line_scan.refuse_others(name, False)
    way = line_scan.way_of(name, words.slots, words.turned, False)
    if place.slot >= way.slots:
        raise Refusal(f"{name}: its slots are 0 to {way.slots - 1}")
    reader = LineReader(way)
    blocks = reader.blocks(line_scan.blocks_of(name, "read"))
    octets = b"".join(block.octets[place.slot :: way.slots] for block in blocks)
    if reader.breaks:
        raise Refusal(f"{name}: octets were lost or gained in it, times {len(reader.breaks)}")
    return octets if place.channel is None else channel_octets(octets, place.channel)


def chosen_stream(
    name: Path, streams: List[StreamCall], side: str, where: Optional[str]
) -> StreamCall:
    """The stream of this side with this SSRC, or the only one."""
    fit = [each for each in streams if each.line.side == side]
    if where is not None:
        fit = [each for each in fit if each.line.row.ssrc == where]
    if len(fit) == 1:
        return fit[0]
    what = "GSM" if side == UP else "A-law or mu-law"
    named = f" with SSRC {where}" if where is not None else ""
    listed = ", ".join(each.line.row.ssrc for each in streams if each.line.side == side)
    raise Refusal(
        f"{name}: has {len(fit)} streams of {what}{named}"
        + (f"; {name}{BEHIND}SSRC names one of {listed}" if listed else "")
    )


def capture_line(name: Path, where: Optional[str], side: str, words: RecordingWords) -> bytes:
    """The line of a stream of a capture: an uplink of GSM, or the octets of a law."""
    with tempfile.TemporaryDirectory() as folder, capture_octets(name) as octets:
        files = PacketFiles(Path(folder))
        found = scan_capture(octets, files.take, types=dict(words.types))
        if found.broken:
            raise Refusal(f"{name}: {found.broken}")
        each = chosen_stream(name, calls_of_capture(found), side, where)
        line = b"".join(chunks_of(files.rows(each.key), each.kind, StreamWish(name, False, False)))
        files.remove()
    return line


def downlink_of(up: bytes) -> bytes:
    """An uplink's speech frames and silence descriptors as a downlink, at their places: frames of
    packets have no control bits of their own."""
    bits = list(bits_of(up))
    for each in search("".join(bits)):
        frame = read_up(each.frame) if each.frame else None
        if frame is None or frame.kind not in SENT_KINDS:
            continue
        sent = write_down(DownFrame(frame.kind, frame.data))
        bits[each.place : each.place + len(sent)] = sent
    return octets_of("".join(bits))


def given_line(word: Path, side: str, words: RecordingWords) -> GivenLine:
    """The line that a word names, UP, PCM or DOWN: FILE, FILE@SLOT, FILE@SLOT.CHANNEL, or
    FILE@SSRC."""
    name, behind, where = str(word).rpartition(BEHIND)
    is_whole = word.exists() or not behind
    path = word if is_whole else Path(name)
    if has_capture(path):
        of_side = PCM if side == PCM else UP
        line = capture_line(path, None if is_whole else where, of_side, words)
        return GivenLine(line if side in (UP, PCM) else downlink_of(line), True)
    if is_whole:
        return GivenLine(read_file(path))
    return GivenLine(slot_line(path, where, words))
