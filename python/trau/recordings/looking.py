"""The command of lines.py that says what files are."""

import argparse
from pathlib import Path
from typing import List, Tuple

from trau.command_line.ends import for_each
from trau.command_line.files import STREAM
from trau.command_line.words import Refusal, printable
from trau.recordings import file_kinds, recordings
from trau.recordings.capture_streams import streams_of
from trau.recordings.capture_walk import CaptureOctets
from trau.recordings.excerpts import excerpts_of, excerpts_of_blocks
from trau.recordings.file_descriptions import FileDescription, FileKind
from trau.recordings.file_heads import PACKED_BY_GZIP


def streams_said(name: Path, data: CaptureOctets) -> List[str]:
    """The streams of a capture, and what isn't read of it, each in words."""
    try:
        streams = streams_of(name, data, partial=True)
    except Refusal as refusal:
        return [f"not read: {refusal}"]
    others = [f"not read: {each.said()}" for each in streams.others.values()]
    found = [f"stream {each}" for each in streams.listed()] + others
    unread = streams.whole.unread_said()
    odd = [f"not read: {unread}"] if unread else []
    broken = [f"it {streams.whole.broken}"] if streams.whole.broken else []
    return (found or [f"no stream of RTP{streams.whole.cut_off()}"]) + odd + broken


def looked_at(name: Path) -> Tuple[FileDescription, List[str]]:
    """What a file is, or what is in it if gzip packed it; and more lines of a capture and of a
    whole line."""
    # What comes from a pipe is kept, as a capture is read again.
    data = recordings.mapped(name) if name == STREAM else b""
    found = file_kinds.look(excerpts_of(data) if data else file_kinds.excerpts_of_file(name))
    if found.said == PACKED_BY_GZIP and name.suffix == recordings.PACKED:
        found = file_kinds.look(excerpts_of_blocks(recordings.blocks_of(name, partial=True)))
        found = found._replace(said=f"{PACKED_BY_GZIP}: {found.said}")
    more: List[str] = []
    if found.kind is FileKind.CAPTURE:
        more = streams_said(name, data or recordings.mapped(name, partial=True))
    more += (each.said + file_kinds.command_for(each, name) for each in found.slots)
    return file_kinds.of_line(found, name), more


def say_file(name: Path) -> None:
    """Prints what a file is."""
    found, more = looked_at(name)
    print(printable(f"{name}: {found.said}{file_kinds.command_for(found, name)}"))
    for each in more:
        print(printable(f"  {each}"))


def look(words: argparse.Namespace) -> int:
    """Says what each file is, and which command takes it. Sound files, frames of libgsm and
    captures are known by their heads; uplinks, downlinks, lines of frames that trau doesn't decode,
    time slots and E1 lines by the frames in them, at any bit and in either order of the bits of an
    octet; A-law, mu-law and samples of 16 bits by statistics, which are a guess. Of a capture it
    lists the streams, a line each; of an E1 line the slots with
    frames, with the command that takes each, and what the others have. It looks at
    the head, after an idle start, and at places all over the file. A file that can't be read is named on standard
    error, and the status is 2 at the end."""
    return for_each("lines.py", words.files, say_file)
