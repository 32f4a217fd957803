"""A scan of a whole capture: its file, or what was packed in it, is mapped, so that little of it is
in memory at a time."""

import argparse
import contextlib
import mmap
from pathlib import Path
from typing import Iterator, Optional

from trau.recordings import recordings
from trau.recordings.capture_walk import CaptureOctets, is_capture
from trau.recordings.line_scan import ReadingProgress
from trau.recordings.rtp_walk import CaptureScan, Take, scan_capture


@contextlib.contextmanager
def capture_octets(name: Path, partial: bool = False) -> Iterator[CaptureOctets]:
    """The octets of a capture, mapped."""
    octets = recordings.mapped(name, partial)
    try:
        yield octets
    finally:
        if isinstance(octets, mmap.mmap):
            octets.close()


def has_capture(name: Path) -> bool:
    """Whether a file is a capture, by its first octets."""
    return is_capture(next(recordings.blocks_of(name, partial=True), b"")[:4])


def scan_file(words: argparse.Namespace, take: Optional[Take] = None) -> CaptureScan:
    """The streams of the capture that the words of a command name; `take` gets each packet of RTP
    with its time."""
    with capture_octets(words.given, words.partial) as octets:
        progress = ReadingProgress("read", len(octets))
        found = scan_capture(octets, take, progress.at, dict(words.type))
        progress.end()
        return found
