"""What is said, before a run, of a call's outgoing lines: a folder in place of a file, and links
that lead to other files."""

import os
import re
from pathlib import Path
from typing import Iterator, Tuple

from trau.rules.lines import OUTGOING, name_of


def shared_with(path: Path) -> str:
    """The name of an incoming line in its folder that is the same file as this outgoing one, or
    nothing."""
    if not path.is_file() or not (path.is_symlink() or path.stat().st_nlink > 1):
        return ""
    incoming = (
        other
        for other in sorted(path.parent.iterdir())
        if re.fullmatch(r"[1-9]\d{0,3}\.(up|pcm)", other.name, re.ASCII)
    )
    return next((other.name for other in incoming if other.is_file() and path.samefile(other)), "")


def said_of_outgoing(folder: Path, call: int) -> Iterator[Tuple[bool, str]]:
    """What is said of a call's outgoing lines, each with whether it is a warning or else a note."""
    for side in OUTGOING:
        path = folder / name_of(call, side)
        shared = shared_with(path)
        if path.is_dir():
            yield True, f"{path.name} is a folder: the line will fail"
        elif shared:
            yield True, f"{path.name} is the file of {shared}: a line will fail"
        elif not path.is_symlink() and not os.access(
            path if path.exists() else path.parent, os.W_OK
        ):
            yield True, f"{path.name} can't be written: the line will fail"
        elif path.is_symlink() and os.path.basename(os.path.realpath(path)) != path.name:
            yield False, f"{path.name} is a link: the run empties and writes {os.path.realpath(path)}"
