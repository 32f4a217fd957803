"""The outside: lines as files of the current folder, and the standard streams (docs/FILES.md).

Everything that fails here fails in the system: a missing file, a folder in a file's place, a full
device, a limit on file sizes. But a line whose file is another line's fails here. Incoming lines
are read before any outgoing one is written, so where an incoming line leads to a file that this run
writes, the model names the outgoing line also where a run of rounds names the incoming one.
"""

import os
import stat
import sys
from pathlib import Path
from typing import Callable, Dict, List, Optional, Tuple

from trau.rules.lines import INCOMING, name_of
from trau.rules.profile import MOST_CALLS

from trau.model.outside import Given

# So much is read at a time; lines are read to the end where nobody says how far.
MOST_AT_ONCE = 1 << 20

Identity = Tuple[int, int]  # a file's device and inode


class SharedFile(OSError):
    """The file is that of another line, and one of both is written (docs/FILES.md, "A file that is
    written is one line's")."""


def read_all(read: Callable[[int], bytes], most: Optional[int]) -> Given:
    """What reads give up to `most` octets, the end or the first failure (docs/FILES.md)."""
    parts: List[bytes] = []
    left = most
    while left is None or left > 0:
        try:
            part = read(MOST_AT_ONCE if left is None else min(left, MOST_AT_ONCE))
        except OSError:
            return Given(b"".join(parts), True)
        if not part:
            break
        parts.append(part)
        left = None if left is None else left - len(part)
    return Given(b"".join(parts), False)


def write_all(descriptor: int, octets: bytes) -> int:
    """How many octets a descriptor took: all, or a proper prefix where a write failed or took none
    (docs/FILES.md)."""
    done = 0
    while done < len(octets):
        try:
            taken = os.write(descriptor, octets[done:])
        except OSError:
            break
        if taken == 0:
            break
        done += taken
    return done


def identity_of(found: os.stat_result) -> Identity:
    """A file's device and inode, which are the same by whatever name it is opened
    (docs/FILES.md)."""
    return found.st_dev, found.st_ino


def is_recording(identity: Identity) -> bool:
    """Whether an incoming line of the current folder has this file (docs/FILES.md)."""
    names = [name_of(call, side) for call in range(1, MOST_CALLS + 1) for side in INCOMING]
    return any(os.path.exists(name) and identity_of(os.stat(name)) == identity for name in names)


class FolderLines:
    """The lines of the current folder: file `7.up` is the Up line of call 7. Keeps how far each
    line was read and written, and which line has which file of a disk."""

    def __init__(self) -> None:
        self._moved: Dict[Tuple[int, str], int] = {}
        self._files: Dict[
            Identity, Dict[str, bool]
        ] = {}  # the lines that have the file, and whether each is written

    def read(self, call: int, side: str, most: Optional[int] = None) -> Given:
        """The next octets of a line, `most` at most; the file is opened for it, so a missing one
        fails here (docs/FILES.md)."""
        name = name_of(call, side)
        try:
            with open(name, "rb", buffering=0) as line:
                self._claim(line.fileno(), name, is_written=False)
                line.seek(self._moved.get((call, side), 0))
                given = read_all(line.read, most)
        except OSError:
            return Given(b"", True)
        self._moved[call, side] = self._moved.get((call, side), 0) + len(given.octets)
        return given

    def write(self, call: int, side: str, octets: bytes) -> bool:
        """Appends octets to what this program wrote of the line; the first write makes its file, or
        empties an older one (docs/FILES.md)."""
        name, before = name_of(call, side), self._moved.get((call, side), 0)
        try:
            with open(
                os.open(name, os.O_WRONLY | (0 if before else os.O_CREAT), 0o666), "wb", buffering=0
            ) as line:
                self._claim(line.fileno(), name, is_written=True, is_emptied=before == 0)
                line.seek(before)
                done = write_all(line.fileno(), octets)
        except OSError:
            return False
        self._moved[call, side] = before + done
        return done == len(octets)

    def _claim(
        self, descriptor: int, name: str, is_written: bool, is_emptied: bool = False
    ) -> None:
        """Has the file be the line's, unless it is another line's and one of both is written; and
        empties an older one, unless it is a recording of this folder by another name
        (docs/FILES.md)."""
        found = os.fstat(descriptor)
        if not stat.S_ISREG(found.st_mode):
            return
        lines = self._files.setdefault(identity_of(found), {})
        for other, other_is_written in lines.items():
            if other != name and (is_written or other_is_written):
                raise SharedFile(other)
        lines[name] = lines.get(name, False) or is_written
        if is_emptied:
            if (Path(name).is_symlink() or found.st_nlink > 1) and is_recording(identity_of(found)):
                raise SharedFile(name)
            os.ftruncate(descriptor, 0)


class StandardStreams:
    """Standard input, which has the orders, and standard output, which takes the texts, as
    descriptors of the system."""

    def __init__(self, reads: int, writes: int) -> None:
        self._reads, self._writes = reads, writes

    def read(self, most: int) -> Given:
        """The next octets of standard input, `most` at most (docs/FILES.md)."""
        return read_all(lambda size: os.read(self._reads, size), most)

    def write(self, text: str) -> bool:
        """Writes a text to standard output; False where a proper prefix of it went out, and the
        output failed (docs/FILES.md)."""
        octets = text.encode("ascii")
        return write_all(self._writes, octets) == len(octets)

    def explain(self, why: str) -> None:
        """Says on standard error why nothing was done; what can't be said there is left unsaid
        (docs/COMMANDS.md, "Why it refuses")."""
        try:
            print(f"trau: {why}", file=sys.stderr)
        except OSError:
            pass
