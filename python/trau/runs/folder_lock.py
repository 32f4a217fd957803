"""The lock of a folder, which `trau` takes while it writes lines there (docs/FILES.md, "A run locks
its folder")."""

import contextlib
import fcntl
import os
from pathlib import Path
from typing import Iterator, Optional

from trau.command_line.words import Refusal

LOCKS = Path("/proc/locks")


def is_locked(folder: Path) -> Optional[bool]:
    """Whether a process has a folder's lock, as `trau` takes it, or None where the system doesn't
    show locks. (Trying the lock might keep out a run that starts just then.)"""
    try:
        locks, inode = LOCKS.read_text().splitlines(), folder.stat().st_ino
    except OSError:
        return None
    return any(" FLOCK " in lock and lock.split()[-3].endswith(f":{inode}") for lock in locks)


@contextlib.contextmanager
def alone_in(farm: Path) -> Iterator[None]:
    """Locks a farm's folder, as `trau` does. Refuses where another one has it. Where there are no
    locks it goes on without."""
    try:
        folder = os.open(farm, os.O_RDONLY)
    except OSError:
        yield
        return
    try:
        fcntl.flock(folder, fcntl.LOCK_EX | fcntl.LOCK_NB)
    except BlockingIOError:
        os.close(folder)
        raise Refusal(
            f"{farm}: a run, or a part of another cut, writes lines of this folder"
        ) from None
    except OSError:
        pass
    try:
        yield
    finally:
        os.close(folder)
