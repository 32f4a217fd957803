"""Files as the tools read and write them: a file is written as a whole or not at all, never
over one that was read, and with the mode of one that it replaces."""

import contextlib
import os
import shutil
import stat
import sys
import tempfile
from functools import partial
from pathlib import Path
from typing import BinaryIO, Iterable, Iterator, Union

from trau.command_line.words import Refusal
from trau.command_line.ends import naming

STREAM = Path("-")  # standard input, or standard output
NEW_FILE, PRIVATE_FILE = 0o666, 0o600  # modes; the first one as the process masks it


@contextlib.contextmanager
def opened(path: Path) -> Iterator[BinaryIO]:
    """A file, or standard input, to be read. What fails in here is refused by the file's name."""
    if path == STREAM and sys.stdin is None:
        raise Refusal("standard input is closed")
    try:
        if path == STREAM:
            yield sys.stdin.buffer
        else:
            with open(path, "rb") as file:
                yield file
    except OSError as failure:
        raise Refusal(f"{path}: {failure.strerror}") from None


def read_file(path: Path) -> bytes:
    """The octets of a file, or of standard input."""
    with opened(path) as file:
        return file.read()


def read_part(path: Path, start: int, octets: int) -> bytes:
    """At most this many octets of a file, from one of them on."""
    with opened(path) as file:
        file.seek(start)
        return file.read(octets)


def opened_anew(part: str, flags: int, target: Path) -> int:
    """Opens a new file that will replace another, as a descriptor. It has that one's mode from the
    start, so that nobody reads in it what he couldn't read before."""
    if not target.exists():
        return os.open(part, flags, NEW_FILE)
    opened_part = os.open(part, flags, PRIVATE_FILE)
    os.fchmod(opened_part, stat.S_IMODE(target.stat().st_mode))
    return opened_part


def write_stream(chunks: Iterable[bytes]) -> None:
    """Writes to standard output, once all is made."""
    with tempfile.TemporaryFile() as made:
        made.writelines(chunks)
        made.seek(0)
        shutil.copyfileobj(made, sys.stdout.buffer)
    sys.stdout.buffer.flush()


def write_file(path: Path, content: Union[bytes, Iterable[bytes]], inputs: Iterable[Path]) -> None:
    """Writes a file as a whole or not at all, and never over one of the inputs; or writes to
    standard output. The content may be made as it is written."""
    chunks = [content] if isinstance(content, bytes) else content
    if path == STREAM:
        write_stream(chunks)
        return
    with naming(path):
        target = Path(os.path.realpath(path))
        part = target.with_name(f".{target.name}.{os.getpid()}.part")
        if target.exists():
            if not target.is_file():
                raise Refusal(f"{path}: isn't a file that can be written")
            # An input may be missing, as the uplink of a call without periods.
            if any(given.exists() and target.samefile(given) for given in inputs):
                raise Refusal(f"{path}: is an input, which isn't written over")
        with open(part, "xb", opener=partial(opened_anew, target=target)) as file:
            try:
                file.writelines(chunks)
                file.close()
                os.replace(part, target)
            except BaseException:
                part.unlink()
                raise
