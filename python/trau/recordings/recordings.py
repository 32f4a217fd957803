"""Recordings as they are read: files, standard input, and files that gzip packed, whose names end
with .gz."""

import gzip
import mmap
import os
import shlex
import tempfile
import zlib
from pathlib import Path
from typing import IO, BinaryIO, Iterable, Iterator, Union

from trau.command_line.files import STREAM, opened
from trau.command_line.words import Refusal
from trau.rules.slots import octets_from, octets_turned


BLOCK_OCTETS = 1 << 20
PACKED = ".gz"
# Of what comes from a pipe or was packed and is put into a file: some more than a day of an E1 line.
MOST_KEPT = 1 << 35


def name_within(path: Path) -> Path:
    """The name of what a packed file holds; of another file its own name."""
    return path.with_suffix("") if path.suffix == PACKED else path


def quoted(path: Path) -> str:
    """A file's name as a word of a command. Programs take a name that begins with - for an option."""
    name = str(path)
    return shlex.quote(f"./{name}" if name.startswith("-") else name)


def command_of_others(command: str, path: Path) -> str:
    """A command of another program, in which {} stands for the file. If gzip packed the file, it is
    unpacked first."""
    within = name_within(path)
    said = command.replace("{}", quoted(within))
    return said if within == path else f"gunzip -k {quoted(path)}; {said}"


def unpacked(path: Path, file: BinaryIO, partial: bool) -> Iterator[bytes]:
    """What gzip packed into a file, in blocks, as far as it goes where `partial` says so."""
    with gzip.GzipFile(fileobj=file) as packed:
        try:
            yield from iter(lambda: packed.read1(BLOCK_OCTETS), b"")
        except EOFError:
            if not partial:
                raise Refusal(f"{path}: ends too early; --partial takes what is there") from None
        except (gzip.BadGzipFile, zlib.error):
            raise Refusal(
                f"{path}: its name ends with {PACKED}, and gzip didn't pack it, or it is damaged"
            ) from None


def blocks_of(path: Path, partial: bool = False) -> Iterator[bytes]:
    """The octets of a recording, in blocks."""
    with opened(path) as file:
        if path.suffix == PACKED:
            yield from unpacked(path, file, partial)
        else:
            yield from iter(lambda: file.read(BLOCK_OCTETS), b"")


def refuse_read_once(name: Path) -> None:
    """Refuses standard input and pipes for what reads a recording twice."""
    what = "a recording is read twice, so it has to be a file"
    if name == STREAM:
        raise Refusal(f"standard input: {what}")
    if name.exists() and not (name.is_file() or name.is_dir() or name.is_block_device()):
        raise Refusal(f"{name}: isn't a file; {what}")


def mapped(path: Path, partial: bool = False) -> Union[bytes, mmap.mmap]:
    """The octets of a recording, which may be longer than the memory. What comes from a pipe, or
    was packed, is put into a file that has no name."""
    with opened(path) as file:
        if path.suffix != PACKED and path != STREAM and path.is_file():
            return map_of(file)
    with tempfile.TemporaryFile() as whole:
        whole.writelines(at_most(path, blocks_of(path, partial), MOST_KEPT))
        whole.flush()
        return map_of(whole)


def at_most(path: Path, blocks: Iterable[bytes], most: int) -> Iterator[bytes]:
    """Blocks of a recording that isn't longer: what was packed much would fill the disk."""
    octets = 0
    for block in blocks:
        octets += len(block)
        if octets > most:
            within = "holds" if path.suffix == PACKED else "has"
            raise Refusal(f"{path}: {within} more than {most:,} octets, which aren't kept")
        yield block


def map_of(file: IO[bytes]) -> Union[bytes, mmap.mmap]:
    """The octets of a file, mapped."""
    size = file.seek(0, os.SEEK_END)
    return mmap.mmap(file.fileno(), size, access=mmap.ACCESS_READ) if size else b""


def read_recording(path: Path, partial: bool = False) -> bytes:
    """The octets of a recording."""
    return b"".join(blocks_of(path, partial))


def aligned(blocks: Iterable[bytes], turned: bool, bit: int) -> Iterator[bytes]:
    """The octets of a recorded line, whose bits are in the other order if it is turned, from this
    bit of the first one on, in blocks."""
    rest = b""
    for block in blocks:
        octets = rest + (octets_turned(block) if turned else block)
        yield octets_from(octets, bit)
        rest = octets[-1:] if bit else b""


def slot_of(blocks: Iterable[bytes], number: int, of: int, skipped: int) -> bytes:
    """The octets of one slot of a recorded line, which may be longer than the memory: every `of`th
    one after the skipped ones."""
    parts, wanted = [], skipped + number
    for block in blocks:
        parts.append(block[wanted::of])
        behind = len(block) - wanted
        wanted = -behind if behind <= 0 else -behind % of
    return b"".join(parts)
