"""The codec: both programs beside libgsm, spandsp and toast on the same frames, in turns."""

import dataclasses
import functools
import re
import subprocess
from typing import Callable, Mapping, Sequence

from command import Command, by_unit, least, say
from measurement import KINDS, TOP, Place
from speech import alaw_of, gsm_frames, recorded, samples_of
from table import microseconds, ratio, table, whole

PEERS = {"libgsm": "libgsm `gsm_{}`", "spandsp": "spandsp `gsm0610_{}`, 33 octets a frame"}
OURS = "A-law and frames of 40 octets"
TOASTS = "A-law and frames of 33 octets; files"
IN_MEMORY = "samples of 16 bits and frames of 33 octets, in memory"
COSTS = ("instructions a frame", "ratio", "processor time a frame, us", "ratio")

# The functions for files: the system's calls, the standard library's opening of files, the lines as
# files, and whole transfers with what the compiler joined into them. The clearing and copying of
# memory isn't among them, since the codec's is counted with it.
FOR_FILES = re.compile(
    r"^(open|close|lseek|read|write)$"
    r"|^std::fs::"
    r"|^trau_files::trunk::"
    r"|^trau_io::transfer::(read_block|write_all)\b"
)


# Makes of what a coder wrote the form in which all are compared.
Form = Callable[[bytes], bytes]


def as_it_is(octets: bytes) -> bytes:
    return octets


@dataclasses.dataclass(frozen=True)
class Way:
    """A command over one line: its name, the line that it reads and the one that it writes; and the
    program of libgsm that does the same."""

    name: str
    side: str
    made: str
    toast: str = ""


ENCODE = Way("encode", "pcm", "down", "toast")
DECODE = Way("decode", "up", "out", "untoast")
RELAY = Way("relay", "up", "down")


@dataclasses.dataclass(frozen=True)
class Coder:
    """A coder: its name, what it reads and writes, its command over so many frames, and the form in
    which its frames are compared."""

    name: str
    forms: str
    command_of: Callable[[int], Command]
    compared: Form = as_it_is


@dataclasses.dataclass(frozen=True)
class Sizes:
    """The frames of the timed commands, how many turns these take, and the two lengths between
    which instructions are counted."""

    frames: int
    turns: int
    counted: tuple[int, int]


def peers_program(place: Place) -> str:
    """The program that runs the peers' codecs over frames in memory, compiled once."""
    made = place.root / "peers"
    if not made.exists():
        words = ["gcc", "-O2", "-Wall", "-o", str(made), str(TOP / "bench" / "peers.c")]
        subprocess.run([*words, "-lgsm", "-lspandsp"], check=True)
    return str(made)


def ours(place: Place, program: str, way: Way, count: int) -> Command:
    """A program on a line of this many frames."""
    folder = place.folder(f"{way.name}-{program[-2:]}-{count}")
    (folder / f"7.{way.side}").write_bytes(recorded(way.side, count))
    return Command((program, way.name, "7"), folder, makes=(f"7.{way.made}",))


def peer(place: Place, name: str, way: Way, count: int) -> Command:
    """The codec of a peer on the same frames."""
    folder, line = place.folder(f"{way.name}-{name}-{count}"), recorded(way.side, count)
    (folder / "in").write_bytes(samples_of(line) if way is ENCODE else gsm_frames(line))
    words = (peers_program(place), name, way.name, "in", "made")
    return Command(words, folder, makes=("made",))


def toast(place: Place, way: Way, count: int) -> Command:
    """The program of libgsm on the same frames."""
    folder, line = place.folder(f"{way.name}-{way.toast}-{count}"), recorded(way.side, count)
    (folder / "in").write_bytes(line if way is ENCODE else gsm_frames(line))
    return Command((way.toast, "-a"), folder, "in", "made")


def coders(place: Place, way: Way) -> list[Coder]:
    """All that are compared, the program for x86-64-v2 first."""
    from_ours, from_samples = (gsm_frames, as_it_is) if way is ENCODE else (as_it_is, alaw_of)
    found = []
    for kind, program in zip(KINDS, place.programs):
        command_of = functools.partial(ours, place, program, way)
        found.append(Coder(f"`trau {way.name}`, {kind}", f"{OURS}; files", command_of, from_ours))
    for name, text in PEERS.items():
        command_of = functools.partial(peer, place, name, way)
        found.append(Coder(text.format(way.name), IN_MEMORY, command_of, from_samples))
    command_of = functools.partial(toast, place, way)
    return [*found, Coder(f"`{way.toast} -a`", TOASTS, command_of)]


def instructions(place: Place, way: Way, counted: tuple[int, int]) -> dict[str, float]:
    """Our instructions for one frame, by function."""
    return by_unit(functools.partial(ours, place, place.program, way), *counted)


def without_files(by_function: Mapping[str, float]) -> float:
    """The instructions of all functions but those for files."""
    return sum(cost for name, cost in by_function.items() if not FOR_FILES.search(name))


def differing(found: Sequence[Coder], frames: int) -> list[str]:
    """The coders whose last output over so many frames isn't that of the first."""
    made = [each.compared(each.command_of(frames).made()[0].read_bytes()) for each in found]
    return [each.name for each, octets in zip(found, made) if octets != made[0]]


def coded(place: Place, way: Way, sizes: Sizes) -> tuple[str, list[str]]:
    """The table of a way, and the coders whose frames differ from ours."""
    say(f"the codec: {way.name}")
    found = coders(place, way)
    commands = [each.command_of(sizes.frames) for each in found]
    times = [each.processor / sizes.frames for each in least(commands, sizes.turns)]
    counts = [by_unit(each.command_of, *sizes.counted) for each in found]
    sums = [sum(count.values()) for count in counts]
    rows = [
        (coder.name, coder.forms, whole(count), ratio(count, sums[0]))
        + (microseconds(time), ratio(time, times[0]))
        for coder, count, time in zip(found, sums, times)
    ]
    codec = without_files(counts[0])
    first = ("the first without its files", OURS, whole(codec), ratio(codec, sums[0]), "", "")
    rows.insert(1, first)
    return table((way.name, "what is in it", *COSTS), rows), differing(found, sizes.frames)


def functions_table(what: str, by_function: Mapping[str, float]) -> str:
    """The functions that cost a hundredth of the whole or more, and the rest as one line."""
    all_of_them = sum(by_function.values())
    dear = [pair for pair in by_function.items() if pair[1] * 100 >= all_of_them]
    rows = [(f"`{name}`", whole(cost)) for name, cost in sorted(dear, key=lambda pair: -pair[1])]
    rest = all_of_them - sum(cost for _, cost in dear)
    together = [("all others", whole(rest)), ("together", whole(all_of_them))]
    return table((what, "instructions"), [*rows, *together])
