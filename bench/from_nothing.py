"""A command at the top of a fresh clone of the last commit, where the toolchain begins with nothing
kept, and what each crate takes of it.

A mount namespace of its own hides what the toolchain has kept on this machine: an empty folder lies
over it. So it needs root. Twice a second it looks which processes of the prover are at work; it may
miss what ran for less than half a second.
"""

import collections
import contextlib
import dataclasses
import os
import resource
import shutil
import subprocess
import sys
import tempfile
import time
from pathlib import Path
from typing import Iterator, Optional, Sequence

from command import refusal
from measurement import TOP, heading, output_of
from table import table, tenth, whole

TICK = os.sysconf("SC_CLK_TCK")
SECONDS_BETWEEN_LOOKS = 0.5
KINDS = ("proofs", "tests", "edits")
HEADS = ("crate", "from, minutes", "to", *(f"{kind}, s" for kind in KINDS), "together, s")
# Where rt tries an edit, below the folder for temporary files.
EDIT = "/rt-edit-"
HIDDEN = 'mount --bind "$1" "$2" && shift 2 && exec "$@"'


@contextlib.contextmanager
def fresh_clone() -> Iterator[Path]:
    """A folder that is removed afterwards, with the clone `trau`, a folder `tmp` for temporary
    files, and the empty folder `kept`."""
    with tempfile.TemporaryDirectory(prefix="trau-bench-") as made:
        root = Path(made).resolve()
        subprocess.run(["git", "clone", "--quiet", TOP, root / "trau"], check=True)
        # The toolchain runs programs below the temporary files as nobody, and keeps in a folder
        # that is its user's alone.
        for folder, mode in ((root, 0o711), (root / "tmp", 0o711), (root / "kept", 0o700)):
            folder.mkdir(exist_ok=True)
            folder.chmod(mode)
        yield root


def hiding(root: Path, words: Sequence[str]) -> Sequence[str]:
    """The words of a command that runs these with the folder's `kept` in place of what the
    toolchain has kept."""
    kept = Path(shutil.which("rt") or "").resolve().parents[2] / "rattle-kept"
    kept.mkdir(mode=0o700, exist_ok=True)
    return ["unshare", "--mount", "sh", "-c", HIDDEN, "sh", str(root / "kept"), str(kept), *words]


@dataclasses.dataclass
class Process:
    """A process of the prover: its crate and what it does with it, the minutes at which it was
    first and last seen, and its processor seconds."""

    crate: str
    kind: str
    first: float
    last: float
    seconds: float


# By their numbers and the ticks at which they began.
Processes = dict[tuple[str, str], Process]


def seen(number: str, root: Path, minutes: float) -> Optional[tuple[str, Process]]:
    """When a process began, and what it is now, if it is one of the prover below a folder."""
    words = Path(f"/proc/{number}/cmdline").read_bytes().decode(errors="replace").split("\0")
    folder = os.readlink(f"/proc/{number}/cwd")
    if "--crate-name" not in words or not folder.startswith(str(root)):
        return None
    kind = "edits" if EDIT in folder else "tests" if "--test" in words else "proofs"
    fields = Path(f"/proc/{number}/stat").read_text().rpartition(")")[2].split()
    seconds = (int(fields[11]) + int(fields[12])) / TICK
    crate = words[words.index("--crate-name") + 1]
    return fields[19], Process(crate, kind, minutes, minutes, seconds)


def look(root: Path, processes: Processes, minutes: float) -> None:
    """Notes what the processes of the prover have used."""
    for number in filter(str.isdigit, os.listdir("/proc")):
        with contextlib.suppress(OSError):  # it has ended meanwhile
            found = seen(number, root, minutes)
            if found:
                began, process = found
                process.first = processes.get((number, began), process).first
                processes[number, began] = process


def crate_row(crate: str, of_it: Sequence[Process]) -> tuple[str, ...]:
    seconds = [sum(each.seconds for each in of_it if each.kind == kind) for kind in KINDS]
    first, last = min(each.first for each in of_it), max(each.last for each in of_it)
    return (f"`{crate}`", tenth(first), tenth(last), *map(whole, (*seconds, sum(seconds))))


def crates_table(processes: Sequence[Process]) -> str:
    """What each crate took, and all together, in the order in which they were begun."""
    by_crate = collections.defaultdict(list)
    for process in sorted(processes, key=lambda each: each.first):
        by_crate[process.crate].append(process)
    rows = [crate_row(*each) for each in by_crate.items()]
    return table(HEADS, [*rows, crate_row("all", processes)] if rows else [])


def disk_of(folder: Path) -> float:
    """The disk that a folder takes, in GB."""
    return int(output_of("du", "-s", "--block-size=1", str(folder)).split()[0]) / 1e9


def sampled(words: Sequence[str], root: Path, held: Sequence[int]) -> tuple[int, str]:
    """The status of a command in the clone, on these processors, and what it took."""
    names = {name: text for name, text in os.environ.items() if not name.startswith("TRAU_")}
    begun = time.monotonic()
    processes: Processes = {}
    command = subprocess.Popen(
        words,
        cwd=root / "trau",
        stdin=subprocess.DEVNULL,
        stdout=sys.stderr,
        env={**names, "CI": "true", "TMPDIR": str(root / "tmp")},
        preexec_fn=lambda: os.sched_setaffinity(0, held),
    )
    while command.poll() is None:
        look(root, processes, (time.monotonic() - begun) / 60)
        time.sleep(SECONDS_BETWEEN_LOOKS)
    minutes, children = (time.monotonic() - begun) / 60, resource.getrusage(
        resource.RUSAGE_CHILDREN
    )
    processor, memory = (children.ru_utime + children.ru_stime) / 60, children.ru_maxrss / 1e6
    return command.returncode, (
        f"Status {command.returncode} after {tenth(minutes)} minutes, {tenth(processor)} of "
        f"processor time; {tenth(disk_of(root))} GB of disk at the end, {tenth(memory)} GB of "
        f"memory at most in one process.\n\n{crates_table([*processes.values()])}"
    )


def measure(words: Sequence[str], processors: int, hides: bool = True) -> int:
    """Prints what a command takes on this many processors, and returns its status. What the
    toolchain has kept is hidden, or not."""
    if not shutil.which("rt"):
        raise refusal("it needs the toolchain's command rt on the path")
    if hides and os.geteuid():
        raise refusal("it needs root, to hide what is kept")
    held = sorted(os.sched_getaffinity(0))[:processors]
    commit = output_of("git", "-C", str(TOP), "log", "-1", "--format=%h")
    used = f"{len(held)} processors used"
    print(heading(used, output_of("rt", "version"), f"commit {commit}"), flush=True)
    with fresh_clone() as root:
        status, text = sampled(hiding(root, words) if hides else words, root, held)
    print(text, end="")
    return status
