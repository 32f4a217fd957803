"""Proves and builds a program of this repository, for the kind of processor that this machine has (or TRAU_CPU names), or for both kinds: its
crates in a copy by `rt ci`, which builds for x86-64-v2, and over them the program for x86-64-v3.

It shows on standard error how many crates are done and the time so far: on a terminal by one line that moves, elsewhere by a line for each
crate. The toolchain's output goes to out/trau.log in the program's crate. Status 0: the program is proved and built. Status 1: it isn't, and the
log's last lines are printed. Status 2: something is missing, so nothing was begun.

If the program isn't built, or a source changed since, the script `trau` starts this. Started directly it builds anew; it doesn't prove
again what is kept.
"""

from __future__ import annotations


import contextlib
import fcntl
import os
import re
import shutil
import signal
import stat
import subprocess
import sys
import tempfile
import threading
import time
from pathlib import Path
from typing import Callable, Dict, Iterator, List, NoReturn, Optional, Sequence, Set, TextIO, Tuple

from trau.command_line.words import Refusal, Words
from trau.command_line.side_by_side import number_in, processors
from trau.command_line.ends import tool
from trau.command_line.files import read_file

TOP = Path(__file__).resolve().parents[3]
PROGRAM = "trau_program"
# The kinds of processor that a program is built for, by `rt ci` and by build_for.py.
FIRST = "x86-64-v2"
KIND = "x86-64-v3"

# Measured: the disk that a first start takes among the temporary files, and as much again where
# what it keeps lies on another disk; the memory of one crate's check.
DISK_OF_A_CRATE = 13_000_000
DISK_OF_THE_PROGRAM = 300_000_000
MEMORY_OF_A_CHECK = 2_500_000_000
# With less disk than this the toolchain keeps nothing.
DISK_TO_KEEP = 5_000 << 20

COPIED = ("src", "specs", "proofs", "data", "args", "stdin", "stdout", "status")


# What is to be built, and what there is to build it with


def crates_of(top: Path) -> Dict[str, List[str]]:
    """The crates of crates.txt, each with those of them that it names."""
    found: Dict[str, List[str]] = {}
    for line in read_file(top / "crates.txt").decode().splitlines():
        name, _, below = line.partition("#")[0].partition(":")
        if name.strip():
            found[name.split()[0]] = below.split()
    return {name: [each for each in below if each in found] for name, below in found.items()}


def needed(top: Path, program: str) -> List[str]:
    """The program and the crates that it stands on, directly or by others."""
    crates = crates_of(top)
    if program not in crates:
        raise Refusal(f"{top / 'crates.txt'}: has no line of {program}")
    found = [program]
    for name in found:
        found += [below for below in crates[name] if below not in found]
    return found


def free_memory() -> int:
    """The free memory in octets, within the limit of this process's group."""
    kilobytes = re.findall(r"MemAvailable:\s+(\d+)", Path("/proc/meminfo").read_text())
    found = 1024 * int(kilobytes[0])
    limit, used = number_in("/sys/fs/cgroup/memory.max"), number_in("/sys/fs/cgroup/memory.current")
    return min(found, limit - used) if limit and used else found


def asked_jobs() -> Optional[int]:
    """How many crates to prove side by side by TRAU_JOBS, if it is set."""
    asked = os.environ.get("TRAU_JOBS", "")
    if asked and not re.fullmatch(r"[1-9]\d?", asked, re.ASCII):
        raise Refusal(f"TRAU_JOBS is '{asked}', and takes 1 to 99")
    return int(asked) if asked else None


def jobs() -> int:
    """How many crates are proved side by side: TRAU_JOBS, or else as many as there are processors
    and memory for."""
    return asked_jobs() or max(1, min(processors(), free_memory() // MEMORY_OF_A_CHECK))


def gigabytes(octets: int) -> str:
    """A number of octets, in words."""
    return f"{octets / 1e9:.1f} GB"


def check_disk(top: Path, crates: Sequence[str]) -> str:
    """What is printed about the disk. Refuses if there is too little."""
    need = len(crates) * DISK_OF_A_CRATE + DISK_OF_THE_PROGRAM
    for folder in (Path(tempfile.gettempdir()), top):
        free = shutil.disk_usage(folder).free
        if free < need:
            raise Refusal(
                f"too little disk: this needs {gigabytes(need)}, and {folder} has {gigabytes(free)} left"
            )
    return f"it needs some {gigabytes(need)} of disk in {tempfile.gettempdir()}"


def kept_by(rt: str) -> Path:
    """The folder beside the toolchain in which it keeps what it proves, if it is one that does."""
    return Path(rt).resolve().parents[2] / "rattle-kept"


def what_is_kept(rt: str) -> Tuple[bool, str]:
    """Whether the toolchain can keep what it proves, by its own rules, and what is printed about
    it."""
    kept = kept_by(rt)
    try:
        found = kept.lstat()
        usable = stat.S_ISDIR(found.st_mode) and found.st_uid == os.geteuid()
    except FileNotFoundError:
        usable = os.access(kept.parent, os.W_OK)
    anew = "a start that is broken off, or that follows a change, begins anew"
    if not usable:
        return False, f"nothing is kept, since {kept} can't be written: {anew}"
    if shutil.disk_usage(kept if kept.exists() else kept.parent).free < DISK_TO_KEEP:
        return (
            False,
            f"nothing is kept, since {kept} has less than {gigabytes(DISK_TO_KEEP)} left: {anew}",
        )
    return True, f"what is proved is kept in {kept}"


# How far it is


class Progress:
    """Shows how many of the crates are done, and the time so far: on a terminal one line that
    moves, elsewhere a line for each crate."""

    def __init__(
        self, crates: int, stream: TextIO, clock: Callable[[], float] = time.monotonic
    ) -> None:
        self.crates, self.stream, self.clock = crates, stream, clock
        self.moves = stream.isatty()
        self.begun = clock()
        self.finished: Set[str] = set()
        self.functions = 0
        self.step = "reading all sources"
        self.ended = threading.Event()
        self.ticking = threading.Thread(target=self.tick, daemon=True)

    def __enter__(self) -> Progress:
        if self.moves:
            self.ticking.start()
        return self

    def __exit__(self, *_: object) -> None:
        self.ended.set()
        if self.moves:
            self.ticking.join()
            self.clear()

    def minutes(self) -> str:
        """The time passed, in minutes."""
        return "{}:{:02}".format(*divmod(int(self.clock() - self.begun), 60))

    def words(self) -> str:
        """How far the work is."""
        done = f"crate {len(self.finished)} of {self.crates}, functions {self.functions}"
        return f"{done}, {self.minutes()} minutes: {self.step}"

    def clear(self) -> None:
        """Removes the line that moves."""
        self.stream.write("\r\x1b[K")
        self.stream.flush()

    def tick(self) -> None:
        """Writes the line that moves, twice a second."""
        while not self.ended.wait(0.5):
            width = shutil.get_terminal_size().columns - 1
            self.stream.write("\r\x1b[K" + f"trau: {self.words()}"[:width])
            self.stream.flush()

    def at(self, step: str) -> None:
        """The work comes to a step."""
        self.step = step
        if not self.moves:
            self.say(self.words())

    def finish(self, crate: str) -> None:
        """A crate is proved, or was kept from an earlier start."""
        self.finished.add(crate)
        self.at(crate)

    def again(self) -> None:
        """The work begins anew."""
        self.finished.clear()

    def say(self, text: str) -> None:
        """Prints a line."""
        if self.moves:
            self.clear()
        print(f"trau: {text}", file=self.stream, flush=True)


# The work


class Toolchain:
    """Commands in a folder, all of whose output goes to a log."""

    def __init__(self, folder: Path, log: TextIO) -> None:
        self.folder = folder
        self.log = log

    def lines(self, *words: str, **more: str) -> Iterator[str]:
        """Runs a command, with this added to its environment, and gives its lines as they come; the
        last one is its status."""
        self.log.write(f"$ {' '.join(words)}\n")
        self.log.flush()
        with subprocess.Popen(
            words,
            cwd=self.folder,
            text=True,
            errors="replace",
            stdin=subprocess.DEVNULL,
            stdout=subprocess.PIPE,
            stderr=subprocess.STDOUT,
            env={**os.environ, **more},
        ) as ran:
            try:
                for line in ran.stdout or ():
                    self.log.write(line)
                    self.log.flush()
                    yield line.rstrip("\n")
            finally:
                if ran.poll() is None and sys.exc_info()[0] is not None:
                    ran.terminate()
        yield str(ran.returncode)


def functions_of(line: str) -> int:
    """How many functions a check proved, by its last line."""
    found = re.search(r"functions=(\d+)", line)
    return int(found[1]) if found else 0


class Crates:
    """Reads the output of `rt ci`: for each crate, at its end, `== NAME`, then the output of its
    check, and its verdict."""

    UNPROVED = re.compile(r"^\w+ \S+: (not proved|no proof)|^error|^rt: \w+ NOT PROVED$")
    PASSED_ON = re.compile(
        r"^rt: (note: .*(kept|the disk)|waiting for another|\S+ another run on this machine)"
    )

    def __init__(self, progress: Progress) -> None:
        self.progress = progress
        self.crate = ""  # whose output is read
        self.was_killed = False

    def read(self, line: str) -> None:
        """Reads a line."""
        verdict = re.fullmatch(r"rt: (\w+) (?:proved|is kept: .*)", line)
        if line.startswith("== "):
            self.crate = line[3:]
        elif line.startswith("logic=proved "):
            self.progress.functions += functions_of(line)
        elif verdict:
            self.progress.finish(verdict[1])
        elif line == "rt: run rt fmt in the crate's folder":
            self.progress.say(
                f"crates/{self.crate} isn't laid out as `rt fmt` does it: run that there"
            )
        elif self.UNPROVED.search(line):
            self.progress.say(line)
        elif self.PASSED_ON.search(line):
            self.progress.say(line[4:])
        self.was_killed = self.was_killed or "the check was killed" in line


def prove(rt: Toolchain, progress: Progress, at_once: Optional[int]) -> bool:
    """Proves all crates, and builds and runs the program: `at_once` crates side by side, or as many
    as `rt` chooses. If a check was killed, likely because memory ran out, it goes on with one crate
    at a time."""
    crates, status = Crates(progress), ""
    for line in rt.lines("rt", "ci", **({"RT_JOBS": str(at_once)} if at_once else {})):
        crates.read(line)
        status = line
    if status != "0" and crates.was_killed and at_once != 1:
        progress.say("a check was killed, likely out of memory; it goes on with one at a time")
        progress.again()
        return prove(rt, progress, 1)
    return status == "0"


def build_for(rt: Toolchain, progress: Progress, program: str) -> bool:
    """Proves and builds the program for KIND, over the crates below it, which are proved."""
    progress.at(f"the program for {KIND}")
    # Made by `rt ci` only if it built the program too.
    (rt.folder / "crates" / program / "out").mkdir(exist_ok=True)
    words = (
        sys.executable,
        str(TOP / "tools" / "build_for.py"),
        str(rt.folder),
        program,
        KIND,
    )
    status, counts = "", program not in progress.finished
    for line in rt.lines(*words):
        status = line
        if counts and line.startswith("logic=proved "):
            progress.functions += functions_of(line)
    if status == "0":
        progress.finished.add(program)
    else:
        progress.say(f"no program for {KIND} is built; the one for {FIRST} runs on all processors")
    return status == "0"


def copy_crates(top: Path, crates: Sequence[str], to: Path) -> None:
    """Copies the sources of these crates as a repository of its own, without must-fail edits and
    other crates."""
    lines = read_file(top / "crates.txt").decode().splitlines()
    names = [(line, line.partition("#")[0].partition(":")[0].split()) for line in lines]
    (to / ".git").mkdir(parents=True)
    (to / "crates.txt").write_text(
        "".join(f"{line}\n" for line, words in names if words and words[0] in crates)
    )
    if (top / "HANDLES").exists():
        shutil.copyfile(top / "HANDLES", to / "HANDLES")
    for crate in crates:
        for name in COPIED:
            part, copy = top / "crates" / crate / name, to / "crates" / crate / name
            if part.is_dir():
                shutil.copytree(part, copy)
            elif part.exists():
                shutil.copyfile(part, copy)


@contextlib.contextmanager
def without(crate: str, folder: Path) -> Iterator[None]:
    """Takes a crate out of a copy of crates, and puts it back at the end."""
    listed, place, aside = (
        folder / "crates.txt",
        folder / "crates" / crate,
        folder.with_name(f"{folder.name}-{crate}"),
    )
    lines = listed.read_text().splitlines(keepends=True)
    listed.write_text("".join(line for line in lines if line.partition(":")[0].split() != [crate]))
    place.rename(aside)
    yield
    aside.rename(place)
    listed.write_text("".join(lines))


def place(made: Path, to: Path) -> None:
    """Puts a program in its place in one step, since a run may have the earlier one open."""
    fresh = to.with_name(f"{to.name}.new")
    shutil.copyfile(made, fresh)
    fresh.chmod(0o755)
    os.replace(fresh, to)


@contextlib.contextmanager
def room() -> Iterator[Path]:
    """A folder for this start. Removes the folders of starts that were killed."""
    for left in Path(tempfile.gettempdir()).glob("trau-start-*"):
        number = re.match(r"trau-start-(\d+)-", left.name)
        if number and not Path("/proc", number[1]).exists():
            shutil.rmtree(left, ignore_errors=True)
    folder = Path(tempfile.mkdtemp(prefix=f"trau-start-{os.getpid()}-")).resolve()
    try:
        yield folder
    finally:
        shutil.rmtree(folder, ignore_errors=True)


def ask_script(top: Path, **words: str) -> Tuple[int, str]:
    """The status and the answer of the script `trau` to a question in its environment."""
    # (Another program, which TRAU_PROGRAM names, is none of this folder's.)
    ran = subprocess.run(
        [top / "trau"],
        env={**os.environ, "TRAU_PROGRAM": "", **words},
        stdin=subprocess.DEVNULL,
        stdout=subprocess.PIPE,
        text=True,
    )
    return ran.returncode, ran.stdout.strip()


def wait_for_others(held: TextIO, top: Path, kinds: Sequence[str]) -> bool:
    """Takes the lock of starts, and returns whether another start that held it has built the
    program for these kinds."""
    try:
        fcntl.flock(held, fcntl.LOCK_EX | fcntl.LOCK_NB)
        return False
    except BlockingIOError:
        print(
            "trau: another start proves and builds the program; this one waits for it",
            file=sys.stderr,
            flush=True,
        )
        fcntl.flock(held, fcntl.LOCK_EX)
        return all(ask_script(top, TRAU_IS_BUILT=kind)[0] == 0 for kind in kinds)
    except OSError:
        # Some file systems have no locks.
        return False


def show_failure(log: Path) -> int:
    """Shows the end of the log."""
    for line in log.read_text(errors="replace").splitlines()[-20:]:
        print(line, file=sys.stderr)
    print(
        f"trau: the program is not proved or not built; {log} has all that was said",
        file=sys.stderr,
    )
    return 1


def build_programs(
    rt: Toolchain, program: str, kinds: Sequence[str], progress: Progress
) -> List[str]:
    """Proves and builds the program for these kinds. Returns the kinds that were built: FIRST, if
    KIND alone was asked for and failed."""
    progress.at("reading all sources")
    with contextlib.nullcontext() if FIRST in kinds else without(program, rt.folder):
        if not prove(rt, progress, asked_jobs()):
            return []
    built = [kind for kind in kinds if kind == FIRST or build_for(rt, progress, program)]
    if built:
        return built
    progress.again()
    return [FIRST] if prove(rt, progress, asked_jobs()) else []


def build_in(
    folder: Path,
    top: Path,
    program: str,
    kinds: Sequence[str],
    out: Path,
    progress: Progress,
    said: TextIO,
) -> bool:
    """Proves and builds in a folder of its own, and puts the programs in their places."""
    sources = ask_script(top, TRAU_SUM="ask")[1]
    rt = Toolchain(folder / "trau", said)
    copy_crates(top, needed(top, program), rt.folder)
    built = build_programs(rt, program, kinds, progress)
    for kind in built:
        name = program if kind == FIRST else f"{program}.{kind}"
        made = rt.folder / "crates" / program / "out" / name
        if not made.exists():
            return False
        place(made, out / name)
    return (
        bool(built) and ask_script(top, TRAU_JUST_BUILT=sources, TRAU_KINDS=" ".join(built))[0] == 0
    )


def build(top: Path, program: str, kinds: Sequence[str], over_kept: bool) -> int:
    """Proves and builds the program for these kinds of processor."""
    crates = needed(top, program)
    found = shutil.which("rt")
    if not found:
        raise Refusal("the Rattle toolchain's command rt isn't on the path")
    at_once, disk, (keeps, kept) = jobs(), check_disk(top, crates), what_is_kept(found)
    if over_kept and not keeps:
        raise Refusal(kept)
    if over_kept and not kept_by(found).is_dir():
        raise Refusal(
            f"nothing is kept, since there is no {kept_by(found)}: not every toolchain keeps what it proves"
        )
    out = top / "crates" / program / "out"
    out.mkdir(exist_ok=True)
    log = out / "trau.log"
    with open(out / "trau.lock", "w") as held:
        if wait_for_others(held, top, kinds):
            return 0
        for line in (
            f"the program isn't built, or a source changed: its {len(crates)} crates are proved, {at_once} at a time, and then it is built",
            f"from nothing that takes long (docs/INSTALL.md has a measured time); {disk}",
            kept,
            f"what the toolchain says goes to {log}",
        ):
            print(f"trau: {line}", file=sys.stderr, flush=True)
        with open(log, "w", encoding="utf-8") as said, Progress(
            len(crates), sys.stderr
        ) as progress, room() as folder:
            built = build_in(folder, top, program, kinds, out, progress, said)
            words = f"{len(crates)} crates, functions {progress.functions}, {progress.minutes()} minutes"
    if not built:
        return show_failure(log)
    print(f"trau: proved and built: {words}", file=sys.stderr, flush=True)
    return 0


def stop(number: int, _: object) -> NoReturn:
    """Ends as control-C does, so that started processes end too."""
    raise KeyboardInterrupt(number)


@tool("trau", prints=False)
def main(words: Sequence[str]) -> int:
    """Runs the words of the command line, and returns the exit status."""
    parser = Words(__doc__)
    parser.add_argument(
        "--top", type=Path, default=TOP, metavar="FOLDER", help="the top of the repository"
    )
    parser.add_argument(
        "--program", default=PROGRAM, metavar="CRATE", help=f"the program's crate ({PROGRAM})"
    )
    parser.add_argument(
        "--both",
        action="store_true",
        help="build for both kinds of processor, and not for this machine's alone",
    )
    parser.add_argument(
        "--over-kept",
        action="store_true",
        help="begin only if the toolchain has kept what it proved",
    )
    asked = parser.parse_args(words)
    for number in (signal.SIGTERM, signal.SIGHUP):
        signal.signal(number, stop)
    top, status = asked.top.resolve(), 0
    kinds: Sequence[str] = (FIRST, KIND)
    if not asked.both:
        status, *kinds = ask_script(top, TRAU_KINDS="ask")
    try:
        # (Where TRAU_CPU is wrong, the script has said so.)
        return 2 if status else build(top, asked.program, kinds, asked.over_kept)
    except KeyboardInterrupt:
        print("trau: broken off; the next start goes on with what is kept", file=sys.stderr)
        return 130
