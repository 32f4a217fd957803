"""What the measuring programs share: what they need, the built programs, a folder for what they
make, the heading of their tables, and how they start."""

import argparse
import datetime
import os
import platform
import re
import shutil
import subprocess
import sys
import tempfile
from pathlib import Path
from typing import Callable, Sequence

from command import GNU_TIME, refusal, say

TOP = Path(__file__).resolve().parents[1]
PROGRAM = TOP / "crates" / "trau_program" / "out" / "trau_program"
BUILD = TOP / "tools" / "build.py"
KINDS = ("x86-64-v2", "x86-64-v3")

# The Debian packages of programs and headers.
PACKAGES = {
    "gcc": "gcc",
    "gsm.h": "libgsm1-dev",
    "spandsp.h": "libspandsp-dev",
    "strace": "strace",
    "taskset": "util-linux",
    GNU_TIME: "time",
    "toast": "libgsm-tools",
    "valgrind": "valgrind",
}


def output_of(*words: str) -> str:
    """What a command prints on standard output."""
    return subprocess.run(words, capture_output=True, text=True).stdout.strip()


def exists(name: str) -> bool:
    """Whether the machine has a program or a header."""
    if not name.endswith(".h"):
        return bool(shutil.which(name))
    words = ["gcc", "-E", "-include", name, "-x", "c", os.devnull]
    return bool(shutil.which("gcc")) and not subprocess.run(words, capture_output=True).returncode


def check_needs(*names: str) -> None:
    """Ends the measurement if programs or headers are missing."""
    missing = [name for name in names if not exists(name)]
    for name in missing:
        say(f"missing: {name}: apt-get install {PACKAGES[name]}")
    if missing:
        raise SystemExit(2)


def words_parser(text: str) -> argparse.ArgumentParser:
    """A parser of the words of the program that runs, whose help is this text."""
    name, layout = os.path.basename(sys.argv[0]), argparse.RawTextHelpFormatter
    return argparse.ArgumentParser(prog=f"bench/{name}", description=text, formatter_class=layout)


def heading(*more: str) -> str:
    """The day, the machine and its load now, and the command that is run, with more between."""
    day, load = datetime.date.today().isoformat(), os.getloadavg()[0]
    model = re.search(r"model name\s*: (.*)", Path("/proc/cpuinfo").read_text())
    processors = f"{os.cpu_count()} processors ({model[1] if model else platform.machine()})"
    machine = (processors, f"Linux {platform.release()}", f"load {load:.1f} at the start")
    command = " ".join([f"bench/{os.path.basename(sys.argv[0])}", *sys.argv[1:]])
    return f"On {day}, {', '.join((*machine, *more))}. By `{command}`.\n"


def is_built(kind: str) -> bool:
    """Whether the program for a kind of processor is built of the sources as they are."""
    return subprocess.run([TOP / "trau"], env={**os.environ, "TRAU_IS_BUILT": kind}).returncode == 0


def built_programs() -> list[Path]:
    """The program that TRAU_PROGRAM names, or else the one for x86-64-v2, and the one for x86-64-v3
    beside it if this processor runs it. Without TRAU_PROGRAM tools/build.py builds what isn't."""
    named = os.environ.get("TRAU_PROGRAM")
    if not named and not all(map(is_built, KINDS)):
        if subprocess.run([sys.executable, BUILD, "--both"]).returncode:
            raise refusal("tools/build.py can't build the program")
    first = Path(named or PROGRAM).absolute()
    second = first.with_name(f"{first.name}.{KINDS[1]}")
    # Without words its status is 1.
    runs = os.access(second, os.X_OK) and subprocess.run([second], capture_output=True)
    return [first, second] if runs and runs.returncode == 1 else [first]


class Place:
    """A folder of its own, with links to the programs in it."""

    def __init__(self, root: Path, programs: Sequence[Path]) -> None:
        self.root = root
        names = [f"trau.{kind}" for kind, _ in zip(KINDS, programs)]
        for name, program in zip(names, programs):
            (root / name).symlink_to(program)
        self.programs = [str(root / name) for name in names]
        self.program = self.programs[0]

    def folder(self, name: str) -> Path:
        path = self.root / name
        path.mkdir(exist_ok=True)
        return path


def start(text: str, needed: Sequence[str], measure: Callable[[Place, bool], int]) -> int:
    """Runs a measurement: it gets the place and whether small sizes do, prints its tables below the
    heading, and returns the exit status. The help is this text."""
    parser = words_parser(text)
    parser.add_argument("--quick", action="store_true", help="small sizes, to try it out")
    asked = parser.parse_args()
    check_needs(*needed)
    programs = built_programs()
    print(heading(), flush=True)
    with tempfile.TemporaryDirectory(prefix="trau-bench-") as root:
        return measure(Place(Path(root), programs), asked.quick)
