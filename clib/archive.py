#!/usr/bin/env python3
"""Builds a static library over what `rt ci` has just proved: FOLDER/x86-64-v2.a and FOLDER/x86-64-v3.a.

Of each crate `rt ci` leaves the statements, in crates/NAME/out/rlib. `rt lib` takes no such library and proves the codec once more, so
here the toolchain's `rattle` is called: it checks the crate alone, against these statements, and compiles it. The check for the second kind
of processor begins with what the first one kept, in this call.
"""

import argparse
import os
import shutil
import subprocess
import sys
import tempfile
from pathlib import Path
from typing import List, NoReturn

from trau.packing import build

TOP = Path(__file__).resolve().parents[1]

KINDS = ("x86-64-v2", "x86-64-v3")


def fail(why: str) -> NoReturn:
    print(f"clib/archive.py: {why}", file=sys.stderr)
    sys.exit(2)


def kit() -> Path:
    """The folder of the toolchain whose `rt` is on the path."""
    found = shutil.which("rt")
    if not found:
        fail("the Rattle toolchain's command rt isn't on the path")
    return Path(os.path.realpath(found)).parents[1]


def library(tools: Path, name: str) -> Path:
    """The library of the statements of a crate, of this repository or of the toolchain."""
    if (TOP / "crates" / name).is_dir():
        found = TOP / "crates" / name / "out" / "rlib" / f"{name}.rlib"
    else:
        found = tools / "rlibs" / f"{name}.rlib"
    if not found.exists():
        fail(f"there is no {found}: rt ci leaves it")
    return found


def below(crate: str) -> List[str]:
    """The crates that a crate's line of crates.txt names, those of the toolchain too."""
    for line in (TOP / "crates.txt").read_text().splitlines():
        name, _, names = line.partition("#")[0].partition(":")
        if name.split()[:1] == [crate]:
            return names.split()
    fail(f"crates.txt has no line of {crate}")


def words(tools: Path, crate: str, work: str) -> List[str]:
    """The words of `rattle build` but those on the kind of processor and on what is written."""
    said = [
        "build",
        "--crate-name",
        crate,
        "src/lib.rt",
        "--crate-type",
        "staticlib",
        "--links",
        f"{crate}=",
        "--jobs",
        "1",
    ]
    said += ["--backend", "llvm", "--toolchain", str(tools / "toolchain"), "--incremental", work]
    said += [
        "--antt-project",
        str(tools / "rattle" / "logic" / "antt-project.json"),
        "--logic-built",
        str(tools / "logic_built"),
    ]
    said += [
        "--extern",
        f"std={tools / 'rlibs' / 'std.rlib'}",
        "-L",
        f"dependency={tools / 'rlibs'}",
    ]
    for name in below(crate):
        said += ["--extern", f"{name}={library(tools, name)}"]
    for name in build.needed(TOP, crate)[1:]:
        said += ["-L", f"dependency={library(tools, name).parent}"]
    return said


def main() -> int:
    parser = argparse.ArgumentParser(
        prog="clib/archive.py", description=__doc__, formatter_class=argparse.RawTextHelpFormatter
    )
    parser.add_argument("crate", metavar="CRATE", help="the crate of the library")
    parser.add_argument("folder", metavar="FOLDER", type=Path, help="the folder of the two files")
    given = parser.parse_args()
    to, tools = given.folder.resolve(), kit()
    with tempfile.TemporaryDirectory() as work:
        for kind in KINDS:
            command = [
                str(tools / "bin" / "rattle"),
                *words(tools, given.crate, work),
                f"--cpu={kind}",
                "-o",
                str(to / f"{kind}.a"),
            ]
            status = subprocess.run(
                command, cwd=TOP / "crates" / given.crate, stdin=subprocess.DEVNULL
            ).returncode
            if status:
                return status
    return 0


if __name__ == "__main__":
    sys.exit(main())
