"""Packs the proved program: a tarball with the program for x86-64-v2 and for x86-64-v3, the scripts, man pages, word completion for bash,
the documents, the examples, the Python package with its commands, the C libraries, SHA256SUMS and a script `install`. With --deb it makes
Debian packages too. The installed program needs only the system's C library; the other commands need Python 3.

tools/build.py proves and builds the programs, and clib/build the library; both come first if a source changed. If TRAU_PROGRAM names the program,
or there is no C compiler, a library that isn't built yet is left out, as --without-library leaves out any. The same sources, program and
library give the same octets. The version is that of docs/CHANGELOG.md.
"""

import gzip
import hashlib
import io
import os
import re
import shutil
import subprocess
import sys
import tarfile
from pathlib import Path
from typing import Dict, NamedTuple, Sequence

from trau import programs
from trau.packing import man_pages
from trau.packing import trau_deb
from trau.packing import trau_words
from trau.command_line.words import Refusal, Words, option, switch
from trau.command_line.ends import tool
from trau.command_line.files import read_file, write_file

TOP = Path(__file__).resolve().parents[3]
PROGRAM = TOP / "crates" / "trau_program" / "out" / "trau_program"
# The kinds of processor that a program is packed for; the name of the second one's ends in its
# kind.
FIRST, KIND = "x86-64-v2", "x86-64-v3"

# What clib/build makes: the folder, and its files, first those of each library.
LIBRARY = TOP / "clib" / "out"
V3 = "glibc-hwcaps/x86-64-v3"
FILES_OF_LIBRARY = (
    "include/{name}.h",
    "lib/lib{name}.a",
    "lib/lib{name}.so",
    "lib/lib{name}.so.1",
    f"lib/{V3}/lib{{name}}.so.1",
    "lib/pkgconfig/{name}.pc",
)
LIBRARY_FILES = (
    *(file.format(name=each.name) for each in trau_deb.C_LIBRARIES for file in FILES_OF_LIBRARY),
    *("lib/trau-gsm/libgsm.so.1", f"lib/trau-gsm/{V3}/libgsm.so.1"),
    *("lib/trau-gateway/libtrau_pump.so.1", f"lib/trau-gateway/{V3}/libtrau_pump.so.1"),
)

SCRIPTS = ("trau", "demo")
# The commands of the Python package, as pip installs them. Each is a file beside it, in the folder
# in which Python then looks for it first, whatever the environment says (-E).
COMMANDS = {f"trau-{name}": name for name in programs.COMMANDS}
COMMAND_TEXT = """{python}E
import sys

from trau.programs import {name}

sys.exit({name}())
"""
# What is packed of folders: the files that git knows there and that have such names. Of tools/ it
# isn't what proves, builds, packs and needs suite/; tests/data has recordings that commands in documents take.
FOLDERS = {
    "tools": r"(?!build|check|trau_)\w+\.(py|txt)",
    "python/trau": r".*",
    "gateway": r"(?!tests/).*",
    "examples": r"README\.md|7\.up|farm/(\d+\.(up|pcm)|orders\.txt|wanted/[\w.]+)",
    "tools/tests/data": r".*",
}
# The first line of a program in the repository.
PYTHON = b"#!/usr/bin/env python3\n"


class PackagedFile(NamedTuple):
    """A file of the package: its content, and whether it is a program."""

    content: bytes
    runs: bool = False


class State(NamedTuple):
    """What is packed: the commit's short name and date, and the seconds since 1970 that all files
    have."""

    commit: str
    date: str
    seconds: int

    def name(self) -> str:
        """The name of the package."""
        return f"trau-{self.date.replace('-', '')}-{self.commit}-{os.uname().machine}"


def git(*words: str) -> str:
    """What git says of this repository."""
    try:
        ran = subprocess.run(
            ["git", "-C", str(TOP), *words], capture_output=True, text=True, check=True
        )
    except (OSError, subprocess.CalledProcessError):
        raise Refusal(f"{TOP}: git doesn't know the state of this repository") from None
    return ran.stdout.strip()


def state_of_repository() -> State:
    """The state that is packed. Files that git doesn't know aren't packed, and a changed file shows
    in the name."""
    commit, date, seconds = git("log", "-1", "--format=%h %cs %ct").split()
    changed = "-changed" if git("status", "--porcelain", "--untracked-files=no") else ""
    return State(commit + changed, date, int(seconds))


def is_built(kind: str) -> bool:
    """Whether the program for a kind of processor is built of the sources as they are."""
    return subprocess.run([TOP / "trau"], env={**os.environ, "TRAU_IS_BUILT": kind}).returncode == 0


def proved_programs() -> Dict[str, bytes]:
    """The programs by their names in the package: the one for x86-64-v2, which any machine runs,
    and the one for the other kind. Unless TRAU_PROGRAM names one, tools/build.py proves and builds
    both, if one of them isn't built."""
    named = os.environ.get("TRAU_PROGRAM")
    if not named and not (is_built(FIRST) and is_built(KIND)):
        subprocess.run(
            [sys.executable, TOP / "tools" / "build.py", "--both"], stdin=subprocess.DEVNULL
        )
    if not named and not is_built(FIRST):
        raise Refusal("there is no program that is proved and built")
    found = {PROGRAM.name: read_file(Path(named or PROGRAM))}
    if not found[PROGRAM.name].startswith(trau_deb.ELF):
        raise Refusal(f"{named or PROGRAM}: isn't a built program")
    if is_given():
        return found
    if is_built(KIND):
        second = f"{PROGRAM.name}.{KIND}"
        found[second] = read_file(PROGRAM.with_name(second))
    else:
        print(
            f"package: no program for {KIND} is built, so none is packed; tools/build.py --both builds it",
            file=sys.stderr,
        )
    return found


def is_given() -> bool:
    """Whether TRAU_PROGRAM names another program than the one that is proved and built here."""
    given = os.environ.get("TRAU_PROGRAM", "")
    return given != "" and Path(given).resolve() != PROGRAM.resolve()


def library_is_built() -> bool:
    """Whether the library is built of the sources as they are."""
    return (
        subprocess.run(
            [TOP / "clib" / "build"], env={**os.environ, "TRAU_IS_BUILT": "ask"}
        ).returncode
        == 0
    )


def proved_library() -> Dict[str, bytes]:
    """The files of the C library. If it isn't built, clib/build proves and builds it, or it is left
    out."""
    folder = Path(os.environ.get("TRAU_CLIB") or LIBRARY)
    if folder == LIBRARY and not library_is_built():
        if is_given() or not shutil.which(os.environ.get("CC", "cc")):
            return {}
        if subprocess.run([TOP / "clib" / "build"], stdin=subprocess.DEVNULL).returncode:
            raise Refusal("there is no C library that is proved and built")
    return {f"{trau_deb.BUILT}{name}": read_file(folder / name) for name in LIBRARY_FILES}


def origin() -> str:
    """The kit that everything was proved with. Whether a given program or library was proved isn't
    known here."""
    if is_given():
        return "with a program that TRAU_PROGRAM named"
    if os.environ.get("TRAU_CLIB"):
        return "with a C library that TRAU_CLIB named"
    try:
        return (
            "proved with "
            + subprocess.run(
                ["rt", "version"], capture_output=True, text=True, check=True
            ).stdout.strip()
        )
    except (OSError, subprocess.CalledProcessError):
        raise Refusal(
            "the Rattle toolchain's command rt isn't on the path, so its kit isn't known"
        ) from None


def files_below(folder: Path) -> Dict[str, Path]:
    """The files that git knows below a folder, by their names in it."""
    names = git("ls-files", "-z", "--", str(folder)).split("\0")
    return {str((TOP / name).relative_to(folder)): TOP / name for name in names if name}


def documents() -> Dict[str, Path]:
    """README.md and all files that its links lead to, directly or through other documents:
    documents, pictures and sources."""
    found: Dict[str, Path] = {}
    waiting = [TOP / "README.md"]
    while waiting:
        path = waiting.pop()
        name = str(path.relative_to(TOP))
        if name not in found and path.is_file():
            found[name] = path
            links = (
                re.findall(r"\]\(([^)#:\s]+)[^):]*\)", path.read_text())
                if path.suffix == ".md"
                else ()
            )
            waiting += [Path(os.path.normpath(path.parent / link)) for link in links]
    return found


def commands(state: State) -> Dict[str, PackagedFile]:
    """The commands of the Python package, and the man pages of all commands."""
    version = f"trau {state.commit}"
    pages = {"trau": trau_words.man_page(version, state.date)}
    found = {}
    for command, name in COMMANDS.items():
        pages[command] = man_pages.man_page(command, version, state.date)
        text = COMMAND_TEXT.format(python=trau_deb.PACKED_PYTHON.decode(), name=name)
        found[f"python/{command}"] = PackagedFile(text.encode(), True)
    found.update((f"man/{name}.1", PackagedFile(page.encode())) for name, page in pages.items())
    return found


def of_folders() -> Dict[str, PackagedFile]:
    """What is packed of folders. Their programs keep nothing compiled."""
    found = {}
    for folder, packed in FOLDERS.items():
        for name, path in files_below(TOP / folder).items():
            if re.fullmatch(packed, name):
                content = read_file(path)
                runs = content.startswith(PYTHON)
                if runs:
                    content = trau_deb.PACKED_PYTHON + b"\n" + content[len(PYTHON) :]
                found[f"{folder}/{name}"] = PackagedFile(content, runs)
    return found


def members(state: State, library: Dict[str, bytes]) -> Dict[str, PackagedFile]:
    """The files of the package, by their names in it, with these of the C library."""
    found = {name: PackagedFile(read_file(TOP / name), True) for name in SCRIPTS}
    found["install"] = PackagedFile(read_file(TOP / "tools" / "install"), True)
    found.update((name, PackagedFile(content, True)) for name, content in proved_programs().items())
    found["VERSION"] = PackagedFile(f"trau {state.commit} of {state.date}, {origin()}\n".encode())
    found["trau.bash"] = PackagedFile(trau_words.completion().encode())
    found.update(commands(state))
    found.update(of_folders())
    found.update((name, PackagedFile(content)) for name, content in library.items())
    found["clib/with"] = PackagedFile(read_file(TOP / "clib" / "with"), True)
    for name, path in documents().items():
        found.setdefault(name, PackagedFile(read_file(path)))
    sums = [
        f"{hashlib.sha256(member.content).hexdigest()}  {name}\n"
        for name, member in sorted(found.items())
    ]
    found["SHA256SUMS"] = PackagedFile("".join(sums).encode())
    return found


def tarball(state: State, found: Dict[str, PackagedFile]) -> bytes:
    """The octets of the package."""
    packed, zipped = io.BytesIO(), io.BytesIO()
    with tarfile.open(fileobj=packed, mode="w", format=tarfile.USTAR_FORMAT) as tar:
        for name, member in sorted(found.items()):
            info = tarfile.TarInfo(f"{state.name()}/{name}")
            info.size, info.mtime = len(member.content), state.seconds
            info.mode = 0o755 if member.runs else 0o644
            tar.addfile(info, io.BytesIO(member.content))
    with gzip.GzipFile(fileobj=zipped, mode="wb", mtime=state.seconds, filename="") as file:
        file.write(packed.getvalue())
    return zipped.getvalue()


@tool("package")
def main(words: Sequence[str]) -> int:
    """Runs the words of the command line, and returns the exit status."""
    parser = Words(
        __doc__,
        option("folder", type=Path, metavar="FOLDER", help="the folder to write the package to"),
        switch("--deb", "make Debian packages too, with dpkg-deb"),
        switch("--without-library", "leave the C library out"),
        prog="package",
    )
    asked = parser.parse_args(words)
    if not asked.folder.is_dir():
        raise Refusal(f"{asked.folder}: isn't a folder")
    state = state_of_repository()
    found = members(state, {} if asked.without_library else proved_library())
    made = {f"{state.name()}.tar.gz": tarball(state, found)}
    if asked.deb:
        author = git("log", "-1", "--format=%an <%ae>")
        made.update(
            trau_deb.packages(
                {name: member.content for name, member in found.items()}, author, state.seconds
            )
        )
    if not any(name.startswith(trau_deb.BUILT) for name in found):
        print(
            "package without the C library"
            + ("" if asked.without_library else ", which isn't built")
        )
    for name, content in made.items():
        write_file(asked.folder / name, content, [])
        print(
            f"package {asked.folder / name} octets {len(content)} sha256 {hashlib.sha256(content).hexdigest()}"
        )
    return 0
