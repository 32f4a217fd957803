"""Debian packages of the files that a tarball has, made by dpkg-deb: `trau`, and of each C library
the one that programs need and the one that compilers need, as `libtrau-fr1` and `libtrau-fr-dev`.

What runs lies below /usr/lib/trau, with links in /usr/bin; documents lie below /usr/share/doc/trau.
The C libraries lie where the system's loader and compilers look for them, and libgsm's interface in
a folder of its own beside them, so that no program takes it unasked.
"""

import gzip
import hashlib
import os
import re
import subprocess
import tempfile
import time
from pathlib import Path
from typing import Dict, List, NamedTuple, Tuple

from trau.packing import trau_words
from trau.command_line.words import Refusal
from trau.command_line.files import read_file

TOP = Path(__file__).resolve().parents[3]
CHANGELOG = "docs/CHANGELOG.md"
CHANGE_WIDTH = 74
HOME = "usr/lib/trau"
DOCUMENTS = "usr/share/doc/trau"
MACHINES = {"x86_64": "amd64", "aarch64": "arm64"}

# Where the system's libraries lie, and where the tarball has those that clib/build made.
LIBRARIES = f"usr/lib/{os.uname().machine}-linux-gnu"
BUILT = "clib/out/"
LOOP = f"{BUILT}lib/trau-gateway/"  # of the gateway, and so of the program's package

# How the first lines of programs begin in a tarball and in Debian's package. A packed program keeps
# nothing compiled: it would lie among the package's files, and stay when they are removed.
PACKED_PYTHON = b"#!/usr/bin/env -S python3 -B"
SYSTEMS_PYTHON = b"#!/usr/bin/python3 -B"
# How a built program begins.
ELF = b"\x7fELF"

# Of the C library that the program is linked with.
DEPENDS = "libc6 (>= 2.34)"

CONTROL = """Package: {name}
Version: {version}
Architecture: {machine}
Maintainer: {author}
Installed-Size: {size}
{fields}
Priority: optional
Description: {description}
"""

PROGRAM = f"""Depends: {DEPENDS}
Recommends: python3 (>= 3.9), libtrau-fr1
Suggests: python3-dpkt
Section: comm"""

PROGRAM_DESCRIPTION = """GSM transcoder and rate adaptor unit, on recorded lines
 Turns the TRAU frames of recorded 16 kbit/s lines (GSM 08.60) into A-law or
 mu-law octets (G.711) and back, for up to 4,096 calls, with the full rate
 codec (GSM 06.10), frames for lost speech, comfort noise and bridges.
 .
 What it writes is proved: however many threads work the calls, it is octet
 for octet what a definition gives for its input."""

SHARED = """Source: trau
Depends: libc6 (>= 2.14)
Multi-Arch: same
Section: libs"""

HEADERS = """Source: trau
Depends: {shared} (= {version})
Multi-Arch: same
Section: libdevel"""

HEADERS_PARAGRAPH = """
 .
 This package has the header, the static library and the file of pkg-config."""

COPYRIGHT = """Files: all
No licence has been chosen for this software. Nobody but its authors has leave
to copy, change or distribute it.

Copyright {year} {author}
"""


# For lintian: the program is packed as it was proved and built, octet for octet.
OVERRIDE = "trau: unstripped-binary-or-object [{}]\n"

# What dpkg does before the programs go: what Python compiled, where the superuser imported the
# package, would stay.
PRERM = """#!/bin/sh
set -e
find /usr/lib/trau/python -name __pycache__ -prune -exec rm -rf {} +
"""

# What dpkg does once a library has come, and how packages that are built with it depend on it.
TRIGGERS = "activate-noawait ldconfig\n"
SHLIBS = "lib{name} 1 {shared} (>= {version})\n"


class Library(NamedTuple):
    """A C library: its name, what shared libraries its package has (a pattern), and what is said of
    it, and of what its package has beside it."""

    name: str
    built: str
    synopsis: str
    description: str
    beside: str = ""

    def shared(self) -> str:
        """The name of the package of the shared library."""
        return f"lib{self.name.replace('_', '-')}1"

    def headers(self) -> str:
        """The name of the package of the header."""
        return f"lib{self.name.replace('_', '-')}-dev"


CODEC = Library(
    "trau_fr",
    "trau_fr|gsm",
    "GSM full rate codec in integer arithmetic, proved",
    """
 Encodes and decodes GSM 06.10 full rate speech, packs its frames in 33 octets
 (RTP, files of libgsm) and in pairs of 65 (WAV49), and expands and compresses
 A-law and mu-law. Each of its functions is proved: it gives what a definition
 says, allocates nothing, and reads and writes what it is passed alone.""",
    """
 .
 In the folder trau-gsm beside it there is a library with libgsm's interface,
 on which programs of libgsm run unchanged.""",
)
CALL = Library(
    "trau_call",
    "trau_call",
    "live GSM full rate calls over RTP, proved",
    """
 Carries a call between a base station (GSM full rate) and an exchange (A-law or
 mu-law) over RTP, for a program that has the sockets and the clock: jitter
 buffers, lost frames, pauses, bridges, and records of which trau makes again
 what was sent. Each of its functions is proved: whatever datagrams come, it
 gives what a definition says.""",
)
C_LIBRARIES = CODEC, CALL


class Package(NamedTuple):
    """A package: its name, what its control file says, its files and links by their paths, and
    further files for dpkg."""

    name: str
    fields: str
    description: str
    files: Dict[str, bytes]
    links: Dict[str, str]
    control: Dict[str, str] = {}


def versions() -> List[Tuple[str, str, List[str]]]:
    """The versions of the changelog, the newest first: number, date, and what changed."""
    text = read_file(TOP / CHANGELOG).decode()
    found = []
    for part in re.split(r"^## ", text, flags=re.M)[1:]:
        head = re.match(r"(\d+(?:\.\d+)+), (\d{4}-\d\d-\d\d)\n", part)
        if not head:
            raise Refusal(
                f"{CHANGELOG}: a heading isn't a version and a date, as '1.0.0, 2026-11-29'"
            )
        found.append(
            (
                head[1],
                head[2],
                [" ".join(change.split()) for change in re.split(r"^- ", part, flags=re.M)[1:]],
            )
        )
    if not found:
        raise Refusal(f"{CHANGELOG}: there is no version")
    return found


def changelog(author: str) -> str:
    """The changelog as Debian's packages have it."""
    entries = []
    for version, date, changes in versions():
        day = time.strftime("%a, %d %b %Y 12:00:00 +0000", time.strptime(date, "%Y-%m-%d"))
        said = "".join(
            "  * " + "\n    ".join(trau_words.folded(change, "", CHANGE_WIDTH)) + "\n"
            for change in changes
        )
        entries.append(
            f"trau ({version}) unstable; urgency=medium\n\n{said}\n -- {author}  {day}\n"
        )
    return "\n".join(entries)


def zipped(content: bytes) -> bytes:
    """Content as gzip packs it best, without name and date."""
    return gzip.compress(content, 9, mtime=0)


def place(name: str, content: bytes) -> Tuple[str, bytes]:
    """Where a file of the tarball goes, and what it holds there."""
    if name == "trau.bash":
        return "usr/share/bash-completion/completions/trau", content
    if name.startswith("man/"):
        return f"usr/share/man/man1/{name[4:]}.gz", zipped(content)
    if name.startswith(("README.md", "docs/", "bench/", "crates")) or (
        name.endswith((".md", ".svg"))
    ):
        return f"{DOCUMENTS}/{name}", content
    if content.startswith(PACKED_PYTHON):
        content = SYSTEMS_PYTHON + content[len(PACKED_PYTHON) :]
    return f"{HOME}/{name}", content


def common(name: str, author: str, year: str) -> Dict[str, bytes]:
    """What each package says of itself."""
    texts = {
        "changelog.gz": zipped(changelog(author).encode()),
        "copyright": COPYRIGHT.format(year=year, author=author).encode(),
    }
    return {f"usr/share/doc/{name}/{file}": content for file, content in texts.items()}


def links(found: Dict[str, bytes]) -> Dict[str, str]:
    """The links of the package, by their paths: the commands, which have man pages, and the
    documents beside the scripts."""
    pages = (Path(name).name[: -len(".1.gz")] for name in found if name.endswith(".1.gz"))
    commands = {
        f"usr/bin/{name}": f"../lib/trau/{'trau' if name == 'trau' else f'python/{name}'}"
        for name in pages
    }
    return {**commands, f"{HOME}/docs": "../../share/doc/trau/docs"}


def program(files: Dict[str, bytes]) -> Package:
    """The package of the program and its tools."""
    others = ("install", "SHA256SUMS")
    found = dict(
        place(name, content)
        for name, content in files.items()
        if name not in others and (name.startswith(LOOP) or not name.startswith(BUILT))
    )
    programs = sorted(
        path for path, content in found.items() if content.startswith(ELF) and ".so" not in path
    )
    found["usr/share/lintian/overrides/trau"] = "".join(map(OVERRIDE.format, programs)).encode()
    control = {"prerm": PRERM}
    return Package("trau", PROGRAM, PROGRAM_DESCRIPTION, found, links(found), control)


def symbols(library: Library, header: str, version: str) -> str:
    """The functions of the library, each since this version, as dpkg-shlibdeps reads them."""
    names = sorted(set(re.findall(r"\b(trau_\w+)\(", re.sub(r"/\*.*?\*/", "", header, flags=re.S))))
    node = f"{library.name.upper()}_1"
    each = "".join(f" {name}@{node} {version}\n" for name in [node, *names])
    return f"lib{library.name}.so.1 {library.shared()} (>= {version})\n{each}"


def shared_library(library: Library, files: Dict[str, bytes], version: str) -> Package:
    """The package of the shared library, with libgsm's interface where that is built of it."""
    shared = re.compile(rf"lib/((?:.*/)?lib(?:{library.built})\.so\.1)")
    matches = ((shared.fullmatch(name), content) for name, content in files.items())
    found = {f"{LIBRARIES}/{match[1]}": content for match, content in matches if match}
    header = files[f"include/{library.name}.h"].decode()
    control = {
        "triggers": TRIGGERS,
        "shlibs": SHLIBS.format(name=library.name, shared=library.shared(), version=version),
        "symbols": symbols(library, header, version),
    }
    description = library.synopsis + library.description + library.beside
    return Package(library.shared(), SHARED, description, found, {}, control)


def development(library: Library, files: Dict[str, bytes], page: bytes, version: str) -> Package:
    """The package of the header and of what a compiler needs beside it, with the libraries' page."""
    name = library.name
    paths = (
        files[f"lib/pkgconfig/{name}.pc"]
        .decode()
        .replace("prefix=${pcfiledir}/../..", "prefix=/usr")
    )
    found = {
        f"usr/include/{name}.h": files[f"include/{name}.h"],
        f"{LIBRARIES}/lib{name}.a": files[f"lib/lib{name}.a"],
        f"{LIBRARIES}/pkgconfig/{name}.pc": paths.replace(
            "libdir=${prefix}/lib\n", f"libdir=/{LIBRARIES}\n"
        ).encode(),
        f"usr/share/doc/{library.headers()}/LIBRARY.md": page,
    }
    link = {f"{LIBRARIES}/lib{name}.so": f"lib{name}.so.1"}
    fields = HEADERS.format(shared=library.shared(), version=version)
    description = f"{library.synopsis}: header and static library"
    description += library.description + HEADERS_PARAGRAPH
    return Package(library.headers(), fields, description, found, link)


def lay(root: Path, files: Dict[str, bytes], links: Dict[str, str]) -> None:
    """Writes the files and links of a package below a folder."""
    for name, content in files.items():
        path = root / name
        path.parent.mkdir(parents=True, exist_ok=True)
        path.write_bytes(content)
        runs = content.startswith((b"#!", ELF)) and ".so" not in path.name
        path.chmod(0o755 if runs else 0o644)
    for name, target in links.items():
        (root / name).parent.mkdir(parents=True, exist_ok=True)
        (root / name).symlink_to(target)


def built(root: Path, made: Path, seconds: int) -> bytes:
    """The octets of the package that dpkg-deb makes of a folder, all of whose files get this
    date."""
    for path in (root, *root.rglob("*")):
        if path.is_dir():
            path.chmod(0o755)
        os.utime(path, (seconds, seconds), follow_symlinks=False)
    try:
        subprocess.run(
            ["dpkg-deb", "--root-owner-group", "-Zxz", "--build", str(root), str(made)],
            check=True,
            capture_output=True,
            text=True,
            env={**os.environ, "SOURCE_DATE_EPOCH": str(seconds)},
        )
    except OSError:
        raise Refusal("dpkg-deb isn't on the path; it is part of Debian's package dpkg") from None
    except subprocess.CalledProcessError as ended:
        raise Refusal(f"dpkg-deb: {ended.stderr.strip()}") from None
    return made.read_bytes()


def packed(package: Package, author: str, seconds: int) -> Tuple[str, bytes]:
    """The name and the octets of a package, all of whose files have this date."""
    machine = MACHINES.get(os.uname().machine, os.uname().machine)
    version = versions()[0][0]
    files = {
        **package.files,
        **common(package.name, author, time.strftime("%Y", time.gmtime(seconds))),
    }
    size = sum((len(content) + 1023) // 1024 for content in files.values())
    control = CONTROL.format(
        version=version, machine=machine, author=author, size=size, **package._asdict()
    )
    sums = "".join(
        f"{hashlib.md5(content).hexdigest()}  {name}\n" for name, content in sorted(files.items())
    )
    with tempfile.TemporaryDirectory() as folder:
        root = Path(folder) / "root"
        lay(root, files, package.links)
        (root / "DEBIAN").mkdir()
        for name, text in {"control": control, "md5sums": sums, **package.control}.items():
            (root / "DEBIAN" / name).write_text(text)
            (root / "DEBIAN" / name).chmod(0o755 if text.startswith("#!") else 0o644)
        octets = built(root, Path(folder) / "made.deb", seconds)
    return f"{package.name}_{version}_{machine}.deb", octets


def packages(files: Dict[str, bytes], author: str, seconds: int) -> Dict[str, bytes]:
    """The packages of these files by their names: the program's, and those of the C libraries where
    they are among the files."""
    version = versions()[0][0]
    made = [program(files)]
    of_libraries = {
        name[len(BUILT) :]: content for name, content in files.items() if name.startswith(BUILT)
    }
    for library in C_LIBRARIES if of_libraries else ():
        made += [
            shared_library(library, of_libraries, version),
            development(library, of_libraries, files["docs/LIBRARY.md"], version),
        ]
    return dict(packed(package, author, seconds) for package in made)
