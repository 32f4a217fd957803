"""Runs the commands that the documents show, and compares what they print.

Usage: documents.py TOP WORK [--write] [--no-reasons] [DOCUMENT..]

Where documents are named, by their paths from TOP on, only these are looked at. With --no-reasons lines `trau: ..`, which say
on standard error why something failed, are left out of the comparison: another program has other reasons.

A block of lines that are indented by four spaces, the first of which begins with `$ `, is one session of a shell: lines
that begin with `$ ` are its commands (a line `> ` goes on with the one above), all other lines their output, standard
output and standard error together. Each session begins in a folder of its own under WORK that has a copy of `examples` and
`tools`, and the scripts `trau` and `demo`, as the top of the repository has them. Nothing is written elsewhere, but with
--write, which puts the real output into the documents. Fenced blocks are not run.

Four things more are compared: that the files and headings exist to which a document's links lead; that a fenced block
whose first line names a file, as ```rust crates/C/src/lib.rt, stands in that file word for word; that each function stands
in the file that a row of a table names, `CRATE/src/FILE.rt` in its first column and the functions in its second; and that
no line is one that git puts where two versions differ.
"""

import difflib
import os
import pathlib
import re
import shlex
import shutil
import subprocess
import sys

if {"-h", "--help"} & set(sys.argv[1:]):
    sys.exit(print(__doc__.strip()))
if len(sys.argv) < 3 or any(
    word.startswith("-") and word not in ("--write", "--no-reasons") for word in sys.argv[3:]
):
    sys.exit("usage: documents.sh [--write] [--no-reasons] [DOCUMENT..]")
TOP, WORK = pathlib.Path(sys.argv[1]), pathlib.Path(sys.argv[2]).resolve()
WRITE = "--write" in sys.argv[3:]
REASONS = "--no-reasons" not in sys.argv[3:]
NAMED = {TOP / word for word in sys.argv[3:] if not word.startswith("-")}
# Made by the examples themselves, and by no clone.
MADE = shutil.ignore_patterns("*.down", "*.out", "7.pcm", "__pycache__")
INDENT = "    "
# What of the surroundings changes what commands print: where `cd` goes, what a system's commands do, how wide a help is, and that a tool
# writes piece by piece, so that `head` ends before it.
LEFT_OUT = {"CDPATH", "POSIXLY_CORRECT", "COLUMNS", "PYTHONUNBUFFERED"}
# A session that takes longer than this many seconds hangs, however slow the machine is.
PATIENCE = 7200


def documents():
    """All documents of the repository but those that are made, README.md first."""
    found = []
    for folder, names, files in os.walk(TOP):
        names[:] = [name for name in names if name != "out" and not name.startswith(".")]
        found += [pathlib.Path(folder, name) for name in files if name.endswith(".md")]
    if not NAMED <= set(found):
        sys.exit(
            "documents.sh: no document "
            + " ".join(str(path.relative_to(TOP)) for path in NAMED - set(found))
        )
    found = [path for path in found if path in NAMED or not NAMED]
    return sorted(found, key=lambda path: (len(path.parts), path))


def sessions(lines):
    """The first and the last line, and one more, of each session."""
    fence, start, found = None, None, []
    for number, line in enumerate(lines + ["end"]):
        mark = re.match(r"(```+|~~~+)", line)
        if fence is not None:
            if mark and line.strip() == fence:
                fence = None
            continue
        if start is not None and line and not line.startswith(INDENT):
            end = number
            while not lines[end - 1]:
                end -= 1
            found.append((start, end))
            start = None
        if mark:
            fence = mark.group(1)
        elif (
            start is None
            and line.startswith(INDENT + "$ ")
            and (number == 0 or not lines[number - 1])
        ):
            start = number
    return found


def commands(session):
    """The commands of a session, each a list of lines."""
    found, is_command = [], False
    for line in session:
        if line.startswith("$ "):
            found.append([line])
            is_command = True
        elif is_command and line.startswith("> "):
            found[-1].append(line)
        else:
            is_command = False
    return found


def script(session):
    """Prints each command and runs it; `$?` is that of the command before."""
    parts = ["back() { return $1; }"]
    for command in commands(session):
        shown = " ".join(map(shlex.quote, command))
        parts.append(f"back_to=$?; printf '%s\\n' {shown}; back $back_to")
        parts.append("\n".join(line[2:] for line in command))
    return "\n".join(parts) + "\n"


def run(session, folder):
    """What a session prints, run in this folder."""
    place = folder / "trau"
    for made in (folder, folder / "tmp", place):
        made.mkdir()
    for name in ("trau", "demo"):
        if (TOP / name).exists():
            (place / name).symlink_to(TOP / name)
    for name in ("examples", "tools"):
        if (TOP / name).exists():
            shutil.copytree(TOP / name, place / name, ignore=MADE)
    shutil.copytree(
        TOP / "examples/farm/wanted", place / "examples/farm/wanted", dirs_exist_ok=True
    )
    surroundings = {name: value for name, value in os.environ.items() if name not in LEFT_OUT}
    surroundings.update(
        LC_ALL="C",
        TMPDIR=str(folder / "tmp"),
        HOME=str(folder / "tmp"),
        PYTHONDONTWRITEBYTECODE="1",
    )
    streams = {"stdin": subprocess.DEVNULL, "stdout": subprocess.PIPE, "stderr": subprocess.STDOUT}
    try:
        ran = subprocess.run(
            ["sh", "-c", script(session)], cwd=place, env=surroundings, timeout=PATIENCE, **streams
        )
        text = ran.stdout.decode(errors="replace")
    except subprocess.TimeoutExpired:
        text = f"no end within {PATIENCE} seconds"
    shutil.rmtree(folder)
    # Folders whose names the system chooses.
    text = text.replace(str(folder / "tmp"), "/tmp")
    text = re.sub(r"/tmp/trau-demo\.\w+", "/tmp/trau-demo.XXXXXX", text)
    return [line.rstrip() for line in text.splitlines()]


def headings(text):
    """The name that a link has for each heading: its words in small letters without signs, and a hyphen for each space."""
    shown = re.sub(r"^(```+|~~~+).*?^\1\s*$", "", text, flags=re.M | re.S)
    return {
        re.sub(r"[^\w -]", "", words).lower().replace(" ", "-")
        for words in re.findall(r"^#+ (.+?) *$", shown, re.M)
    }


def links(path, text):
    """The links of a document that lead nowhere."""
    found = []
    for name, heading in re.findall(r"\]\(([^)#: ]*)(?:#([^)]*))?\)", text):
        target = path.parent / name if name else path
        if not target.exists():
            found.append(f"no file {name}")
        elif heading and heading not in headings(target.read_text()):
            found.append(f"no heading {name}#{heading}")
    return found


def quotes(text):
    """The fenced blocks that don't stand in the files that they name."""
    found = []
    for name, block in re.findall(r"^```\w+ (\S+)\n(.*?)^```$", text, re.M | re.S):
        if not (TOP / name).exists() or block not in (TOP / name).read_text():
            found.append(f"{name} has no such text: {block}")
    return found


def functions(text):
    """The functions that aren't in the file that a table's row names."""
    found = []
    for name, cell in re.findall(r"^\| `(\w+/src/[\w/]+\.rt)` \| ([^|]*) \|", text, re.M):
        source = TOP / "crates" / name
        there = source.read_text() if source.exists() else ""
        for function in re.findall(r"`(?:\w+::)*(\w+)`", cell):
            if not re.search(rf"\bfn {function}\b", there):
                found.append(f"no function {function} in {name}")
    return found


def conflicts(lines):
    """The lines that git put where two versions differ, and that were left there."""
    left = [
        number for number, line in enumerate(lines) if line.startswith(("<<<<<<< ", ">>>>>>> "))
    ]
    return [f"line {number + 1} is left of a merge: {lines[number]}" for number in left]


def compared(printed):
    """What is compared of the lines that a session prints."""
    return [line for line in printed if REASONS or not line.startswith("trau: ")]


def main():
    failed = False
    for path in documents():
        name = path.relative_to(TOP)
        lines = path.read_text().split("\n")
        shown = [
            (start, end, [line[len(INDENT) :] for line in lines[start:end]])
            for start, end in sessions(lines)
        ]
        text = "\n".join(lines)
        differences = [
            f"{name}: {fault}"
            for fault in links(path, text) + quotes(text) + functions(text) + conflicts(lines)
        ]
        new = []
        for number, (start, end, session) in enumerate(shown):
            got = run(session, WORK / f"{number}")
            new.append((start, end, got))
            if compared(got) != compared(session):
                differences += difflib.unified_diff(
                    session,
                    got,
                    f"{name}, line {start + 1}",
                    "what the commands print",
                    lineterm="",
                )
        if WRITE and differences:
            for start, end, got in reversed(new):
                lines[start:end] = [(INDENT + line).rstrip() for line in got]
            path.write_text("\n".join(lines))
            print(f"written {name}")
            differences = [line for line in differences if line.startswith(f"{name}: ")]
        if differences:
            print(f"FAILED {name}:", *differences, sep="\n")
            failed = True
        elif not WRITE:
            print(f"ok {name}: {len(shown)} sessions")
    return failed


sys.exit(main())
