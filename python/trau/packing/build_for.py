"""Proves and builds a program for a kind of processor, over the libraries that `rt ci` has just proved.

    build_for.py TOP CRATE KIND      such as build_for.py . trau_program x86-64-v3

`rt ci` builds only for x86-64-v2. This does the same with --cpu=KIND added: it refuses the same texts, proves the crate from nothing over the
statements of the libraries in TOP/crates/*/out, holds the verdict to the same words, which then name the kind, and holds what the linked
program may call to HANDLES. It loads the toolchain's own `rt` for that. It makes crates/CRATE/out/CRATE.KIND. Status 0: the program is proved and built.
"""


import importlib.machinery
import importlib.util
import os
import re
import shutil
import sys
from types import ModuleType
from typing import Any, Sequence

from trau.command_line.words import Refusal, Words
from trau.command_line.ends import tool


def toolchain() -> ModuleType:
    """The toolchain's command rt, as a module."""
    path = shutil.which("rt")
    if not path:
        raise Refusal("the Rattle toolchain's command rt isn't on the path")
    loader = importlib.machinery.SourceFileLoader("toolchain_rt", os.path.realpath(path))
    # (It sets the file that the toolchain finds its own folder by, which a bare ModuleSpec doesn't.)
    spec = importlib.util.spec_from_loader(loader.name, loader)
    assert spec is not None
    made = importlib.util.module_from_spec(spec)
    sys.dont_write_bytecode = True  # nothing is written beside the toolchain
    loader.exec_module(made)
    return made


def check_text(rt: ModuleType, crate: Any) -> None:
    """Refuses a crate whose text `rt ci` refuses before it proves it."""
    rt.rtlib.stop_on_links(crate.folder)
    rt.rtlib.stop_on_unread(crate.folder, [crate])
    rt.rtlib.stop_on_text(crate, "verdict")
    rt.stop_on_words(crate)
    code = rt.rtlib.code_of(crate.folder)
    beyond = [words for handle, words in rt.REACHES.items() if handle not in crate.allowed]
    if any(re.search(words, code) for words in (rt.RENAMES, rt.IGNORED, *beyond)):
        raise Refusal(f"{crate.name}: rt ci refuses its text, and says why")
    if rt.rtlib.fmt(crate.folder, "--check", sys.stdout):
        raise Refusal(f"{crate.name}: isn't laid out as rt fmt does it")


def build(top: str, crate: str, kind: str) -> int:
    """Proves, compiles and links the program."""
    rt = toolchain()
    # (Its first call sets a signal's handler, which only the main thread may.)
    rt.rtlib.guarded()
    rt.rtlib.Crate = rt.Crate
    rt.Crate.allowed = rt.handles_of(top)
    program = rt.Crate(f"{top}/crates/{crate}", top, {})
    check_text(rt, program)
    jobs = max(1, min(4, rt.processors(), int(0.85 * rt.free() / rt.need(program))))
    words = program.words(["--jobs", str(jobs), f"--cpu={kind}"], keeps=False)
    to = f"out/{crate}.{kind}"
    status = program.prove(
        [
            "build",
            *words,
            "--toolchain",
            f"{rt.KIT}/toolchain",
            "--backend",
            "llvm",
            "-o",
            f"{to}.o",
        ]
    )
    status = status or program.link(f"{to}.o", f"{to}.new")
    if status == 0:
        os.replace(f"{program.folder}/{to}.new", f"{program.folder}/{to}")
        os.remove(f"{program.folder}/{to}.o")
    return status


@tool("build_for.py", prints=False)
def main(words: Sequence[str]) -> int:
    """Runs the words of the command line, and returns the exit status."""
    parser = Words(__doc__)
    parser.add_argument("top", metavar="TOP", help="the top of the repository")
    parser.add_argument("crate", metavar="CRATE", help="the program's crate")
    parser.add_argument("kind", metavar="KIND", help="the kind of processor")
    asked = parser.parse_args(words)
    return build(os.path.realpath(asked.top), asked.crate, asked.kind)
