"""The library of the gateway's loop (gateway/pump*.c) over libtrau_call: as clib/build makes it, or built for a test with a sanitizer."""

from __future__ import annotations

import atexit
import functools
import os
import shutil
import subprocess
import tempfile
import unittest
from pathlib import Path
from typing import Dict, List, Optional

from support import GATEWAY, TOP

from trau.gateway import pump

CLIB = Path(os.environ.get("TRAU_CLIB") or TOP / "clib" / "out")
PARTS = "pump.c", "pump_clock.c", "pump_end.c", "pump_rings.c"
STRICT = "-Wall -Wextra -Wpedantic -Wshadow -Wconversion -Werror".split()
# By what they watch: what the compiler is told, and what has to be loaded before the program.
SANITIZERS = {
    "memory": ("address,undefined", ("libasan.so", "libubsan.so")),
    "threads": ("thread", ("libtsan.so",)),
}
OPTIONS = {
    "ASAN_OPTIONS": "detect_leaks=0",  # Python frees little at its end
    "UBSAN_OPTIONS": "halt_on_error=1",
    "TSAN_OPTIONS": "halt_on_error=1",
}
with_compiler = unittest.skipUnless(shutil.which("cc"), "gcc isn't installed")


@functools.lru_cache(None)
def folder() -> Path:
    """A folder for what is built, up to the end of the tests."""
    made = tempfile.mkdtemp(prefix="trau-loop-")
    atexit.register(shutil.rmtree, made, ignore_errors=True)
    return Path(made)


def compiled(source: str, name: str, flags: List[str]) -> str:
    """The object of a source file."""
    made = folder() / f"{Path(source).stem}{name}.o"
    words = ["cc", "-std=gnu11", "-O2", "-g", "-fPIC", *flags, *STRICT, f"-I{CLIB / 'include'}"]
    subprocess.run([*words, "-c", str(GATEWAY / source), "-o", str(made)], check=True)
    return str(made)


@functools.lru_cache(None)
def library(sanitizer: str) -> str:
    """The library with a sanitizer."""
    flags = [f"-fsanitize={SANITIZERS[sanitizer][0]}"]
    parts = [compiled(source, sanitizer, flags) for source in PARTS]
    made, core = folder() / f"libtrau_pump{sanitizer}.so", CLIB / "lib" / "libtrau_call.a"
    words = ["cc", "-shared", *flags, *parts, str(core), "-lpthread", "-o", str(made)]
    subprocess.run(words, check=True)
    return str(made)


def given() -> str:
    """The library that the gateway takes."""
    return str(pump.library_path())


def runtime(sanitizer: str) -> Optional[str]:
    """What has to be loaded before a program whose library has a sanitizer; None if it isn't installed."""
    found = []
    for name in SANITIZERS[sanitizer][1]:
        words = ["cc", f"-print-file-name={name}"]
        found.append(subprocess.run(words, stdout=subprocess.PIPE, text=True).stdout.strip())
    return " ".join(found) if all(map(os.path.isabs, found)) else None


def environment(sanitizer: str = "") -> Dict[str, str]:
    """The environment of tests with the loop, perhaps with a sanitizer, whose first word ends the process."""
    if not sanitizer:
        return {**os.environ, "TRAU_PUMP": given()}
    preloaded = {"TRAU_PUMP": library(sanitizer), "LD_PRELOAD": runtime(sanitizer) or ""}
    return {**os.environ, **OPTIONS, **preloaded}
