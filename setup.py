"""What pip needs beside pyproject.toml: the version, which docs/CHANGELOG.md alone has, and a folder
of its own for what is made meanwhile, so that a clone may be one that nobody writes to, and nothing
that an earlier version had gets into a new one."""

import re
import sys
import tempfile
from pathlib import Path

import setuptools

CHANGELOG = Path(__file__).resolve().parent / "docs" / "CHANGELOG.md"
OLDEST = 61  # of setuptools, the first that reads [project] of pyproject.toml


def version() -> str:
    """The version of the changelog's first heading."""
    heading = re.search(r"^## (\d+(?:\.\d+)+), ", CHANGELOG.read_text(encoding="utf-8"), re.M)
    if not heading:
        sys.exit(f"{CHANGELOG}: there is no version")
    return heading[1]


if int(setuptools.__version__.split(".")[0]) < OLDEST:
    sys.exit(f"trau: setuptools {OLDEST} or later is needed, and {setuptools.__version__} is here")
with tempfile.TemporaryDirectory() as folder:
    made = {"build": {"build_base": folder}, "egg_info": {"egg_base": folder}}
    setuptools.setup(version=version(), options=made)
