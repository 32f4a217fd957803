#!/usr/bin/env python3
"""Proves and builds the program (python/trau/packing/build.py)."""

import sys
from pathlib import Path

sys.path.insert(0, str(Path(__file__).resolve().parents[1] / "python"))

from trau.programs import build  # noqa: E402

sys.exit(build())
