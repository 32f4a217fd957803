#!/usr/bin/env python3
"""Proves and builds the program for a kind of processor (python/trau/packing/build_for.py)."""

import sys
from pathlib import Path

sys.path.insert(0, str(Path(__file__).resolve().parents[1] / "python"))

from trau.programs import build_for  # noqa: E402

sys.exit(build_for())
