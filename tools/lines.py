#!/usr/bin/env python3
"""Recordings to the lines of calls, and back (python/trau/recordings/lines.py)."""

import sys
from pathlib import Path

sys.path.insert(0, str(Path(__file__).resolve().parents[1] / "python"))

from trau.programs import lines  # noqa: E402

sys.exit(lines())
