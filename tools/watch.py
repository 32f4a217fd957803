#!/usr/bin/env python3
"""How far a run is (python/trau/runs/watch.py)."""

import sys
from pathlib import Path

sys.path.insert(0, str(Path(__file__).resolve().parents[1] / "python"))

from trau.programs import watch  # noqa: E402

sys.exit(watch())
