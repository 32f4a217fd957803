#!/usr/bin/env python3
"""A picture of a run (python/trau/pictures/timeline.py)."""

import sys
from pathlib import Path

sys.path.insert(0, str(Path(__file__).resolve().parents[1] / "python"))

from trau.programs import timeline  # noqa: E402

sys.exit(timeline())
