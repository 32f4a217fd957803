#!/usr/bin/env python3
"""A recording of a box held to the rules of the suite (python/trau/suite/check.py)."""

import sys
from pathlib import Path

sys.path.insert(0, str(Path(__file__).resolve().parents[1] / "python"))

from trau.programs import check  # noqa: E402

sys.exit(check())
