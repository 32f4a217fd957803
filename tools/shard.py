#!/usr/bin/env python3
"""A farm in parts that run independently (python/trau/runs/shard.py)."""

import sys
from pathlib import Path

sys.path.insert(0, str(Path(__file__).resolve().parents[1] / "python"))

from trau.programs import shard  # noqa: E402

sys.exit(shard())
