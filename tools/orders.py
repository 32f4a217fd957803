#!/usr/bin/env python3
"""What is wrong with the orders of a run (python/trau/runs/orders.py)."""

import sys
from pathlib import Path

sys.path.insert(0, str(Path(__file__).resolve().parents[1] / "python"))

from trau.programs import orders  # noqa: E402

sys.exit(orders())
