#!/usr/bin/env python3
"""What the report and the lines of a run say (python/trau/runs/report.py)."""

import sys
from pathlib import Path

sys.path.insert(0, str(Path(__file__).resolve().parents[1] / "python"))

from trau.programs import report  # noqa: E402

sys.exit(report())
