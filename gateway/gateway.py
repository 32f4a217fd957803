#!/usr/bin/env python3
"""The live gateway (python/trau/gateway/gateway.py)."""

import sys
from pathlib import Path

sys.path.insert(0, str(Path(__file__).resolve().parents[1] / "python"))

from trau.programs import gateway  # noqa: E402

sys.exit(gateway())
