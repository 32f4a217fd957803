#!/usr/bin/env python3
"""The help, the man page and the completion of `trau` (python/trau/packing/trau_words.py)."""

import sys
from pathlib import Path

sys.path.insert(0, str(Path(__file__).resolve().parents[1] / "python"))

from trau.programs import trau_words  # noqa: E402

sys.exit(trau_words())
