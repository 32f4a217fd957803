"""The model of `trau` (python/trau/model/program.py) with standard input as descriptor 3: the script model/trau beside this starts it so, since
Python doesn't start where standard input is a folder."""

import sys
from pathlib import Path

sys.path.insert(0, str(Path(__file__).resolve().parents[1] / "python"))

from trau.model.program import answer  # noqa: E402

sys.exit(answer(sys.argv[1:], reads=3))
