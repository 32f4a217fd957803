"""The lines of a call as files: `7.up` is the Up line of call 7 (docs/FILES.md)."""

from pathlib import Path

from trau.rules.profile import FRAME_OCTETS, PCM_OCTETS

# The sides of a call: the endings of the lines' files, and their words in texts (docs/FILES.md).
SIDES = UP, PCM, DOWN, OUT = ("up", "pcm", "down", "out")
INCOMING, OUTGOING = (UP, PCM), (DOWN, OUT)
# in a period of 20 ms
OCTETS_OF_SIDE = {
    UP: FRAME_OCTETS,
    PCM: PCM_OCTETS,
    DOWN: FRAME_OCTETS,
    OUT: PCM_OCTETS,
}


def name_of(call: int, side: str) -> str:
    """The name of a line's file (docs/FILES.md)."""
    return f"{call}.{side}"


def whole_periods(folder: Path, call: int, side: str) -> int:
    """How many whole periods a call's line in a folder has; none if it isn't a file."""
    line = folder / name_of(call, side)
    return line.stat().st_size // OCTETS_OF_SIDE[side] if line.is_file() else 0


def incoming_periods(folder: Path, call: int) -> int:
    """How many whole periods both incoming lines of a call in a folder have."""
    return min(whole_periods(folder, call, side) for side in INCOMING)
