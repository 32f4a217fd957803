"""What a picture shows of a call's lines beside its uplink: the frames of its downlink, and the
levels of its Pcm and Out lines."""

from pathlib import Path
from typing import Dict, NamedTuple

from trau.command_line.side_by_side import results_of
from trau.pictures import looks
from trau.rules.lines import DOWN, OUT, PCM, name_of
from trau.rules.profile import FRAME_OCTETS, PCM_OCTETS
from trau.runs import levels
from trau.runs.run_lines import RecordedCall, Run

LEVEL_SIDES = (PCM, OUT)
LOWEST_LEVEL = -60  # of a picture, in dBm0
QUARTERS = 4
PERIODS_TOGETHER = 5000  # of a line whose levels are taken


class CallLines(NamedTuple):
    """What the lines of a call have in the periods asked for: the codes of the downlink's looks by
    periods, and by columns the level of the loudest period, in quarters of a dB above -60 dBm0, 0
    to 240; nothing if there is no line."""

    down: bytes
    levels: Dict[str, bytes]


def quarters(level: float) -> int:
    """A level in quarters of a dB above the lowest."""
    return round(QUARTERS * (min(0.0, max(float(LOWEST_LEVEL), level)) - LOWEST_LEVEL))


def levels_of(folder: Path, call: RecordedCall, side: str, periods: range) -> bytes:
    """The level of a line's loudest period in each column; the periods are those of the call at
    which columns begin."""
    if not (folder / name_of(call.number, side)).is_file():
        return b""
    together = max(1, PERIODS_TOGETHER // periods.step) * periods.step
    found = bytearray()
    for start in range(periods.start, periods.stop, together):
        sums = levels.sums(
            call.octets(folder, side, start, min(start + together, periods.stop)), call.law
        )
        columns = (
            sums[place : place + periods.step] for place in range(0, len(sums), periods.step)
        )
        found += bytes(quarters(levels.level_of_sum(max(column), call.law)) for column in columns)
    return bytes(found)


def lines_of(folder: Path, call: RecordedCall, columns: range, with_levels: bool) -> CallLines:
    """What the lines of a call have in periods of the run, given by those at which columns begin."""
    first, last = (
        max(0, columns.start - call.span.start),
        min(call.span.end, columns.stop) - call.span.start,
    )
    if last <= first:
        return CallLines(b"", {side: b"" for side in LEVEL_SIDES})
    sides = LEVEL_SIDES if with_levels else ()
    found = {
        side: levels_of(folder, call, side, range(first, last, columns.step)) for side in sides
    }
    down = b""
    if (folder / name_of(call.number, DOWN)).is_file():
        # A frame that begins in the last period has its control bits after it.
        down = looks.down_looks(call, call.octets(folder, DOWN, first, last + 1), first, last)
    return CallLines(down, found)


def read_lines(run: Run, columns: range, with_levels: bool, processes: int) -> Dict[int, CallLines]:
    """What the lines of a run's calls have in periods of the run, given by those at which columns
    begin."""
    octets = FRAME_OCTETS + (len(LEVEL_SIDES) * PCM_OCTETS if with_levels else 0)
    pieces = [(run.folder, call, columns, with_levels) for call in run.calls]
    found = results_of(
        processes,
        "reading lines",
        lines_of,
        pieces,
        octets * sum(call.periods() for call in run.calls),
    )
    return {call.number: lines for call, lines in zip(run.calls, found)}
