"""The frames of a line as rows that can be read and written: the place and the second of each, its
class, its control bits with their meanings, and its parameters; and the bits between frames. A line
that is made of its rows again is the same, bit for bit."""

import json
from itertools import groupby
from typing import Any, Callable, Dict, Iterable, Iterator, List, Mapping

from trau.command_line.words import Refusal
from trau.recordings.line_parts import FramePart, LineParts
from trau.rules.frame import (
    Bits,
    DownFrame,
    FrameKind,
    UpFrame,
    bits_of,
    control_of,
    frame_of,
    kind_of_control,
    octets_of,
    read_down,
    write_down,
    write_up,
)
from trau.rules.lines import DOWN, UP
from trau.rules.parameters import (
    WIDTHS,
    bits_of_parameters,
    parameters_of_bits,
    parameters_of_values,
    values_of,
)
from trau.rules.profile import FRAME_BITS, PERIODS_A_SECOND

FrameRow = Dict[str, Any]
COLUMNS = ("place", "second", "side", "class", "field", "taf", "dtxd", "control", "time")
BITS = "bits"  # the class of a row of bits that belong to no frame, and their column
PARAMETERS = "parameters"
NO_TIME = "none"  # in the column of the time bits: the frame has none
UNKNOWN = ("", "-", None)  # what stands for no value
DATA_BITS, CONTROL_BITS, TIME_BITS = 260, 21, 4
FIELD, TAF, DTXD = slice(5, 11), 14, 16  # C6 to C11, C15 and C17
BITS_A_SECOND = FRAME_BITS * PERIODS_A_SECOND


# From a line


def runs_of(bits: Bits) -> str:
    """Bits as `COUNT*BIT` for each run of equal ones, or as they are if that is shorter."""
    runs = " ".join(f"{len(list(run))}*{bit}" for bit, run in groupby(bits))
    return runs if len(runs) < len(bits) else bits


def class_of(control: Bits, side: str) -> FrameKind:
    """The class of an uplink's frame, or the kind of a downlink's."""
    if side == UP:
        return kind_of_control(control)
    return read_down(frame_of(control, "1" * DATA_BITS)).kind


def meanings_of(control: Bits, side: str) -> FrameRow:
    """What control bits mean."""
    found: FrameRow = {"class": class_of(control, side).value}
    if side == UP:
        field = int(control[FIELD], 2)
        found.update(field=field, taf=int(control[TAF]), dtxd=int(control[DTXD]))
    return found


def row_of_frame(frame: FramePart, side: str) -> FrameRow:
    """The row of a frame."""
    control = frame.control()
    return {
        "place": frame.place,
        "second": round(frame.place / BITS_A_SECOND, 5),
        "side": side,
        **meanings_of(control, side),
        "control": control,
        "time": frame.time() or NO_TIME,
        PARAMETERS: values_of(parameters_of_bits(frame.data())),
    }


def rows_of(parts: LineParts, side: str) -> Iterator[FrameRow]:
    """The rows of a line: its frames and the bits between them."""
    place = 0
    for gap, frame in zip(parts.gaps, [*parts.frames, None]):
        if gap:
            second = round(place / BITS_A_SECOND, 5)
            yield {"place": place, "second": second, "class": BITS, BITS: runs_of(gap)}
        if frame is not None:
            yield row_of_frame(frame, side)
            place = frame.end()


def hex_of(parts: LineParts) -> Iterator[str]:
    """A line for each frame, its bits as hexadecimal digits; and `+` with the bits between."""
    for gap, frame in zip(parts.gaps, [*parts.frames, None]):
        if gap:
            yield f"+{runs_of(gap)}"
        if frame is not None:
            yield f"{int(frame.bits, 2):0{len(frame.bits) // 4}x}"


# To a line


def bits_of_runs(text: str) -> Bits:
    """The bits of runs, or of a text of them. Raises ValueError."""
    found = []
    for word in text.split():
        count, star, bit = word.rpartition("*")
        bits = bit * whole(count) if star else bit
        if set(bit) - {"0", "1"} or star and len(bit) != 1:
            raise ValueError(f"'{word}' is no bits")
        found.append(bits)
    return "".join(found)


def whole(value: object) -> int:
    """A whole number. Raises ValueError."""
    text = str(value)
    if not text.isdecimal():
        raise ValueError(f"'{text}' is no whole number")
    return int(text)


def number_in(row: Mapping[str, Any], column: str, most: int) -> int:
    """The number in a column, 0 if there is none. Raises ValueError."""
    value = row.get(column)
    number = 0 if value in UNKNOWN else whole(value)
    if number > most:
        raise ValueError(f"{column} {number} isn't from 0 to {most}")
    return number


def control_made(row: Mapping[str, Any], side: str) -> Bits:
    """C1 to C21 by what the other columns say. Raises ValueError."""
    word = str(row.get("class") or FrameKind.SPEECH.value)
    kinds = {kind.value: kind for kind in FrameKind}
    written = list(kinds)[:6] if side == UP else ["good", "sid", "idle"]
    if word not in written:
        raise ValueError(f"of class {word} the control bits are wanted")
    if side == DOWN:
        return control_of(write_down(DownFrame(kinds[word])))
    taf, dtxd = number_in(row, "taf", 1) == 1, number_in(row, "dtxd", 1) == 1
    return control_of(write_up(UpFrame(kinds[word], taf, dtxd, number_in(row, "field", 63))))


def control_in(row: Mapping[str, Any]) -> Bits:
    """C1 to C21 of a row; made of the other columns if it has none. Raises ValueError if they
    contradict the control bits."""
    side = str(row.get("side") if row.get("side") not in UNKNOWN else UP)
    if side not in (UP, DOWN):
        raise ValueError(f"side {side} isn't {UP} or {DOWN}")
    control = row.get("control")
    if control in UNKNOWN:
        return control_made(row, side)
    control = str(control)
    if len(control) != CONTROL_BITS or set(control) - {"0", "1"}:
        raise ValueError(f"control {control} isn't {CONTROL_BITS} bits")
    for column, value in meanings_of(control, side).items():
        said = row.get(column)
        if said not in UNKNOWN and str(said) != str(value):
            raise ValueError(f"{column} {said} isn't that of the control bits, {value}")
    return control


def data_in(row: Mapping[str, Any]) -> Bits:
    """D1 to D260 of a row, ones if it has none. Raises ValueError."""
    given = row.get(PARAMETERS)
    if given is None or given in UNKNOWN:
        return "1" * DATA_BITS
    values = [whole(value) for value in (given.split() if isinstance(given, str) else given)]
    if len(values) != len(WIDTHS):
        raise ValueError(f"parameters are {len(values)} and not {len(WIDTHS)}")
    for place, (value, width) in enumerate(zip(values, WIDTHS), 1):
        if value >= 1 << width:
            raise ValueError(f"parameter {place} is {value} and not below {1 << width}")
    return bits_of_parameters(parameters_of_values(values))


def time_in(row: Mapping[str, Any]) -> Bits:
    """The time bits of a row, ones if it says nothing of them. Raises ValueError."""
    time = "1" * TIME_BITS if row.get("time") in UNKNOWN else str(row["time"])
    if time == NO_TIME:
        return ""
    if len(time) != TIME_BITS or set(time) - {"0", "1"}:
        raise ValueError(f"time {time} isn't {TIME_BITS} bits or {NO_TIME}")
    return time


def bits_of_row(row: Mapping[str, Any]) -> Bits:
    """The bits of a row. Raises ValueError."""
    if row.get("class") == BITS:
        return bits_of_runs(str(row.get(BITS) or ""))
    frame = frame_of(control_in(row), data_in(row))
    return frame[: FRAME_BITS - TIME_BITS] + time_in(row)


def bits_of_hex(line: str) -> Bits:
    """The bits of a line of hexadecimal digits. Raises ValueError."""
    if line.startswith("+"):
        return bits_of_runs(line[1:])
    digits = line.strip()
    if len(digits) not in (FRAME_BITS // 4, (FRAME_BITS - TIME_BITS) // 4):
        raise ValueError(f"{len(digits)} digits are no frame")
    return bits_of(bytes.fromhex(digits + "0" * (len(digits) % 2)))[: 4 * len(digits)]


def line_of(
    name: object, pieces: Iterable[Any], bits_of_piece: Callable[[Any], Bits]
) -> List[Bits]:
    """The bits of each row or line of a text. Raises Refusal with the number of a wrong one."""
    found = []
    for number, piece in enumerate(pieces, 1):
        try:
            found.append(bits_of_piece(piece))
        except (ValueError, AttributeError, TypeError) as wrong:
            raise Refusal(f"{name}: row {number}: {wrong}") from None
    return found


def filled(bits: Bits) -> Bits:
    """Bits with ones after them, up to a whole octet."""
    return bits + "1" * (-len(bits) % 8)


def octets_of_pieces(pieces: Iterable[Bits]) -> bytes:
    """The octets of a line of these bits."""
    return octets_of(filled("".join(pieces)))


def read_json(text: str) -> List[Any]:
    """The rows of JSON. Raises ValueError."""
    rows = json.loads(text)
    if not isinstance(rows, list):
        raise ValueError("JSON has no list of rows")
    return rows
