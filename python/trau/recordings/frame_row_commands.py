"""The commands of lines.py that print each frame of a line as text, and make a line of such text."""

import argparse
import csv
import inspect
import io
import json
import sys
from pathlib import Path
from typing import Any, Callable, Iterable, Iterator, List, Mapping

from trau.command_line.words import Refusal, Words, one_of, option, switch
from trau.recordings import frame_rows, recordings
from trau.recordings.commands import Content, FileCommand, MadeFile
from trau.recordings.frame_commands import check_frames
from trau.recordings.frame_rows import BITS, COLUMNS, PARAMETERS, FrameRow
from trau.recordings.line_parts import LineParts, parts_of
from trau.rules.lines import DOWN, UP
from trau.rules.profile import FRAME_BITS

HEAD = " ".join((*COLUMNS, PARAMETERS))
COMMENT = "#"


def last_column(row: Mapping[str, Any]) -> str:
    """The parameters of a frame, or other bits, as words."""
    return row[BITS] if row["class"] == BITS else " ".join(map(str, row[PARAMETERS]))


def text_of(rows: Iterable[FrameRow]) -> Iterator[str]:
    """Rows as words with spaces between, a dash for what a row doesn't have."""
    yield f"{HEAD}\n"
    for row in rows:
        words = [str(row.get(column, "-")) for column in COLUMNS]
        yield f"{' '.join(words)} {last_column(row)}\n"


def csv_of(rows: Iterable[FrameRow]) -> Iterator[str]:
    """Rows as comma-separated values."""
    file = io.StringIO()
    writer = csv.DictWriter(file, (*COLUMNS, PARAMETERS, BITS), restval="", lineterminator="\n")
    writer.writeheader()
    for row in rows:
        writer.writerow(row if row["class"] == BITS else {**row, PARAMETERS: last_column(row)})
    yield file.getvalue()


def json_of(rows: Iterable[FrameRow]) -> Iterator[str]:
    """Rows as a list, each in a line."""
    yield "[" + ",\n ".join(json.dumps(row) for row in rows) + "]\n"


def frames(words: argparse.Namespace) -> int:
    """Prints each frame of an uplink or a downlink, at whatever bit it begins, and the bits between
    frames, each as a row: the place of its first bit, the second, the side, the class, of an uplink
    the alignment field, TAF and DTXd, then C1 to C21, T1 to T4 (`none` if the frame has none), and
    the 76 parameters in the order of GSM 06.10, table 1.1. Bits between frames have the class
    `bits` and are runs, as 320*1. `assemble` makes the same line of it again, also of CSV, JSON and
    hexadecimal digits."""
    octets = recordings.read_recording(words.given)
    check_frames(words.given, octets)
    parts = parts_of(octets)
    if not parts.frames:
        raise Refusal(f"{words.given}: has no frame at any bit")
    for text in words.form(parts, words.side or parts.side()):
        sys.stdout.write(text)
    return 0


def by_rows(
    form: Callable[[Iterable[FrameRow]], Iterator[str]]
) -> Callable[[LineParts, str], Iterator[str]]:
    """A form of rows as a form of a line."""
    return lambda parts, side: form(frame_rows.rows_of(parts, side))


def as_hex(parts: LineParts, side: str) -> Iterator[str]:
    """A line as hexadecimal digits."""
    return (f"{line}\n" for line in frame_rows.hex_of(parts))


def rows_of_text(lines: List[str]) -> List[FrameRow]:
    """The rows of text."""
    rows = []
    for line in lines[1:]:
        *words, last = line.split(maxsplit=len(COLUMNS)) if line.strip() else ("",)
        row: FrameRow = dict(zip(COLUMNS, words))
        rows.append({**row, BITS if row.get("class") == BITS else PARAMETERS: last})
    return rows


def pieces_of(name: Path, text: str) -> List[str]:
    """The bits of each row of a text, whatever its form is. Raises Refusal."""
    lines = [line for line in text.splitlines() if line.strip() and line[0] != COMMENT]
    head = lines[0] if lines else ""
    if head.startswith("["):
        try:
            rows = frame_rows.read_json(text)
        except ValueError as wrong:
            raise Refusal(f"{name}: {wrong}") from None
        return frame_rows.line_of(name, rows, frame_rows.bits_of_row)
    if head.startswith(f"{COLUMNS[0]},"):
        return frame_rows.line_of(name, csv.DictReader(lines), frame_rows.bits_of_row)
    if head == HEAD:
        return frame_rows.line_of(name, rows_of_text(lines), frame_rows.bits_of_row)
    return frame_rows.line_of(name, lines, frame_rows.bits_of_hex)


def assemble(words: argparse.Namespace, given: bytes) -> MadeFile:
    """Makes a line of frames from rows as `frames` prints them: text, CSV, JSON or hexadecimal
    digits. Places and seconds aren't read: rows follow one another. If a row has no control bits
    (-), they are made of its side, class, alignment field, TAF and DTXd; if it has some, these must
    agree. A row without parameters has ones in D1 to D260, and one without time bits has ones
    there. Text may have lines that begin with #. Ones fill the last octet. Prints `assemble frames
    N bits B filled F`: the frames and bits of the rows, and the ones after them."""
    try:
        text = given.decode("ascii")
    except UnicodeDecodeError:
        raise Refusal(f"{words.given}: isn't text") from None
    pieces = pieces_of(words.given, text)
    line = "".join(pieces)
    if not line:
        raise Refusal(f"{words.given}: has no row")
    octets = frame_rows.octets_of_pieces(pieces)
    count = len(parts_of(octets).frames)
    said = f"assemble frames {count} bits {len(line)} filled {8 * len(octets) - len(line)}"
    return MadeFile(octets, said, Content.CHANNEL)


ASSEMBLE = FileCommand(assemble, "ROWS", "NEW", example="rows.txt 9.up")


def add_to(add: Callable[..., Words]) -> None:
    """Adds the command `frames` to those of a program."""

    def form(name: str, printed: Callable[..., Iterator[str]], text: str) -> Any:
        return switch(name, text, action="store_const", const=printed, dest="form")

    add(
        frames,
        "each frame of a line as text",
        inspect.getdoc(frames),
        option("given", type=Path, metavar="LINE", help="the line, or - for standard input"),
        option(
            "--side",
            choices=(UP, DOWN),
            help="read the control bits as those of this side; else of the one that most frames"
            " have by C1 to C5",
        ),
        one_of(
            form("--csv", by_rows(csv_of), "CSV"),
            form("--json", by_rows(json_of), "JSON"),
            form(
                "--hex",
                as_hex,
                f"a line of {FRAME_BITS // 4} hexadecimal digits for each frame",
            ),
        ),
        example="7.up --csv",
        form=by_rows(text_of),
    )
