"""Says what is wrong with the orders of a run, line by line and in words; `trau run` names only the
first bad line. It also strips comments and empty lines, which `trau run` doesn't take, from orders,
and reckons the number of the order `level` for a tone.

It warns of orders that are in the grammar but that the run will refuse, and of lines that aren't
what their names say.
"""

import argparse
import inspect
import math
from pathlib import Path
from typing import Sequence

from trau.command_line.ends import tool
from trau.command_line.files import STREAM, read_file, write_file
from trau.command_line.words import Option, Words, option
from trau.rules.g711 import Law
from trau.rules.profile import MOST_LEVEL
from trau.runs import tone_peaks
from trau.runs.order_check import CHECK_OPTIONS, check
from trau.runs.order_text import COMMENT


def strip(words: argparse.Namespace) -> int:
    """Writes the orders without comments, which begin with # anywhere in a line and the spaces
    before them, and without empty lines. `trau run` numbers the remaining lines."""
    lines = read_file(words.orders).split(b"\n")
    kept = [line for line in map(without_comment, lines) if line]
    content = b"".join(line + b"\n" for line in kept)
    write_file(words.new, content, [words.orders])
    if words.new != STREAM:
        print(f"strip orders {len(kept)}")
    return 0


def without_comment(line: bytes) -> bytes:
    """A line without its comment and the spaces before it; a line without a comment stays as it is,
    unless it has nothing but spaces."""
    text, mark, _ = line.partition(COMMENT.encode())
    blank = b" \t\r"
    return text.rstrip(blank) if mark or not text.strip(blank) else line


def level(words: argparse.Namespace) -> int:
    """Prints up to which number V of the order `S level C V` each frame of a tone on the Pcm line
    counts as speech, and from which on none does; between them its phase decides. The peaks of its
    frames are computed as the encoder does it (GSM 06.10, sections 4.2.1 to 4.2.3), for 200 frames
    at all phases."""
    peaks = tone_peaks.peaks_of_tone(words.dbm0, words.hertz, words.law)
    silence = f"from {max(peaks) + 1}" if max(peaks) < MOST_LEVEL else "never"
    print(
        f"level tone {words.dbm0:g} dBm0 {words.hertz:g} Hz speech to {min(peaks)} silence {silence}"
    )
    return 0


def figure(name: str, least: float, most: float, what: str) -> Option:
    """An argument that is a figure between these ends."""

    def read(word: str) -> float:
        try:
            found = float(word)
        except ValueError:
            found = math.nan
        if not least <= found <= most:
            raise argparse.ArgumentTypeError(f"{word} isn't {least:g} to {most:g}")
        return found

    return option(name, type=read, metavar=name.upper(), help=f"{what}, {least:g} to {most:g}")


STRIP_OPTIONS = (
    option(
        "orders",
        type=Path,
        nargs="?",
        default=STREAM,
        metavar="ORDERS",
        help="the file of the orders (default standard input, which - names too)",
    ),
    option(
        "new",
        type=Path,
        nargs="?",
        default=STREAM,
        metavar="OUT",
        help="the file to write (default standard output); never the one that is read",
    ),
)
LEVEL_OPTIONS = (
    figure("dbm0", tone_peaks.LEAST_DBM0, tone_peaks.MOST_DBM0, "the tone's level in dBm0"),
    figure("hertz", tone_peaks.LEAST_HERTZ, tone_peaks.MOST_HERTZ, "its frequency in Hz"),
    option(
        "--law",
        type=Law,
        choices=list(Law),
        default=Law.A,
        help="the law of the line (default alaw)",
    ),
)


@tool("orders.py")
def main(words: Sequence[str]) -> int:
    """Runs the words of the command line, and returns the exit status."""
    program = Words(__doc__)
    add = program.commands()
    add(
        check,
        "says what is wrong with orders",
        inspect.getdoc(check),
        *CHECK_OPTIONS,
        example="orders.txt --lines .",
    )
    add(
        strip,
        "leaves out comments and empty lines",
        inspect.getdoc(strip),
        *STRIP_OPTIONS,
        example="<notes.txt | trau run",
    )
    add(
        level,
        "says which number `level` is for a tone",
        inspect.getdoc(level),
        *LEVEL_OPTIONS,
        example="-30 1000",
    )
    asked = program.parse_args(words)
    return asked.runs(asked)
