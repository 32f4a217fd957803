"""The command of report.py that says what differs between two runs, or between two lines."""

import argparse
from itertools import zip_longest
from pathlib import Path
from typing import Iterator, List, Optional

from trau.command_line.files import read_file
from trau.command_line.words import Refusal, option
from trau.recordings.line_parts import LineParts, parts_of
from trau.rules.lines import OCTETS_OF_SIDE, SIDES, name_of
from trau.rules.profile import PERIODS_A_SECOND
from trau.rules.report import Report
from trau.runs import run_texts
from trau.runs.answers import Answer, ReportCommand, Row
from trau.runs.frame_differences import compare_frames
from trau.runs.line_verdicts import Comparison, LineLikeness
from trau.runs.sound_differences import compare_sound

LINE_COLUMNS = ("what", "from", "seconds", "count", "one", "other")
KINDS_OF_LINE = {True: "a line of frames", False: "sound"}  # by whether it has frames
COMPARE_COLUMNS = ("call", "what", "period", "seconds", "octet", "periods", "one", "other")


def line_of(folder: Path, number: int, side: str) -> Optional[bytes]:
    """The octets of a line, or None where there is none, as where a folder or a device has its
    name."""
    name = folder / name_of(number, side)
    return read_file(name) if name.is_file() else None


def periods_that_differ(one: bytes, other: bytes, octets: int) -> List[int]:
    """The periods, from the first of the lines, in which they differ."""
    last = -(-max(len(one), len(other)) // octets)
    return [
        period
        for period in range(last)
        if one[period * octets : (period + 1) * octets]
        != other[period * octets : (period + 1) * octets]
    ]


def first_octet_that_differs(one: bytes, other: bytes, start: int) -> int:
    """The first octet from a start on in which two lines differ, or the end of the shorter."""
    differing = (
        place for place, (a, b) in enumerate(zip(one[start:], other[start:]), start) if a != b
    )
    return next(differing, min(len(one), len(other)))


def said_of_size(line: Optional[bytes]) -> str:
    """How long a line is, in words."""
    return "no line" if line is None else f"{len(line)} octets"


def row_of_line(
    number: int, side: str, start: int, one: Optional[bytes], other: Optional[bytes]
) -> Optional[Row]:
    """What differs between two lines of a call, or None."""
    if one == other:
        return None
    octets = OCTETS_OF_SIDE[side]
    row: Row = {"call": number, "what": side}
    if one is None or other is None:
        return {**row, "one": said_of_size(one), "other": said_of_size(other)}
    periods = periods_that_differ(one, other, octets)
    octet = first_octet_that_differs(one, other, periods[0] * octets)
    period = start + periods[0]
    row.update(period=period, seconds=period / PERIODS_A_SECOND, octet=octet, periods=len(periods))
    if len(one) != len(other):
        row.update(one=said_of_size(one), other=said_of_size(other))
    return row


def rows_of_reports(one: Report, other: Report) -> Iterator[Row]:
    """What differs between two reports."""
    orders = [
        [reply.line(order) for order, reply in enumerate(each.replies, 1)] for each in (one, other)
    ]
    bridges = [[bridge.line() for bridge in each.bridges] for each in (one, other)]
    for what, lines in (("order", orders), ("bridge", bridges)):
        for number, (a, b) in enumerate(zip_longest(*lines, fillvalue="-"), 1):
            if a != b:
                yield {"what": f"{what} {number}", "one": a, "other": b}
    for number in sorted({*one.calls, *other.calls}):
        said = [
            each.calls[number].lines(number) if number in each.calls else ["-", "-"]
            for each in (one, other)
        ]
        for what, a, b in zip(("span", "counts"), *said):
            if a != b:
                yield {"call": number, "what": what, "one": a, "other": b}
    for failed in sorted({*one.failed} ^ {*other.failed}):
        a, b = (failed.line() if failed in each.failed else "-" for each in (one, other))
        yield {"call": failed.call, "what": "failed", "one": a, "other": b}


def compare(words: argparse.Namespace) -> Answer:
    """Of two folders: a row for each line of the reports, and for each recorded line, that differs
    between two runs. Of a recorded line: the first period and octet that differ, and how many
    periods differ.

    Of two files, which are lines without a report: how they are alike, once the second is shifted
    so that most of it fits the first, and a row for each stretch that differs. Lines of frames are
    compared by the control bits and parameters of their frames, and sound by octets. They are the
    same; the same but for a delay, or for draws (grid positions and pulses of comfort noise, and
    grid positions of repeated frames); different from a reset on, as a codec is that starts anew
    after idle frames or silence; different; or it isn't sure, if no shift plainly makes them fit.
    `from` is a frame of the first line, or a period of its sound; of `only other`, frames that the
    second line alone has, one of the second.

    The status is 0 if nothing differs, else 1."""
    if words.one.is_dir() or words.other.is_dir():
        return compare_runs(words)
    return compare_lines(words)


def compare_lines(words: argparse.Namespace) -> Answer:
    """What differs between two lines."""
    one, other = read_file(words.one), read_file(words.other)
    if one == other:
        found = Comparison(LineLikeness.SAME, "", 0, [])
    else:
        found = compared_lines(words, one, other)
    whole = {"likeness": found.likeness.value, "why": found.why, "shift": found.shift}
    first: Row = {"what": "likeness", "one": found.likeness.value}
    return Answer(
        LINE_COLUMNS,
        [first, *found.rows],
        {**whole, "differences": found.rows},
        0 if found.likeness is LineLikeness.SAME else 1,
        notes=[found.said()],
    )


def compared_lines(words: argparse.Namespace, one: bytes, other: bytes) -> Comparison:
    """What differs between two lines of the same kind. Raises Refusal if they aren't."""
    parts = [parts_of(one), parts_of(other)]
    has_frames = [frames_cover(*each) for each in zip((one, other), parts)]
    names = [
        f"{name} is {KINDS_OF_LINE[has]}" for name, has in zip((words.one, words.other), has_frames)
    ]
    if has_frames[0] != has_frames[1]:
        raise Refusal(f"{' and '.join(names)}, which can't be compared")
    if not has_frames[0]:
        return compare_sound(one, other)
    if parts[0].side() != parts[1].side():
        raise Refusal(
            f"{words.one} is of {parts[0].side()}, and {words.other} of {parts[1].side()}"
        )
    return compare_frames(*parts)


def frames_cover(octets: bytes, parts: LineParts) -> bool:
    """Whether frames are most of a line from the first of them on."""
    if not parts.frames:
        return False
    inside = sum(len(frame.bits) for frame in parts.frames)
    return 2 * inside >= 8 * len(octets) - parts.frames[0].place


def compare_runs(words: argparse.Namespace) -> Answer:
    """What differs between two runs."""
    reports = [run_texts.read_report(folder / "report.txt") for folder in (words.one, words.other)]
    rows = list(rows_of_reports(*reports))
    numbers = sorted({*reports[0].calls, *reports[1].calls})
    for number in numbers:
        start = min(report.calls[number].start for report in reports if number in report.calls)
        for side in SIDES:
            row = row_of_line(
                number,
                side,
                start,
                *(line_of(folder, number, side) for folder in (words.one, words.other)),
            )
            rows += [row] if row else []
    return Answer(
        COMPARE_COLUMNS, rows, {"calls": len(numbers), "differences": rows}, 1 if rows else 0
    )


COMPARE = ReportCommand(
    compare,
    "what differs between two runs, or two lines",
    options=(
        option(
            "one",
            type=Path,
            metavar="ONE",
            help="the folder of a run, with its report.txt; or a line",
        ),
        option("other", type=Path, metavar="OTHER", help="the folder of another run; or a line"),
    ),
)
