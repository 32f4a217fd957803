"""Commands of report.py on one uplink: where the search for frames lost it, and of which kinds its
frames are."""

import argparse
from pathlib import Path
from typing import Dict, List

from trau.command_line.files import read_file
from trau.command_line.words import Refusal, option
from trau.rules.frame import bits_of
from trau.rules.search import period_of, search
from trau.runs import frame_kinds, sync_losses
from trau.runs.answers import Answer, ReportCommand, Row

UPLINK = option("uplink", type=Path, metavar="UPLINK", help="the Up line")

SYNC_COLUMNS = (
    *("due", "period", "misses", "broken", "hunted_from"),
    *("match", "slip", "found", "found_period"),
)


def row_of_loss(loss: sync_losses.Loss) -> Row:
    """A loss, for text and CSV: of its first miss the sync bits that broke."""
    return {
        "due": loss.due(),
        "period": period_of(loss.due()),
        "misses": len(loss.misses),
        "broken": " ".join(map(str, loss.misses[0].broken)),
        "hunted_from": loss.unlocked(),
        "match": loss.match,
        "slip": loss.slip(),
        "found": loss.found,
        "found_period": None if loss.found is None else period_of(loss.found),
    }


def sync(words: argparse.Namespace) -> Answer:
    """A row for each loss of an uplink (misses in a row): the bit at which the first frame was due,
    its period, the number of misses, the places of the broken sync bits within that frame, the bit
    from which the search hunted (- if it stayed locked), the next match at any bit, its distance in
    bits from the places due, and the next frame that the search found. JSON has the broken bits of
    all misses. Bits and periods are counted from the line's start."""
    frames = read_file(words.frames) if words.frames else None
    trace = sync_losses.trace_of(words.uplink, read_file(words.uplink), frames)
    if not trace.frames:
        raise Refusal(f"{words.uplink}: has no frame at any bit; is it an uplink?")
    rows = [row_of_loss(loss) for loss in trace.losses]
    broken = (
        [{"place": miss.place, "sync_bits": miss.broken} for miss in loss.misses]
        for loss in trace.losses
    )
    whole = {
        **trace._asdict(),
        "losses": [{**row, "broken": misses} for row, misses in zip(rows, broken)],
    }
    return Answer(SYNC_COLUMNS, rows, whole)


SYNC = ReportCommand(
    sync,
    "where and why an uplink lost sync",
    options=(
        UPLINK,
        option(
            "--frames",
            type=Path,
            metavar="FILE",
            help="what `trau frames` printed for the line; refuse the line if it differs",
        ),
    ),
)
KIND_COLUMNS = ("code", "kind", "frames", "first", "first_period", "last", "last_period")


def kinds(words: argparse.Namespace) -> Answer:
    """A row for each kind of frames that the search finds on an uplink: C1 to C5, what they mean by
    GSM 08.60, the number of frames, and the bits at which the first and the last of them begin,
    with their periods. `trau frames` prints `other` for all that aren't full rate speech or idle
    frames of an uplink."""
    places: Dict[str, List[int]] = {}
    for each in search(bits_of(read_file(words.uplink))):
        if each.frame is not None:
            places.setdefault(frame_kinds.code_of(each.frame), []).append(each.place)
    if not places:
        raise Refusal(f"{words.uplink}: has no frame at any bit; is it an uplink?")
    rows = []
    for code, found in sorted(places.items(), key=lambda item: (-len(item[1]), item[0])):
        ends = (found[0], period_of(found[0]), found[-1], period_of(found[-1]))
        rows.append(dict(zip(KIND_COLUMNS, (code, frame_kinds.name_of(code), len(found), *ends))))
    return Answer(KIND_COLUMNS, rows, rows)


KINDS = ReportCommand(kinds, "of which kinds the frames of an uplink are", options=(UPLINK,))
