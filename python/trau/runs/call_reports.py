"""Commands of report.py on the calls of a run: its report in sentences, the losses and pauses of
each call, and each loss."""

import argparse
from collections import Counter
from pathlib import Path
from typing import Any, Callable, Dict, List, Optional, Sequence, Tuple

from trau.command_line.side_by_side import PROCESSES, results_of
from trau.command_line.words import one_of, option
from trau.rules.lines import DOWN, PCM, SIDES, UP, name_of, whole_periods
from trau.rules.profile import FRAME_OCTETS, PERIODS_A_SECOND, SILENT_FROM_LOST
from trau.rules.report import COUNTS, Report, ReportedBridge
from trau.runs import frame_kinds, read_aloud, run_lines, run_texts
from trau.runs.answers import CSV, JSON, TABLE, Answer, ReportCommand, Row, as_sentences
from trau.runs.recording_times import Times
from trau.runs.run_lines import HEARDS, DownlinkKind, Heard, RecordedCall, longest, stretches

FOLDER = option("folder", type=Path, metavar="FOLDER", help="the folder of the run")

REPORT_COLUMNS = ("call", "start", "end", "cause", *COUNTS, "failed")


def rows_of_calls(report: Report) -> List[Row]:
    """A report's calls with their counts and their lines that failed."""
    failed = {
        call: " ".join(SIDES[each.side] for each in report.failed if each.call == call)
        for call in report.calls
    }
    return [
        dict(
            zip(
                REPORT_COLUMNS,
                (call, span.start, span.end, span.cause, *span.counts.values(), failed[call]),
            )
        )
        for call, span in report.calls.items()
    ]


def whole_report(report: Report) -> Row:
    """A report, with names for all that it says."""
    return {
        "orders": [
            {
                "order": order,
                **{name: value for name, value in reply._asdict().items() if value is not None},
            }
            for order, reply in enumerate(report.replies, 1)
        ],
        "bridges": [bridge._asdict() for bridge in report.bridges],
        "calls": rows_of_calls(report),
        "failed": [{"call": failed.call, "side": SIDES[failed.side]} for failed in report.failed],
        "end": report.end(),
        "left": report.left,
    }


def text(words: argparse.Namespace) -> Answer:
    """Reads a report aloud: why orders were refused, what bridges passed on, and of each call why
    it ended, how long it was, and how many of its periods were speech, lost speech, pauses and
    quiet. Lost frames are told from the empty ones of pauses by the uplinks. Refuses any text that
    isn't a report, octet for octet as the program writes it. The table and CSV have a row for each
    call; JSON also has the replies to the orders and the bridges."""
    report = run_texts.read_report(words.report)
    return Answer(
        REPORT_COLUMNS,
        rows_of_calls(report),
        whole_report(report),
        sentences=lambda: read_aloud.sentences(report, words.report, words.lines, words.processes),
    )


TEXT = ReportCommand(
    text,
    "a report, checked, in sentences",
    forms=one_of(JSON, CSV, TABLE),
    form=as_sentences,
    options=(
        option("report", type=Path, metavar="REPORT", help="the text that `trau run` wrote"),
        option(
            "--lines",
            type=Path,
            metavar="FOLDER",
            help="the folder of the uplinks (default: that of REPORT, as far as it has them)",
        ),
        PROCESSES,
    ),
)


CALL_COLUMNS = (
    *("call", "periods", "speech", "lost", "rate", "longest", "from"),
    *("pauses", "noise", "longest_pause", "pause_from", "descriptors", "quiet"),
    *("down_frames", "down_speech", "down_descriptors", "down_idle", "down_handed"),
    *("unused_up", "unused_pcm", "others", "utc"),
)


def unused_periods(folder: Path, call: RecordedCall, side: str) -> Optional[int]:
    """How many whole periods an incoming line has after those of its call, or None if there is no
    line."""
    is_there = (folder / name_of(call.number, side)).is_file()
    return whole_periods(folder, call.number, side) - call.periods() if is_there else None


def frames_of_downlink(folder: Path, call: RecordedCall) -> Dict[DownlinkKind, int]:
    """How many frames of each kind a call's downlink has. One that failed may be missing, a folder
    or a device, which never ends."""
    name = folder / name_of(call.number, DOWN)
    octets = b"" if DOWN in call.failed and not name.is_file() else call.octets(folder, DOWN)
    codes = b"".join(run_lines.sent(made, octets) for made in call.made)
    return {sent: codes.count(code) for code, sent in enumerate(run_lines.SENTS)}


def codes_of_others(folder: Path, call: RecordedCall) -> Counter:
    """C1 to C5 of the frames of a call's uplink that count as `other`."""
    if not call.span.counts["other"]:
        return Counter()
    return Counter(frame_kinds.codes_of_others(call.octets(folder, UP)))


def note_on_others(row: Row) -> Optional[str]:
    """What a call probably is that has no frame of full rate speech, and others."""
    if not row["others"] or row["speech"] or row["descriptors"]:
        return None
    kinds = " and ".join(
        f"{count} of {frame_kinds.said_of(code)}" for code, count in row["codes"].most_common()
    )
    return f"call {row['call']}: no full rate speech, but frames that trau doesn't decode: {kinds}"


def note_on_the_end(row: Row) -> Optional[str]:
    """That all was lost up to a call's end, as where its peer has gone before, and what was lost
    without that."""
    last, lost = row["lost_at_end"], row["lost"] - row["lost_at_end"]
    if last < SILENT_FROM_LOST or row["others"]:
        return None
    rest = f"without them {lost} of {row['speech'] + lost} are lost, {100 * lost / (row['speech'] + lost):.2f} %"
    return f"call {row['call']}: its last {last} periods are lost, as if the peer had gone; {rest}"


def cells_of_uplink(call: RecordedCall) -> Row:
    """What a call's uplink, which has been searched, says of losses and pauses."""
    codes = call.heard()
    speech, lost, noise, quiet = map(codes.count, range(len(HEARDS)))
    losses, pauses = stretches(codes, Heard.LOST), stretches(codes, Heard.NOISE)
    loss, pause = longest(losses), longest(pauses)
    return {
        "speech": speech,
        "lost": lost,
        "rate": round(lost / (speech + lost), 4) if speech + lost else None,
        "longest": loss.length if loss else 0,
        "from": call.span.start + loss.start if loss else None,
        "pauses": len(pauses),
        "noise": noise,
        "longest_pause": pause.length if pause else 0,
        "pause_from": call.span.start + pause.start if pause else None,
        "quiet": quiet,
        "lost_at_end": sum(each.length for each in losses if each.end() == len(codes)),
    }


def row_of_call(folder: Path, call: RecordedCall, bridges: Sequence[ReportedBridge]) -> Row:
    """What a call's uplink and downlink say of losses and pauses."""
    call.search(folder, bridges)
    down = frames_of_downlink(folder, call)
    others = codes_of_others(folder, call)
    return {
        "call": call.number,
        "periods": call.periods(),
        **cells_of_uplink(call),
        "descriptors": call.span.counts["sid"],
        "down_frames": sum(down.values()),
        "down_speech": down[DownlinkKind.SPEECH],
        "down_descriptors": down[DownlinkKind.VALID_SID],
        "down_idle": down[DownlinkKind.IDLE],
        "down_handed": down[DownlinkKind.HANDED],
        "unused_up": unused_periods(folder, call, UP),
        "unused_pcm": unused_periods(folder, call, PCM),
        "others": frame_kinds.counted(others),
        "codes": others,
    }


def of_each_call(
    words: argparse.Namespace, what: Callable[..., Any]
) -> List[Tuple[RecordedCall, Any]]:
    """The calls of a run, or those that the words name, each with what this function says of its
    lines."""
    name = words.report or words.folder / "report.txt"
    report = run_texts.read_report(name)
    run_texts.hold_numbers(name, report, words.calls)
    pieces = [
        (words.folder, call, run_lines.bridges_of(call, report.bridges))
        for call in run_lines.calls_of(report, words.calls)
    ]
    octets = 2 * FRAME_OCTETS * sum(call.periods() for _, call, _ in pieces)
    found = results_of(words.processes, "reading lines", what, pieces, octets)
    return [(call, each) for (_, call, _), each in zip(pieces, found)]


def calls(words: argparse.Namespace) -> Answer:
    """A row for each call of a run. Uplink: periods of `speech` and of `lost` speech, the `rate` of
    the lost ones in both (the frame erasure rate), the `longest` loss and the period of the run in
    which it begins (`from`); `pauses`, their periods of comfort `noise`, the longest one, and the
    period in which it begins; silence `descriptors`; `quiet` periods, in which nothing is heard or
    the peer of a gateway hasn't begun. `down_..`: the downlink's frames by kind, 0 if it failed and
    is no file. `unused_..`: whole periods of the incoming lines after the call's end. `others`: the
    frames that the report counts as `other`, by C1 to C5 (as `efr 731`). `utc`: when the call
    began, if its uplink is in a gateway's recording, or a link into one. Below the table a line
    names the kinds of each call that has no full rate speech, but such frames."""
    times = Times(words.folder)
    found = [
        {**row, "utc": times.said(call, call.span.start)}
        for call, row in of_each_call(words, row_of_call)
    ]
    notes = [note for row in found for note in (note_on_others(row), note_on_the_end(row)) if note]
    rows = [{column: row[column] for column in CALL_COLUMNS} for row in found]
    return Answer(CALL_COLUMNS, rows, rows, notes=notes)


CALLS = ReportCommand(
    calls,
    "losses, pauses and comfort noise of each call",
    options=(FOLDER, run_texts.REPORT, run_texts.CALLS, PROCESSES),
)


LOSS_COLUMNS = (
    *("call", "period", "periods", "seconds", "until", "in_call"),
    *("repeated", "muted", "silence", "then", "utc"),
)


def rows_of_losses(
    folder: Path, call: RecordedCall, bridges: Sequence[ReportedBridge]
) -> List[Row]:
    """The losses of a call's uplink, and what was made in place of the speech (docs/PROFILE.md,
    "Lost speech")."""
    call.search(folder, bridges)
    codes = call.heard()
    start = call.span.start
    return [
        {
            "call": call.number,
            "period": start + loss.start,
            "periods": loss.length,
            "seconds": (start + loss.start) / PERIODS_A_SECOND,
            "until": (start + loss.end()) / PERIODS_A_SECOND,
            "in_call": loss.start / PERIODS_A_SECOND,
            "repeated": 1,
            "muted": min(loss.length, SILENT_FROM_LOST - 1) - 1,
            "silence": max(0, loss.length - SILENT_FROM_LOST + 1),
            "then": HEARDS[codes[loss.end()]].value if loss.end() < len(codes) else "end",
        }
        for loss in stretches(codes, Heard.LOST)
    ]


def losses(words: argparse.Namespace) -> Answer:
    """A row for each loss of an uplink, periods in a row whose speech was lost: its first `period`,
    how many `periods` it has, from when (`seconds`) until when (`until`) it lasts in the run, and
    when it begins `in_call`, as in the sound of `lines.py listen`. Instead of the speech were
    heard, or passed on in a bridge: the last good frame `repeated`, the same more and more `muted`,
    `silence`; `then` came speech, noise (a pause), quiet or the call's end. `utc`: when it began,
    if the uplink is in a gateway's recording, or a link into one. In a pause noise is heard of
    unusable frames: they may be lost or not sent, and aren't listed."""
    times = Times(words.folder)
    found = of_each_call(words, rows_of_losses)
    rows = [
        {**row, "utc": times.said(call, row["period"])}
        for call, of_call in found
        for row in of_call
    ]
    return Answer(LOSS_COLUMNS, rows, rows)


LOSSES = ReportCommand(losses, "each loss of the calls' speech", options=CALLS.options)
