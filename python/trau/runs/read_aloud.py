"""A report in sentences: what became of its orders, bridges and calls. The report's count `bad` has
lost frames and the empty frames of pauses; the calls' uplinks tell them apart."""

from pathlib import Path
from typing import Iterator, List, NamedTuple, Optional, Sequence

from trau.command_line.side_by_side import results_of
from trau.command_line.words import Refusal
from trau.rules.profile import FRAME_OCTETS, PERIODS_A_SECOND
from trau.rules.report import Reply, Report, ReportedBridge
from trau.runs import run_lines
from trau.runs.run_lines import HEARDS, Heard, RecordedCall, longest, stretches

# Why an order was refused: {call} is the call that its line names, {partner} the other one.
REASONS = {
    1: "call {call} is open already",
    2: "call {call} isn't open",
    3: "call {call} is bridged already, with call {partner}",
    4: "call {call} isn't bridged",
    5: "call {call} can't be bridged with itself",
    6: "the bridge of call {call} with call {partner} was ended in this very period",
    7: "call {call} has ended, and a number serves one call",
}

# What periods gave by the report's counts alone, where no uplink is at hand.
COUNTS = {
    "good": "speech",
    "sid": "silence descriptors",
    "invalid": "invalid descriptors",
    "bad": "lost or empty in pauses",
    "idle": "idle frames",
    "other": "frames that aren't full rate speech",
    "miss": "missed",
    "none": "without a frame",
}
HEARD_WORDS = {
    Heard.SPEECH: "speech",
    Heard.LOST: "lost",
    Heard.NOISE: "in pauses",
    Heard.QUIET: "quiet",
}

HOW_TO_TELL = "without the uplinks lost frames can't be told from the empty ones of pauses: --lines FOLDER names their folder"


def duration(periods: int) -> str:
    """A number of periods in seconds too."""
    return (
        f"{periods} {'period' if periods == 1 else 'periods'}, {periods / PERIODS_A_SECOND:.2f} s"
    )


def said_of_cause(cause: str) -> str:
    """Why a call ended."""
    words = cause.split(" ")
    if words[0] == "closed":
        return "closed by an order"
    if words[0] == "limit":
        return "open at the last period of --periods"
    left = f", {words[2]} octets of a period left" if words[2:] and words[2] != "0" else ""
    return f"{words[1].capitalize()} {'ended' if words[0] == 'end' else 'failed'}{left}"


def said_of_heard(call: RecordedCall) -> str:
    """What the periods of a call gave, by its uplink, which has been searched."""
    codes = call.heard()
    counts = {heard: codes.count(code) for code, heard in enumerate(HEARDS)}
    said = [f"{word} {counts[heard]}" for heard, word in HEARD_WORDS.items()]
    loss = longest(stretches(codes, Heard.LOST))
    if loss:
        said[1] += f" (at most {loss.length} in a row)"
    other = call.span.counts["other"]
    more = f"; not full rate speech, and not decoded: {other}" if other else ""
    return ", ".join(said) + more


def said_of_counts(call: RecordedCall) -> str:
    """What the periods of a call gave, by the report alone."""
    return ", ".join(
        f"{word} {call.span.counts[count]}"
        for count, word in COUNTS.items()
        if call.span.counts[count]
    )


def said_of_call(call: RecordedCall, heard: str) -> str:
    """The row of a call."""
    start = f", from {call.span.start / PERIODS_A_SECOND:.2f} s on" if call.span.start else ""
    failed = "".join(f"; its {side.capitalize()} line failed" for side in call.failed)
    return f"call {call.number}: {said_of_cause(call.span.cause)}; {duration(call.periods())}{start}{f': {heard}' if heard else ''}{failed}"


class Row(NamedTuple):
    """The row of a call, and whether its uplink was at hand."""

    said: str
    is_told_apart: bool


def row_of_call(
    folder: Path, call: RecordedCall, bridges: Sequence[ReportedBridge], is_named: bool
) -> Row:
    """The row of a call, by its uplink in the folder. Where nobody named the folder, an uplink that
    isn't there or isn't of this run is done without."""
    try:
        call.search(folder, bridges)
    except Refusal:
        if is_named:
            raise
        return Row(said_of_call(call, said_of_counts(call)), False)
    return Row(said_of_call(call, said_of_heard(call) if call.periods() else ""), True)


def said_of_orders(replies: Sequence[Reply], left: int) -> Iterator[str]:
    """How many orders were accepted, and why others were refused."""
    refused = [
        f"order {order}: {REASONS[reply.refusal].format(call=reply.call, partner=reply.partner)}"
        for order, reply in enumerate(replies, 1)
        if reply.refusal is not None
    ]
    yield f"orders: {len(replies) - len(refused)} accepted, {len(refused)} refused, {left} left"
    yield from refused


def said_of_bridge(bridge: ReportedBridge) -> str:
    """What a bridge passed on."""
    (a, b), (to_b, to_a), lost = bridge.calls, bridge.sent, sum(bridge.lost)
    span = f"{duration(bridge.end - bridge.start)}, from {bridge.start / PERIODS_A_SECOND:.2f} s on"
    return (
        f"calls {a} and {b}: bridged for {span}: frames to {b} {to_b}, to {a} {to_a}, lost {lost}"
    )


def sentences(report: Report, name: Path, folder: Optional[Path], processes: int) -> List[str]:
    """The report in sentences. The uplinks are in the folder, or if none is named, perhaps in that
    of the report."""
    where = folder or name.parent
    pieces = [
        (where, call, run_lines.bridges_of(call, report.bridges), folder is not None)
        for call in run_lines.calls_of(report)
    ]
    octets = FRAME_OCTETS * sum(call.periods() for _, call, _, _ in pieces)
    rows = list(results_of(processes, "searching uplinks", row_of_call, pieces, octets))
    said = [
        *said_of_orders(report.replies, report.left),
        *map(said_of_bridge, report.bridges),
        *(row.said for row in rows),
    ]
    if not all(row.is_told_apart for row in rows):
        said.append(HOW_TO_TELL)
    return said
