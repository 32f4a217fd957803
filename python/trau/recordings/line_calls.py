"""The calls on a line of slots: runs of frames joined to calls by channel, what the slots have
beside them, and both as rows."""

from dataclasses import dataclass
from collections import Counter
from itertools import groupby
from typing import Iterable, Iterator, List, Optional, Sequence, Tuple

from trau.recordings import scan_rows
from trau.recordings.scan_rows import ScanRow
from trau.recordings.slot_scan import LEAST_ROW, FrameRun, SlotStretch
from trau.rules.g711 import Law
from trau.rules.hunt import FRAME_SLOT_OCTETS
from trau.rules.profile import PERIODS_A_SECOND, SAMPLES_A_SECOND, UP_IDLE, UP_SPEECH
from trau.runs import frame_kinds
from trau.runs.octet_columns import table
from trau.runs.run_lines import LOST_HEARD, heard_codes
from trau.runs.uplink_periods import IDLE, MISSED, OTHER, VALID_SID, speech_code

MOST_GAP = (
    PERIODS_A_SECOND * FRAME_SLOT_OCTETS
)  # octets of the slot, 1 s: a longer one ends the call
PATTERN_BITS = 3  # the code of a frame has C1 to C5 above these


def kind_of_code(code: int) -> int:
    """The kind of an uplink's frame by its code."""
    pattern = f"{code >> PATTERN_BITS:05b}"
    if pattern == UP_SPEECH:
        return speech_code((code & 7) << 1)
    return IDLE if pattern == UP_IDLE else OTHER


KINDS_OF_CODES = table(kind_of_code)
PATTERNS = table(lambda code: code >> PATTERN_BITS)


@dataclass
class ChannelCall:
    """A call in a channel: from which octet of the slot to which; the pattern C1 to C5 that most of
    its frames of speech have, its word, how many frames it has, and the kind of each of its
    periods, as of an uplink."""

    slot: int
    channel: int
    start: int
    end: int
    kind: str
    detail: str
    frames: int
    kinds: bytes

    def row(self) -> ScanRow:
        """The call as a row."""
        row = ScanRow(
            self.kind,
            self.start / SAMPLES_A_SECOND,
            self.end / SAMPLES_A_SECOND,
            self.slot,
            self.channel,
            detail=self.detail,
            frames=self.frames,
        )
        if self.kind == scan_rows.UPLINK:
            put_counts(row, self.kinds)
        return row


def put_counts(row: ScanRow, kinds: bytes) -> None:
    """Puts into the row of an uplink what the kinds of its periods say."""
    row.descriptors = kinds.count(VALID_SID)
    row.lost = heard_codes(kinds).count(LOST_HEARD)


def kind_of_patterns(codes: bytes) -> Tuple[str, str]:
    """What frames of these codes are, with a word for other kinds than full rate speech; nothing if
    most are of no known kind."""
    counts = Counter(
        {f"{pattern:05b}": count for pattern, count in Counter(codes.translate(PATTERNS)).items()}
    )
    ways = {
        scan_rows.UPLINK: sum(counts[code] for code in frame_kinds.UP),
        scan_rows.DOWNLINK: sum(counts[code] for code in frame_kinds.DOWN),
        scan_rows.OTHER_FRAMES: sum(counts[code] for code in frame_kinds.OTHERS),
    }
    if 2 * sum(ways.values()) < len(codes):
        return "", ""
    kind = max(ways, key=lambda way: ways[way])
    others = {code: count for code, count in counts.items() if code in frame_kinds.OTHERS}
    return kind, frame_kinds.counted(others) if others else ""


def joined_runs(runs: Iterable[FrameRun]) -> Iterator[List[FrameRun]]:
    """The runs of a channel, in the order of time, call by call."""
    call: List[FrameRun] = []
    for run in runs:
        if call and run.start - call[-1].end() >= MOST_GAP:
            yield call
            call = []
        call.append(run)
    if call:
        yield call


def kinds_of_runs(runs: Sequence[FrameRun]) -> bytes:
    """The kinds of the periods of a call: of its frames, and missed ones where frames are missing
    between runs."""
    parts: List[bytes] = []
    end: Optional[int] = None
    for run in runs:
        missing = 0 if end is None else round((run.start - end) / FRAME_SLOT_OCTETS)
        parts.append(bytes([MISSED]) * max(0, missing))
        parts.append(bytes(run.codes).translate(KINDS_OF_CODES))
        end = run.end()
    return b"".join(parts)


def calls_of(runs: Sequence[FrameRun]) -> Iterator[ChannelCall]:
    """The calls of runs, which are in the order of slots, channels and time. Some frames alone may
    be there by chance."""
    for (slot, channel), of_channel in groupby(runs, lambda run: (run.slot, run.channel)):
        for call in joined_runs(of_channel):
            codes = b"".join(bytes(run.codes) for run in call)
            kind, detail = kind_of_patterns(codes)
            if kind and max(len(run.codes) for run in call) >= LEAST_ROW:
                yield ChannelCall(
                    slot,
                    channel,
                    call[0].start,
                    max(run.end() for run in call) + any(run.is_odd for run in call),
                    kind,
                    detail,
                    len(codes),
                    kinds_of_runs(call),
                )


LAW_KINDS = {Law.A: scan_rows.ALAW, Law.MU: scan_rows.MULAW}


def row_of_stretch(stretch: SlotStretch) -> ScanRow:
    """A stretch of a slot as a row."""
    kind, detail = scan_rows.UNKNOWN, ""
    if stretch.value is not None:
        kind, detail = scan_rows.IDLE, f"0x{stretch.value:02x}"
    elif stretch.reading and stretch.reading.law:
        if stretch.reading.turned:
            detail = f"{stretch.reading.law} with its bits in the other order, as it seems"
        else:
            kind = LAW_KINDS[stretch.reading.law]
    start, end = stretch.start / SAMPLES_A_SECOND, stretch.end / SAMPLES_A_SECOND
    return ScanRow(kind, start, end, stretch.slot, detail=detail)


def in_order(rows: Iterable[ScanRow]) -> List[ScanRow]:
    """Rows in the order of slots, and of time within each."""
    return sorted(
        rows,
        key=lambda row: (row.slot or 0, row.start, -1 if row.channel is None else row.channel),
    )
