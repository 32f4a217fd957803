"""What a recording has, as rows: a channel, a slot or a stream, what it carries, and from when to
when; as a table, CSV or JSON."""

import csv
import io
import json
from dataclasses import asdict, dataclass, fields
from datetime import datetime, timedelta, timezone
from typing import List, Optional, Sequence

# What a row carries.
UPLINK, DOWNLINK, OTHER_FRAMES = "uplink", "downlink", "other-frames"
ALAW, MULAW, GSM, IDLE, UNKNOWN = "alaw", "mulaw", "gsm", "idle", "unknown"


@dataclass
class ScanRow:
    """A row: where (slot and channel, or addresses with ports and SSRC); its kind, and more about
    it in a word; from when to when, in seconds of the recording; how many frames or packets came,
    how many of them are silence descriptors, and how many were lost, as far as that is known."""

    kind: str
    start: float
    end: float
    slot: Optional[int] = None
    channel: Optional[int] = None
    source: str = ""
    target: str = ""
    ssrc: str = ""
    detail: str = ""
    utc: str = ""
    frames: Optional[int] = None
    descriptors: Optional[int] = None
    lost: Optional[int] = None

    def place(self) -> str:
        """Where it is, in words."""
        if self.slot is None:
            return f"{self.source} to {self.target} {self.ssrc}"
        return f"slot {self.slot}" + (f".{self.channel}" if self.channel is not None else "")


COLUMNS = [each.name for each in fields(ScanRow)]
NUMBERS = ("frames", "descriptors", "lost")
TABLE_HEADS = ("where", "kind", "from", "to", "utc", *NUMBERS, "detail")


def utc_of(seconds: float) -> str:
    """A time in seconds since 1970 as UTC, as the clock of a recording has it; nothing where no
    date is so far away."""
    try:
        time = datetime(1970, 1, 1, tzinfo=timezone.utc) + timedelta(seconds=round(seconds, 3))
    except OverflowError:
        return ""
    return time.isoformat(timespec="milliseconds")


def with_utc(rows: Sequence[ScanRow], begins: Optional[float]) -> None:
    """Puts the UTC at which each begins into rows, if it is known when the recording begins, in
    seconds since 1970."""
    for row in rows if begins is not None else ():
        row.utc = utc_of((begins or 0.0) + row.start)


def words_of(row: ScanRow) -> List[str]:
    """A row in the words of the table; what isn't known is a dash."""
    numbers = (
        "-" if value is None else str(value) for value in (row.frames, row.descriptors, row.lost)
    )
    times = (f"{row.start:.3f}", f"{row.end:.3f}", row.utc or "-")
    return [row.place(), row.kind, *times, *numbers, row.detail]


def table_of(rows: Sequence[ScanRow]) -> str:
    """Rows as a table."""
    lines = [list(TABLE_HEADS), *map(words_of, rows)]
    if not any(row.utc for row in rows):
        for line in lines:
            del line[TABLE_HEADS.index("utc")]
    widths = [max(map(len, column)) for column in zip(*lines)]
    return "".join(
        "  ".join(word.ljust(width) for word, width in zip(line, widths)).rstrip() + "\n"
        for line in lines
    )


def csv_of(rows: Sequence[ScanRow]) -> str:
    """Rows as CSV."""
    text = io.StringIO()
    writer = csv.DictWriter(text, COLUMNS, lineterminator="\n")
    writer.writeheader()
    writer.writerows(
        {**asdict(row), "start": f"{row.start:.3f}", "end": f"{row.end:.3f}"} for row in rows
    )
    return text.getvalue()


def json_of(rows: Sequence[ScanRow]) -> str:
    """Rows as JSON."""
    return json.dumps([asdict(row) for row in rows], indent=1) + "\n"
