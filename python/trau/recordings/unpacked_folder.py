"""The folder that `lines.py unpack` makes: the lines of calls, so that `trau run <orders.txt` in it
just works.

- `C.up`, `C.pcm`, `C.down`: the lines of call C. An uplink or a Pcm line that the recording doesn't
  have is idle; idle lines are one file with many names, which nobody may write.
- `orders.txt`: opens each call with an incoming line at its period of the recording.
- `calls.csv`: a row for each line, with where it lay in the recording, and the SHA-256 of the
  recording and of the line.
- `clock.txt`: the UTC of period 0, if it is known, as of a gateway's recording.

More calls than a run takes go to several folders, 1, 2 and so on, within this one.
"""

import csv
import hashlib
import os
import shutil
from dataclasses import asdict, dataclass, fields
from pathlib import Path
from typing import Dict, Iterator, List, Optional

from trau.command_line.ends import naming
from trau.command_line.words import Refusal
from trau.recordings import uplink_frames
from trau.recordings.scan_rows import ScanRow, utc_of
from trau.rules.g711 import Law
from trau.rules.lines import DOWN, OCTETS_OF_SIDE, PCM, UP, name_of
from trau.rules.profile import MOST_CALLS, PCM_OCTETS

READ_ONLY = 0o444
IDLE_PERIODS = 500  # of an idle line, written at a time
ORDERS, CALLS, CLOCK = "orders.txt", "calls.csv", "clock.txt"


@dataclass
class UnpackedLine:
    """A line of a call: its side, where it lay, the period of the recording with which it begins
    and how many it has, the octet of the slot or the number of the packet with which it begins, its
    law, and its SHA-256 once it is written.
    """

    row: ScanRow
    side: str
    period: int
    periods: int
    offset: int
    law: Law = Law.A
    sha256: str = ""


@dataclass
class UnpackedCall:
    """A call: its lines by side, and the other one of its pair, if that is sure: its number, the
    delay of the second in milliseconds, and by what they were found."""

    lines: Dict[str, UnpackedLine]
    number: int = 0
    folder: str = ""
    pair: Optional["UnpackedCall"] = None
    delay: Optional[float] = None
    paired_by: str = ""

    def period(self) -> int:
        """The period with which its first line begins."""
        return min(line.period for line in self.lines.values())

    def end(self) -> int:
        """The period after its last line."""
        return max(line.period + line.periods for line in self.lines.values())

    def opens(self) -> bool:
        """Whether a run has it: a downlink alone isn't an incoming line."""
        return UP in self.lines or PCM in self.lines

    def law(self) -> Law:
        """The law of its line from the exchange."""
        return self.lines[PCM].law if PCM in self.lines else Law.A


ROW_COLUMNS = [each.name for each in fields(ScanRow)]
COLUMNS = [
    *("folder", "call", "line", *ROW_COLUMNS, "period", "periods", "offset"),
    *("pair_folder", "pair", "delay_ms", "paired_by", "recording", "recording_sha256", "sha256"),
]


def number_calls(calls: List[UnpackedCall]) -> None:
    """Gives calls their numbers in the order in which they begin, and their folders where they are
    too many for one."""
    calls.sort(key=lambda call: call.period())
    for at, call in enumerate(calls):
        call.number = at % MOST_CALLS + 1
        call.folder = str(at // MOST_CALLS + 1) if len(calls) > MOST_CALLS else ""


def sha256_of(path: Path) -> str:
    """The SHA-256 of a file."""
    found = hashlib.sha256()
    with open(path, "rb") as file:
        for block in iter(lambda: file.read(1 << 20), b""):
            found.update(block)
    return found.hexdigest()


class UnpackedFolder:
    """A folder that is made beside its place, and put there when it is whole."""

    def __init__(self, place: Path) -> None:
        self.place = place
        self.part = place.with_name(f".{place.name}.{os.getpid()}.part")

    def __enter__(self) -> "UnpackedFolder":
        with naming(self.place):
            if self.place.exists() and not self.place.is_dir():
                raise Refusal(f"{self.place}: isn't a folder")
            if self.place.exists() and any(self.place.iterdir()):
                raise Refusal(f"{self.place}: has files; a recording is unpacked to a new folder")
            self.part.mkdir(parents=True)
        return self

    def __exit__(self, kind: object, failure: object, *_: object) -> None:
        if isinstance(failure, OSError) and self.has(failure.filename):
            failure.filename = str(self.place)
        if kind is None:
            with naming(self.place):
                if self.place.exists():
                    self.place.rmdir()
                self.part.rename(self.place)
        else:
            shutil.rmtree(self.part, ignore_errors=True)

    def has(self, name: Optional[str]) -> bool:
        """Whether a failure names a file of the folder; where a disk is full it names nothing."""
        return name is None or self.part in Path(name).parents

    def folder_of(self, call: UnpackedCall) -> Path:
        """The folder of a call's lines."""
        folder = self.part / call.folder
        folder.mkdir(exist_ok=True)
        return folder

    def path(self, call: UnpackedCall, side: str) -> Path:
        """The file of a call's line."""
        return self.folder_of(call) / name_of(call.number, side)

    def finish(
        self, calls: List[UnpackedCall], recording: Path, sha256: str, begins: Optional[float]
    ) -> None:
        """Writes what is beside the calls' lines: idle lines, orders, the table and the clock."""
        for folder in sorted({call.folder for call in calls} or {""}):
            within = [call for call in calls if call.folder == folder]
            path = self.part / folder
            path.mkdir(exist_ok=True)
            add_idle_lines(path, within)
            orders = "".join(map(order_of, filter(UnpackedCall.opens, within)))
            (path / ORDERS).write_text(orders)
            if begins is not None and utc_of(begins):
                (path / CLOCK).write_text(f"0 at {utc_of(begins)}\n")
        with open(self.part / CALLS, "w", newline="") as file:
            writer = csv.DictWriter(file, COLUMNS, lineterminator="\n")
            writer.writeheader()
            for call in calls:
                writer.writerows(rows_of(call, recording, sha256))


def order_of(call: UnpackedCall) -> str:
    """The order that opens a call."""
    return f"{call.period()} open {call.number}{' mulaw' if call.law() is Law.MU else ''}\n"


def rows_of(call: UnpackedCall, recording: Path, sha256: str) -> Iterator[Dict[str, object]]:
    """The rows of a call's lines in the table."""
    for side, line in call.lines.items():
        other = call.pair
        yield {
            **asdict(line.row),
            **{"folder": call.folder, "call": call.number, "line": side},
            **{"start": f"{line.row.start:.3f}", "end": f"{line.row.end:.3f}"},
            **{"period": line.period, "periods": line.periods, "offset": line.offset},
            **{"pair_folder": other.folder if other else "", "pair": other.number if other else ""},
            **{"delay_ms": "" if call.delay is None else f"{call.delay:.3f}"},
            **{"paired_by": call.paired_by, "recording": recording.name},
            **{"recording_sha256": sha256, "sha256": line.sha256},
        }


# Idle lines


def idle_period(line: UnpackedLine) -> bytes:
    """An idle period of a line."""
    return uplink_frames.IDLE if line.side == UP else PCM_OCTETS * bytes([line.law.idle()])


def add_idle_lines(folder: Path, calls: List[UnpackedCall]) -> None:
    """Gives each call the incoming line that the recording doesn't have: idle, as long as the
    longest one needs."""
    missing: Dict[str, List[UnpackedCall]] = {}
    for call in filter(UnpackedCall.opens, calls):
        if UP not in call.lines:
            missing.setdefault(f"idle-{UP}", []).append(call)
        if PCM not in call.lines:
            missing.setdefault(f"idle-{PCM}-{call.law()}", []).append(call)
    for name, without in missing.items():
        side = name.split("-")[1]
        idle = uplink_frames.IDLE if side == UP else PCM_OCTETS * bytes([without[0].law().idle()])
        periods = max(call.end() - call.period() for call in without)
        with open(folder / name, "wb") as file:
            for start in range(0, periods, IDLE_PERIODS):
                file.write(idle * min(IDLE_PERIODS, periods - start))
        os.chmod(folder / name, READ_ONLY)
        for call in without:
            give_name(folder / name, folder / name_of(call.number, side))


def give_name(file: Path, name: Path) -> None:
    """Gives a file one more name, or copies it where the file system has no such names."""
    try:
        os.link(file, name)
    except OSError:
        shutil.copyfile(file, name)
