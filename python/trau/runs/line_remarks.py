"""What is said, before a run, of the incoming lines of a call that an order opens: warnings of lines
that will fail or that aren't what their names say, and notes on what won't be used."""

import os
from pathlib import Path
from typing import Optional

from trau.recordings import file_kinds, readings
from trau.recordings.excerpts import Excerpts
from trau.recordings.file_descriptions import FileDescription, FileKind
from trau.rules.lines import INCOMING, PCM, UP, name_of, whole_periods
from trau.rules.orders import Order

LOOKED_AT = 4000  # octets of a line, so that a farm of thousands of calls is looked at in seconds


def is_unending(path: Path) -> bool:
    """Whether a line is a pipe or a device, whose length nobody knows."""
    return path.exists() and not path.is_file() and not path.is_dir()


def has_unending(folder: Path, call: int) -> bool:
    """Whether an incoming line of a call is a pipe or a device."""
    return any(is_unending(folder / name_of(call, side)) for side in INCOMING)


def looked_at(name: Path) -> Excerpts:
    """What is looked at of a line: its first octets where these show what it is; else, as after an
    idle start, what `look` looks at."""
    head = file_kinds.head_of(name, LOOKED_AT)
    octets = head.head()
    is_idle = octets.count(octets[:1]) == len(octets)
    shows = file_kinds.known_kind(head) or not is_idle and readings.best_reading(octets)
    return head if shows or head.size <= len(octets) else file_kinds.excerpts_of_file(name)


def other_kind(name: Path, side: str, order: Order) -> Optional[FileDescription]:
    """What a line plainly is instead of an uplink, or of sound of the call's law."""
    seen = looked_at(name)
    found = file_kinds.known_kind(seen)
    if side == PCM and not found:
        return file_kinds.other_than_law(seen, order.law())
    if not found or found.kind is FileKind.EMPTY:
        return None
    return None if side == UP and found.kind is FileKind.UPLINK and not found.turned else found


def warning_of_line(folder: Path, order: Order, side: str) -> Optional[str]:
    """What is wrong with an incoming line of a call that is opened, if anything."""
    name = name_of(order.calls[0], side)
    if (folder / name).is_dir():
        return f"{name} is a folder: the line will fail"
    if is_unending(folder / name):
        return None
    if not (folder / name).is_file():
        return f"there is no {name}: the line will fail"
    if not os.access(folder / name, os.R_OK):
        return f"{name} can't be read: the line will fail"
    found = other_kind(folder / name, side, order)
    if not found:
        return None
    wanted = "no uplink" if side == UP else f"no {order.law().title()}"
    return f"{name} is {file_kinds.said_beside(found, folder / name, wanted)}"


def note_on_periods(folder: Path, order: Order) -> Optional[str]:
    """How many periods of the longer incoming line won't be used, if any; or which line has no
    period, so that the call has none."""
    if has_unending(folder, order.calls[0]):
        return "a line is a pipe or a device, so that nobody knows when the call ends"
    periods = {side: whole_periods(folder, order.calls[0], side) for side in INCOMING}
    shorter, longer = sorted(periods, key=periods.__getitem__)
    unused = periods[longer] - periods[shorter]
    if not periods[shorter]:
        is_there = (folder / name_of(order.calls[0], shorter)).is_file()
        return (
            f"{name_of(order.calls[0], shorter)} has no whole period, so the call has none"
            if is_there
            else None
        )
    if not unused:
        return None
    what = f"the last {unused} periods" if unused > 1 else "the last period"
    return f"{what} of {name_of(order.calls[0], longer)} won't be used: {name_of(order.calls[0], shorter)} has {periods[shorter]}"
