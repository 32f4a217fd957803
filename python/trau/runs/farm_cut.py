"""The command of shard.py that cuts a farm, and the folder that it makes."""

import argparse
import json
import os
import shutil
import stat
import tempfile
from pathlib import Path
from typing import Sequence

from trau.command_line.ends import naming
from trau.command_line.words import Refusal, number_within, option, switch
from trau.recordings import listening
from trau.rules.lines import INCOMING, SIDES, incoming_periods, name_of
from trau.rules.orders import Order, Verb
from trau.rules.profile import MOST_CALLS, MOST_PERIODS
from trau.runs import run_texts
from trau.runs.farm_parts import FarmPart, components, parts_of
from trau.runs.folder_lock import alone_in
from trau.runs.part_scripts import array_of, script_of

# The files of a cut farm, and of its parts.
CUT = "cut.json"
ORDERS = "orders.txt"
REPORT = "report.txt"
STATUS = "status"
SCRIPT = "run.sh"
SLURM = "slurm.sh"


def copy_line(source: Path, target: Path, side: str) -> None:
    """Puts a copy of an incoming line into a part. Of an outgoing one it only refuses what the
    part's line couldn't replace."""
    if os.path.lexists(source) and not source.is_file():
        raise Refusal(
            f"{source}: isn't a file; only links to such lines can be cut, without --copy"
        )
    if side in INCOMING and source.is_file():
        with naming(target):
            shutil.copyfile(source, target)


def write_new(path: Path, text: str) -> None:
    """Writes a file of a cut. Names in it may have octets that are no text."""
    with naming(path):
        path.write_bytes(os.fsencode(text))


def lay_part(folder: Path, words: argparse.Namespace, orders: Sequence[Order]) -> None:
    """Makes the folder of a part."""
    folder.mkdir()
    write_new(folder / ORDERS, "".join(f"{order.line()}\n" for order in orders))
    script = folder / SCRIPT
    write_new(script, script_of(words))
    script.chmod(script.stat().st_mode | stat.S_IXUSR | stat.S_IXGRP | stat.S_IXOTH)
    for call in {order.calls[0] for order in orders if order.verb is Verb.OPEN}:
        for side in SIDES:
            source, target = (place / name_of(call, side) for place in (words.folder, folder))
            if words.copy:
                copy_line(source, target, side)
            else:  # by a link to an outgoing line that isn't there, the part's run makes it
                target.symlink_to(os.path.abspath(source))


def lay_cut(
    place: Path, words: argparse.Namespace, orders: Sequence[Order], parts: Sequence[FarmPart]
) -> None:
    """Makes the folder of a cut farm: a folder for each part, and what the joining needs."""
    numbers = []
    for number, part in enumerate(parts):
        own = [order for order in orders if order.calls[0] in part.calls]
        numbers.append([order.number for order in own])
        lay_part(place / str(number), words, own)
    write_new(place / ORDERS, "".join(f"{order.line()}\n" for order in orders))
    if parts:
        write_new(place / SLURM, array_of(words, parts))
    noted = {
        "farm": os.path.abspath(words.folder),
        "copied": words.copy,
        "periods": words.periods or MOST_PERIODS,
        "orders_of_parts": numbers,
    }
    write_new(place / CUT, json.dumps(noted) + "\n")


def make_cut(words: argparse.Namespace, orders: Sequence[Order], parts: Sequence[FarmPart]) -> None:
    """Makes the folder of a cut farm, whole or not at all."""
    with naming(words.cut):
        place = Path(
            tempfile.mkdtemp(dir=words.cut.absolute().parent, prefix=f".{words.cut.name}.")
        )
    try:
        lay_cut(place, words, orders, parts)
        mask = os.umask(0)  # which can't be read alone
        os.umask(mask)
        place.chmod(0o777 & ~mask)
        place.rename(words.cut)
    except BaseException as failure:
        shutil.rmtree(place)
        if isinstance(failure, OSError):
            failure.filename = str(failure.filename).replace(str(place), str(words.cut))
        raise


def cut(words: argparse.Namespace) -> int:
    """Makes the folder CUT with the parts 0, 1 and so on. Each has its orders, links to its lines
    in FOLDER, and `run.sh`, which runs it. `slurm.sh` runs all as an array of Slurm's jobs. Prints
    `shard parts K components M calls C orders N largest L heaviest H of P array 0-J`: C calls are
    opened; L, H and P are the periods of the largest component, of the heaviest part and of all
    calls; J is K - 1. While a part runs on links, no run and no other cut may have FOLDER."""
    name = words.orders or words.folder / ORDERS
    orders = run_texts.read_orders(name)
    if not words.folder.is_dir():
        raise Refusal(f"{words.folder}: isn't a folder")
    if os.path.lexists(words.cut):
        raise Refusal(f"{words.cut}: is there already; a farm is cut into a new folder")
    opened = {order.calls[0] for order in orders if order.verb is Verb.OPEN}
    pieces = [
        (sum(incoming_periods(words.folder, call) for call in calls & opened), calls)
        for calls in components(orders)
    ]
    parts = parts_of(pieces, words.parts)
    with alone_in(words.folder):
        make_cut(words, orders, parts)
    largest = max((periods for periods, _ in pieces), default=0)
    heaviest = max((part.periods for part in parts), default=0)
    print(
        f"shard parts {len(parts)} components {len(pieces)} calls {len(opened)} orders {len(orders)}"
        f" largest {largest} heaviest {heaviest} of {sum(periods for periods, _ in pieces)}"
        + (f" array 0-{len(parts) - 1}" if parts else "")
    )
    return 0


CUT_OPTIONS = (
    option("folder", type=Path, metavar="FOLDER", help="the farm: its lines and orders"),
    option("cut", type=Path, metavar="CUT", help="the folder to make"),
    option(
        "--parts",
        type=number_within(1, MOST_CALLS),
        required=True,
        metavar="K",
        help="the greatest number of parts",
    ),
    run_texts.ORDERS,
    switch("--copy", "copy the incoming lines instead of linking them"),
    option(
        "--trau",
        type=listening.program_named,
        default=listening.program_beside(),
        metavar="PROGRAM",
        help="the program (default %(default)s)",
    ),
    option(
        "--workers",
        type=number_within(1, 64),
        default=1,
        metavar="N",
        help="as of trau run (default 1)",
    ),
    option("--batch", type=number_within(1, 250), metavar="N", help="as of trau run"),
    option("--periods", type=number_within(1, MOST_PERIODS), metavar="N", help="as of trau run"),
)
