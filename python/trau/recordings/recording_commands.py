"""The commands of lines.py that take a whole recording: `scan` says what is in it, `unpack` makes
lines of all of it."""

import argparse
import inspect
import sys
from collections import Counter
from datetime import datetime, timezone
from pathlib import Path
from typing import Callable, List, Optional

from trau.command_line.ends import FAILED, complain
from trau.command_line.words import Option, Refusal, Words, number_within, one_of, option, switch
from trau.recordings import (
    capture_rows,
    capture_scan,
    line_scan,
    listening,
    recordings,
    scan_rows,
    slot_pairs,
)
from trau.recordings import unpack_capture as unpack_streams
from trau.recordings import unpack_line as unpack_lines
from trau.recordings.capture_commands import GAP, TYPE
from trau.recordings.commands import SID
from trau.recordings.scan_rows import ScanRow
from trau.recordings.unpacked_folder import (
    UnpackedCall,
    UnpackedFolder,
    number_calls,
    sha256_of,
)
from trau.rules.lines import DOWN, PCM, UP
from trau.rules.slots import MOST_SLOTS


def utc_word(word: str) -> float:
    """A date and a time, which is UTC if it says nothing else, in seconds since 1970."""
    try:
        time = datetime.fromisoformat(word.replace("Z", "+00:00"))
    except ValueError:
        raise argparse.ArgumentTypeError(
            f"'{word}' is no time, as 2026-05-04T13:00:00 is"
        ) from None
    return (time if time.tzinfo else time.replace(tzinfo=timezone.utc)).timestamp()


def turned_of(words: argparse.Namespace) -> Optional[bool]:
    """Whether the words say that the bits are in the other order, if they say anything."""
    return True if words.lsb_first else False if words.msb_first else None


def say_of(name: Path, what: str) -> None:
    """Says something of a recording on standard error, if there is anything to say."""
    if what:
        print(f"{name}: {what}", file=sys.stderr)


def say_of_capture(name: Path, unread: str) -> None:
    """Says what of a capture isn't read."""
    say_of(name, unread and f"not read: {unread}")


def rows_of_capture(words: argparse.Namespace, wrong: List[str]) -> List[ScanRow]:
    """The rows of a capture; what is wrong with it is added to the list."""
    found = capture_scan.scan_file(words)
    say_of_capture(words.given, capture_rows.unread_said(found))
    if found.broken and not words.partial:
        wrong.append(f"{found.broken}; what precedes that is listed")
    return capture_rows.rows_of(found)


def rows_of_line(words: argparse.Namespace) -> List[ScanRow]:
    """The rows of a recording of a line."""
    found = line_scan.scan_line(words.given, words.of, turned_of(words), words.partial)
    say_of(words.given, found.breaks_said())
    rows = found.rows()
    scan_rows.with_utc(rows, words.begins)
    return rows


def scan(words: argparse.Namespace) -> int:
    """Says what is in a whole recording: of an E1 line (2.048 Mbit/s, from any bit on, in either
    order of bits), of a time slot, or a capture. There is a row for each call in a channel of 16
    kbit/s, for each stretch of a slot without frames, and for each stream: where, what, from and to
    (seconds of the recording), UTC if it is known, frames or packets, silence descriptors and
    losses. Of the octets of a slot it says the law if it is plain, idle if all are the same, and
    otherwise unknown. A call whose channel has no frames for a second ends, and what follows is a
    row of its own. What isn't read of a capture is counted on standard error."""
    wrong: List[str] = []
    recordings.refuse_read_once(words.given)
    if capture_scan.has_capture(words.given):
        rows = rows_of_capture(words, wrong)
    else:
        rows = rows_of_line(words)
    print(words.form(rows), end="")
    for each in wrong:
        complain("lines.py", f"{words.given}: {each}")
    return FAILED if wrong else 0


def unpack_said(calls: List[UnpackedCall], left: int) -> str:
    """What was unpacked, in words."""
    sides = Counter(side for call in calls for side in call.lines)
    pairs = sum(bool(call.paired_by) for call in calls)
    counts = " ".join(f"{side} {sides[side]}" for side in (UP, PCM, DOWN))
    return f"unpack calls {len(calls)} {counts} pairs {pairs} left {left}"


def pair_line(name: Path, calls: List[UnpackedCall], folder: UnpackedFolder) -> None:
    """Finds in which slots the sound of uplinks is, which needs the C library."""
    sides = {side for call in calls for side in call.lines}
    if not {UP, PCM} <= sides:
        return
    library = listening.library_beside()
    if library is None:
        print(
            f"{name}: no pairs are sought: that needs the C library, which clib/build makes",
            file=sys.stderr,
        )
        return
    slot_pairs.pair_lines(calls, folder, library)


def unpack_line(words: argparse.Namespace, folder: UnpackedFolder) -> str:
    """Makes the lines of a recording of a line."""
    found = line_scan.scan_line(words.given, words.of, turned_of(words), words.partial)
    say_of(words.given, found.breaks_said())
    scan_rows.with_utc((rows := found.rows()), words.begins)
    calls = unpack_lines.calls_of_line(found)
    for call in calls:
        scan_rows.with_utc([line.row for line in call.lines.values()], words.begins)
    number_calls(calls)
    blocks = line_scan.blocks_of(words.given, "unpack", words.partial)
    sha256 = unpack_lines.write_lines(blocks, found, calls, folder)
    pair_line(words.given, calls, folder)
    folder.finish(calls, words.given, sha256, words.begins)
    quiet = sum(row.kind == scan_rows.IDLE for row in rows)
    return unpack_said(calls, len(rows) - quiet - len(calls))


def unpack_capture(words: argparse.Namespace, folder: UnpackedFolder) -> str:
    """Makes the lines of a capture."""
    files = unpack_streams.PacketFiles(folder.part)
    found = capture_scan.scan_file(words, files.take)
    if found.broken and not words.partial:
        raise Refusal(f"{words.given}: {found.broken}; --partial takes what precedes that")
    say_of_capture(words.given, capture_rows.unread_said(found))
    streams = unpack_streams.calls_of_capture(found)
    calls = list({id(each.call): each.call for each in streams}.values())
    number_calls(calls)
    wish = unpack_streams.StreamWish(words.given, words.gap == "idle", words.sid == "keep")
    for refused in unpack_streams.write_streams(streams, files, folder, wish):
        say_of(words.given, refused)
    say_of(words.given, unpack_streams.cut_said(streams))
    files.remove()
    calls = [call for call in calls if call.lines]
    folder.finish(calls, words.given, sha256_of(words.given), found.begins)
    lines = sum(len(call.lines) for call in calls)
    return unpack_said(calls, len(capture_rows.listed_streams(found)) - lines)


def unpack(words: argparse.Namespace) -> int:
    """Makes lines of all calls of a whole recording (an E1 line, a time slot or a capture) in a new
    folder: C.up is an uplink, C.down a downlink, C.pcm a stretch or a stream of A-law or mu-law. An
    incoming line that the recording doesn't have is idle. orders.txt opens each call at its period
    of the recording, so `trau run <orders.txt` in the folder just works. calls.csv says where each
    line lay, clock.txt the UTC of period 0. More than 4,096 calls go to folders 1, 2 and so on
    within it. In a capture two streams between the same addresses and ports are a pair; on a line
    an uplink and the slot that carries its sound, by equal octets or by the signs of the samples,
    with the delay, which needs the C library. What isn't sure stays unpaired. Prints `unpack calls
    N up A pcm B down C pairs D left E`: E streams, and stretches of slots and channels, have
    something else and aren't unpacked; `scan` names them."""
    recordings.refuse_read_once(words.given)
    is_capture = capture_scan.has_capture(words.given)
    with UnpackedFolder(words.new) as folder:
        said = (unpack_capture if is_capture else unpack_line)(words, folder)
    print(said)
    return 0


# How the recording of a line is read.
READING: List[Option] = [
    option(
        "--of",
        type=number_within(1, MOST_SLOTS),
        metavar="N",
        help="the number of slots of a line without the signal of an E1 line: 32, or 1 for a slot"
        " alone; it is found where there are frames",
    ),
    one_of(
        switch(
            "--lsb-first",
            "the recording of a line has the least significant bit of each octet first",
        ),
        switch(
            "--msb-first",
            "it has the most significant one first; without either word the order is found",
        ),
    ),
]
RECORDING: List[Option] = [
    option(
        "given", type=Path, metavar="FILE", help="the recording; one that gzip packed ends with .gz"
    ),
    *READING,
    option(
        "--begins",
        type=utc_word,
        metavar="TIME",
        help="when a recording of a line begins (UTC), as 2026-05-04T13:00:00; a capture has its"
        " times",
    ),
    TYPE,
    switch("--partial", "take a truncated file as far as it goes"),
]


def form(name: str, make: Callable[[List[ScanRow]], str], what: str) -> Option:
    """An option for the form of the rows."""
    return switch(name, what, action="store_const", const=make, dest="form")


def add_to(add: Callable[..., Words]) -> None:
    """Adds the commands to those of lines.py."""
    forms = one_of(
        form("--csv", scan_rows.csv_of, "the rows as CSV"),
        form("--json", scan_rows.json_of, "the rows as JSON"),
    )
    add(
        scan,
        "what is in a whole recording",
        inspect.getdoc(scan),
        *RECORDING,
        forms,
        example="line.e1 --csv",
        form=scan_rows.table_of,
    )
    add(
        unpack,
        "lines of all calls of a whole recording",
        inspect.getdoc(unpack),
        *RECORDING,
        option(
            "new", type=Path, metavar="FOLDER", help="the folder to make; it must be new or empty"
        ),
        GAP,
        SID,
        example="line.e1 calls",
    )
