"""A live gateway between GSM full rate over RTP and G.711 over RTP. It records what it decides, so that `trau run` makes the same of it,
octet for octet (docs/GATEWAY.md).

`run` takes lines (open, close, level, dtx, bridge, unbridge, counts, record) from a file and from standard input, and prints `ready` when its
sockets are open, and `ok` or `refused` for each line. It ends at an interrupt, SIGTERM, SIGHUP or --seconds. Status 0; 1 if a recording ended
before, or the files of a call couldn't be made; 2 if it was refused. `check` replays a recording and compares: status 0 if all is equal, 1 if not.

Counts of a call: periods with speech, descriptor, invalid (a damaged descriptor), not-gsm, no-gsm, no-pcm, and those held-up (late or given up,
with the clock). Of each side: packets that came, those missing by their numbers, jitter in ms; late, doubled, far (a second off, once), jumps,
slips-on, slips-back, given-up (with the clock), overflowed (no room in the kernel), moved (with `from any`: where packets go to); refused:
stranger, other-address (of this host), other-port, other-type, odd-size, empty, too-long, not-rtp, probation (of a new-source), fault (of the
gateway); sent, unsent, unreachable (the peer's port is closed); rtcp, rtcp-sent, far-lost (by the peer's reports). What the last fault was, and
why the last packet was unsent, comes after them.
"""

from __future__ import annotations


import argparse
import importlib
import ipaddress
import sys
from pathlib import Path
from typing import Sequence

from trau.command_line.words import Refusal, Words, number_within
from trau.command_line.ends import tool
from trau.rules.profile import MOST_CALLS


def missing_library() -> str:
    """What is said if the C library can't be had; else empty."""
    try:
        importlib.import_module("trau.trau_fr")
    except (ImportError, OSError) as failure:
        made = "clib/build of a clone makes it, and Debian's package libtrau-fr1 has it"
        return f"the C library is missing: {failure}; {made}"
    return ""


def address(word: str) -> str:
    """An IPv4 address."""
    try:
        return str(ipaddress.IPv4Address(word))
    except ValueError:
        raise argparse.ArgumentTypeError(f"{word} isn't an IPv4 address") from None


def words_of(given: Sequence[str]) -> argparse.Namespace:
    """The words of the command line."""
    parser = Words(
        prog="gateway.py", description=__doc__, formatter_class=argparse.RawDescriptionHelpFormatter
    )
    commands = parser.add_subparsers(dest="command", metavar="run|check", required=True)
    run = commands.add_parser("run", help="processes live calls, and records them")
    run.add_argument("folder", type=Path, metavar="FOLDER", help="a new folder for the recording")
    run.add_argument(
        "--calls", type=Path, metavar="FILE", help="lines that are executed before the first period"
    )
    all_of_them = "all; of a strict call the one from which the peer is reached"
    run.add_argument(
        "--address",
        type=address,
        default="0.0.0.0",
        metavar="A",
        help=f"the address of sockets if `open` names none ({all_of_them})",
    )
    run.add_argument(
        "--seconds", type=number_within(1, 10**8), metavar="N", help="ends after this time"
    )
    run.add_argument(
        "--every",
        type=number_within(1, 250),
        default=25,
        metavar="N",
        help="periods that are held before a write (25)",
    )
    run.add_argument(
        "--most",
        type=number_within(1, MOST_CALLS),
        default=200,
        metavar="N",
        help="calls that may be open at a time (200)",
    )
    check = commands.add_parser("check", help="replays a recording by `trau run`, and compares")
    check.add_argument("folder", type=Path, metavar="FOLDER", help="the recording")
    check.add_argument(
        "--trau", metavar="PROGRAM", help="the program (the one beside this tool, or of the path)"
    )
    kept = "a new folder for the replay, kept with its report for report.py and timeline.py (one that is removed)"
    check.add_argument("--again", type=Path, metavar="NEW", help=kept)
    return parser.parse_args(given)


@tool("gateway.py")
def main(given: Sequence[str]) -> int:
    """Runs the gateway, or checks a recording."""
    words = words_of(given)
    if words.command == "check":
        from trau.gateway import replay

        return replay.check(words.folder, words.trau, words.again)
    if missing := missing_library():
        raise Refusal(missing)
    from trau.gateway import live

    return live.run(
        live.Options(
            *(words.folder, words.calls, words.address, words.seconds, words.every, words.most)
        )
    )
