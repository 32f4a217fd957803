"""Makes recorded lines from common files, and files from lines: frames of libgsm, WAV files, raw
A-law and mu-law, slots of E1 recordings and captures of network packets. It also says what a file
is, and damages uplinks.

A command reads one file and writes another (`idle` reads none; `look` and `capture` may read
several; `look` and `frames` write none), and prints one line on standard output that says what it
did. `-` is standard input or standard output; if the file goes to standard output, the line goes to
standard error. Each command unpacks a file whose name ends with .gz as it reads it. If a command can't take
something, it prints one line on standard error, exits with status 2 and writes nothing."""


import inspect
from pathlib import Path
from typing import Sequence

from trau.command_line.ends import tool
from trau.command_line.words import Words, option
from trau.recordings import (
    capture_commands,
    frame_commands,
    frame_row_commands,
    recording_commands,
    slot_commands,
    sound_commands,
)
from trau.recordings.looking import look

COMMANDS = (
    frame_commands.UPLINK,
    frame_commands.GSM,
    frame_commands.LISTEN,
    sound_commands.PCM,
    sound_commands.SOUND,
    sound_commands.IDLE,
    slot_commands.SLOT,
    capture_commands.PCAP,
    capture_commands.CAPTURE,
    frame_commands.DAMAGE,
    frame_row_commands.ASSEMBLE,
)


@tool("lines.py")
def main(words: Sequence[str]) -> int:
    """Runs the words of the command line, and returns the exit status."""
    program = Words(__doc__)
    add = program.commands()
    files = option(
        "files", type=Path, nargs="+", metavar="FILE", help="a file, or - for standard input"
    )
    add(look, "what files are", inspect.getdoc(look), files, example="*")
    recording_commands.add_to(add)
    frame_row_commands.add_to(add)
    for command in COMMANDS:
        command.add_to(add)
    asked = program.parse_args(words)
    status: int = asked.runs(asked)
    return status
