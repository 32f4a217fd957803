"""The model as a program: takes the words, the files of the current folder and the standard streams
of `trau`.

`model/trau` of a clone starts it with standard input as descriptor 3, since Python doesn't start
where standard input is a folder.
"""

import signal
from typing import Sequence

from trau.command_line.words import Words
from trau.model.lines import FolderLines, StandardStreams
from trau.model.top import top

HELP = """The model of the program `trau`, in Python: a second program that does the same, with the same
words, files of the current folder, texts and statuses. It proves nothing, and processes some 100 to
300 frames a second.

COMMAND and what follows it are those of `trau`: run, save, resume, relay, decode, encode, frames,
split, merge, follow, drill, live (docs/COMMANDS.md)."""


def answer(words: Sequence[str], reads: int) -> int:
    """The exit status of the model for these words, with standard input as this descriptor. An
    interrupt ends the process by the signal, as it does `trau`."""
    if signal.getsignal(signal.SIGINT) is signal.default_int_handler:
        signal.signal(signal.SIGINT, signal.SIG_DFL)
    return top(words, FolderLines(), StandardStreams(reads=reads, writes=1))


def main(words: Sequence[str]) -> int:
    """The same for the command `trau-model`, which has a help too."""
    if list(words) in (["--help"], ["-h"]):
        usage = "trau-model COMMAND [WORD ..]"
        Words(HELP, prog="trau-model", usage=usage, add_help=False).print_help()
        return 0
    return answer(words, reads=0)
