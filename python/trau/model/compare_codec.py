"""Compares the model's codec with libgsm on streams of fifty frames that are made from a seed, and says how many frames differ."""

import sys
from typing import Sequence

from trau.command_line.words import Words
from trau.model.libgsm import find, table


def main(words: Sequence[str]) -> int:
    """Prints a line for each kind of frames; the status is 1 where one differs, 2 where libgsm
    isn't there."""
    parser = Words(__doc__)
    parser.add_argument("--seed", type=int, default=1, help="what the streams are made from (1)")
    parser.add_argument(
        "--streams", type=int, default=20, help="how many streams of fifty frames (20)"
    )
    parser.add_argument("--library", help="a file of libgsm instead of the installed one")
    asked = parser.parse_args(words)
    library = find(asked.library)
    if library is None:
        print("compare_codec: libgsm isn't there", file=sys.stderr)
        return 2
    sums = table(library, asked.seed, asked.streams)
    for kind, compared in sums.items():
        print("%s frames %d different %d" % (kind, compared.frames, compared.different))
    return 1 if any(compared.different for compared in sums.values()) else 0
