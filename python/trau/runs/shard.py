"""Cuts a farm into parts that run independently, on this machine or on others, and joins their
reports.

The octets of a call depend only on its own lines and orders and on its bridge partners. So calls
that a `bridge` order names stay together, even if the order is refused, since a refusal looks at
both. All other calls may run anywhere. The joined report and the status are those of one run, octet
for octet.
"""

import inspect
from typing import Sequence

from trau.command_line.ends import tool
from trau.command_line.words import Words
from trau.runs.farm_cut import CUT_OPTIONS, cut
from trau.runs.farm_join import JOIN_OPTIONS, join

# Earlier names of the commands, which scripts may have.
OLD_NAMES = {"split": "cut", "merge": "join"}


def parser() -> Words:
    """The words of the command line."""
    example = "example: shard.py cut farm cut --parts 4; parallel sh {}/run.sh ::: cut/[0-9]*; shard.py join cut >report.txt"
    words = Words(__doc__, epilog=example)
    add = words.commands()
    add(cut, "makes a folder with the parts of a farm", inspect.getdoc(cut), *CUT_OPTIONS)
    add(
        join,
        "joins the reports of the parts",
        inspect.getdoc(join),
        *JOIN_OPTIONS,
    )
    return words


@tool("shard.py")
def main(words: Sequence[str]) -> int:
    """Runs the words of the command line, and returns the exit status."""
    asked = parser().parse_args([OLD_NAMES.get(words[0], words[0]), *words[1:]] if words else words)
    return asked.runs(asked)
