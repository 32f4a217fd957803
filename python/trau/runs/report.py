"""Prints what the report and the lines of a run say, as text, JSON or CSV.

`text` reads a report aloud, after checking it against the grammar. `calls` prints the losses,
pauses and comfort noise of each call, and `losses` each loss. `events` prints what the network did
to a gateway's calls. `compare` prints what differs between two runs, and from which period on.
`sync` prints where and why the search for frames lost an uplink, and `kinds` of which kinds its
frames are.
"""

import sys
from typing import Sequence

from trau.command_line.ends import tool
from trau.command_line.words import Words
from trau.runs import call_reports, comparison, recording_times, uplink_reports

COMMANDS = (
    call_reports.TEXT,
    call_reports.CALLS,
    call_reports.LOSSES,
    recording_times.EVENTS,
    comparison.COMPARE,
    uplink_reports.SYNC,
    uplink_reports.KINDS,
)


@tool("report.py")
def main(words: Sequence[str]) -> int:
    """Runs the words of the command line, and returns the exit status."""
    parser = Words(__doc__, epilog="example: report.py text report.txt --json")
    add = parser.commands()
    for command in COMMANDS:
        command.add_to(add)
    asked = parser.parse_args(words)
    answer = asked.runs(asked)
    sys.stdout.write(asked.form(answer))
    status: int = answer.status
    return status
