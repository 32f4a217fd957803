"""Holds a recording of a foreign unit to the rules of the suite: an uplink and what came of it on the
A side, a line from the exchange and what came of it on the downlink, or both.

The lines may begin at any octet and at any bit of it, each for itself. A line (docs/FILES.md) is a
FILE; of a recorded E1 line, or of a recorded slot, FILE@5 is slot 5, FILE@16.0 channel 0 of slot 16;
of a capture FILE@0x1234abcd is the stream with this SSRC, and FILE the only one of its kind. `lines.py
scan` lists all of them. The status is 1 if a rule of level exact or within
is broken; else 2 if a file can't be read, a delay isn't sure, or something isn't explained by any
rule; else 0."""

from pathlib import Path
from typing import List, Optional, Sequence

from trau.command_line.ends import complain, tool
from trau.command_line.words import Words, option, switch
from trau.recordings import recording_commands
from trau.recordings.capture_commands import TYPE
from trau.rules.g711 import Law
from trau.rules.lines import DOWN, PCM, UP

from trau.suite.box_delay import JudgedSide, NotSure
from trau.suite.box_downlink import SentDown
from trau.suite.box_findings import Findings
from trau.suite.box_recordings import RecordingWords, given_line
from trau.suite.box_receive_side import ReceiveSide
from trau.suite.box_send_side import judge_send, judge_shifts
from trau.suite.box_texts import Reported, json_of_box, text_of_box
from trau.suite.rule_list import judged_rules

OPTIONS = (
    option("--up", type=Path, metavar="LINE", help="the uplink that the unit was given"),
    option("--out", type=Path, metavar="LINE", help="what came of it on the A side"),
    option("--pcm", type=Path, metavar="LINE", help="the line from the exchange"),
    option("--down", type=Path, metavar="LINE", help="what came of it on the downlink"),
    option("--law", choices=[each.value for each in Law], help="of the A side; else found"),
    switch("--always", "transmission is never discontinuous, so no descriptor may be sent"),
    switch("--json", "print JSON"),
    *recording_commands.READING,
    TYPE,
)
NAME = "check.py"
OF_PACKETS = "packing.rtp"
# Rules that packets can't show.
OF_LINES = (
    "line.sync",
    "line.data",
    "line.uplink",
    "line.downlink",
    "search.place",
    "search.locked",
)


def no_findings() -> Findings:
    """Findings of all rules."""
    return Findings(judged_rules())


class Checked:
    """What was found of both sides, and why a side wasn't judged."""

    def __init__(self, laws: Sequence[Law], words: RecordingWords) -> None:
        self.findings = no_findings()
        self.laws, self.words = laws, words
        self.reported: List[Reported] = []
        self.failures: List[str] = []
        self.up: Optional[ReceiveSide] = None
        self.down: List[SentDown] = []

    def receive(self, up: Path, out: Path) -> None:
        """Judges an uplink and the A side."""
        try:
            found = no_findings()
            given, made = given_line(up, UP, self.words), given_line(out, PCM, self.words)
            side = ReceiveSide(given.octets, made.octets, self.laws, found)
            judged = side.judge()
            if given.is_of_packets:
                found.forget(OF_LINES)
                found.held(OF_PACKETS, found.times.get("lost.as-it-came", 0))
            else:
                self.up = side
            self.report(up, out, judged, found)
        except NotSure as why:
            self.failures.append(f"{up}, {out}: {why}")

    def send(self, pcm: Path, down: Path, is_always: bool) -> None:
        """Judges a line from the exchange and a downlink."""
        try:
            found = no_findings()
            given, made = given_line(pcm, PCM, self.words), given_line(down, DOWN, self.words)
            side, frames = judge_send(given.octets, made.octets, self.laws, is_always, found)
            if made.is_of_packets:
                found.forget(OF_LINES)
                found.held(OF_PACKETS, found.times.get("send.speech", 0))
            else:
                self.down = frames
            self.report(pcm, down, side, found)
        except NotSure as why:
            self.failures.append(f"{pcm}, {down}: {why}")

    def report(self, given: Path, made: Path, side: JudgedSide, found: Findings) -> None:
        """Notes that a side was judged, and what was found. Of one that wasn't nothing counts."""
        self.reported.append(Reported(str(given), str(made), side))
        self.findings.add(found)

    def shifts(self) -> None:
        """Judges shifts, if there are an uplink and a downlink."""
        if self.up is not None and self.down:
            judge_shifts(self.up.periods, self.down, self.findings)

    def status(self) -> int:
        """The exit status."""
        if self.findings.is_broken():
            return 1
        return 2 if self.failures or self.findings.unsure else 0


def pair_of(parser: Words, one: Optional[Path], other: Optional[Path], names: str) -> bool:
    """Whether a pair of lines is given."""
    if (one is None) != (other is None):
        parser.error(f"{names} are given together")
    return one is not None


@tool(NAME)
def main(given: Sequence[str]) -> int:
    """Prints how each rule stands."""
    parser = Words(__doc__, *OPTIONS, prog=NAME)
    asked = parser.parse_args(given)
    has_up = pair_of(parser, asked.up, asked.out, "--up and --out")
    has_pcm = pair_of(parser, asked.pcm, asked.down, "--pcm and --down")
    if not has_up and not has_pcm:
        parser.error("--up LINE --out LINE, --pcm LINE --down LINE, or both are wanted")
    laws = [Law(asked.law)] if asked.law else list(Law)
    words = RecordingWords(asked.of, recording_commands.turned_of(asked), asked.type)
    checked = Checked(laws, words)
    if has_up:
        checked.receive(asked.up, asked.out)
    if has_pcm:
        checked.send(asked.pcm, asked.down, asked.always)
    checked.shifts()
    made = json_of_box if asked.json else text_of_box
    print(made(checked.findings, checked.reported, checked.failures), end="")
    for failure in checked.failures:
        complain(NAME, failure)
    return checked.status()
