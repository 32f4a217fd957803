"""The A side of a box beside the uplink that it came of, as a whole."""

from typing import List, NoReturn, Optional, Sequence, Tuple

from trau.rules.frame import FrameKind, bits_of
from trau.rules.g711 import Law, expand_all
from trau.rules.parameters import Parameters
from trau.rules.profile import PERIODS_A_SECOND

from trau.suite.box_codec import Row, turned_rule
from trau.suite.box_decoder import STANDARD, decode
from trau.suite.box_delay import (
    JudgedSide,
    NotSure,
    alignment_of,
    found_by_likeness,
    found_exactly,
    frames_of_runs,
    likest,
    line_at,
    stretches_of,
)
from trau.suite.box_findings import Findings, place_of
from trau.suite.box_law_judge import convention_of, is_of_law, judge_law, other_octet
from trau.suite.box_laws import ranges_of
from trau.suite.box_receive import DECODER, ReceiveJudge, heard_periods
from trau.suite.box_track import FRAMES_TO_SETTLE, StateTrack, Wrong, is_loud
from trau.suite.box_unexplained import likeness_of
from trau.suite.box_uplink import Hears, situations, up_periods

SAMPLES = 160
SETTLED = 4
MOST_SLIP = 400  # octets, that are looked at about a frame that is wrong
SLIPPED = 0.9  # likeness of a frame elsewhere
PART_THAT_SLIPPED = 0.5


def pairs_of(
    frames: Sequence[Optional[Parameters]], out: bytes, first: int, settled: int
) -> List[Tuple[List[int], bytes]]:
    """The samples of frames after so many others, and their octets."""
    found = []
    for k, before, samples in frames_of_runs(frames):
        start = first + SAMPLES * k
        octets = out[start : start + SAMPLES] if start >= 0 else b""
        if before >= settled and len(octets) == SAMPLES:
            found.append((samples, octets))
    return found


class ReceiveSide:
    """An uplink and what came of it."""

    def __init__(self, up: bytes, out: bytes, laws: Sequence[Law], findings: Findings) -> None:
        self.findings = findings
        self.periods = up_periods(bits_of(up))
        self.refuse_other_frames()
        self.known = situations(self.periods)
        self.numbers = [each.number() for each in self.periods]
        self.frames = [
            one.anchor if one.hears is Hears.GOOD and one.since == 0 else None for one in self.known
        ]
        self.bits = bits_of(out)
        starts = [SAMPLES * k for k in range(len(self.periods))]
        self.alignment = alignment_of(stretches_of(self.frames, starts), self.bits, laws)
        self.out = line_at(self.bits, self.alignment.bit)
        self.pairs = pairs_of(self.frames, self.out, self.alignment.first, SETTLED)

    def refuse_other_frames(self) -> None:
        """Refuses a line whose frames aren't those of an uplink."""
        kinds = [each.frame.kind for each in self.periods if each.frame]
        if not kinds:
            raise NotSure("the uplink has no frame")
        if 2 * kinds.count(FrameKind.OTHER) > len(kinds):
            raise NotSure("most frames of the uplink aren't those of an uplink, but of a downlink?")

    def judge(self) -> JudgedSide:
        """Judges it."""
        law, first = self.alignment.law, self.alignment.first
        judge_law(law, self.pairs, self.findings)
        ranges = ranges_of(law, convention_of(law, self.pairs))
        judge = ReceiveJudge(StateTrack(ranges), self.findings, law)
        heard = heard_periods(self.periods, self.known, self.out, first)
        if not heard:
            raise NotSure("the two lines have no period in common")
        judge.run(heard)
        is_plain = not judge.wrong and self.findings.times.get("lost.as-it-came")
        if is_plain or not self.explain(judge.wrong):
            judge.counts.conclude(self.findings)
        return JudgedSide(self.alignment, self.periods[0].place, len(heard))

    def explain(self, wrong: Sequence[Wrong]) -> bool:
        """Names what explains frames that the box decoded to other octets: a change of the delay,
        the law, or a number of the codec; whether something does. Refuses the recording if nothing
        does, and no frame is decoded as it came."""
        law, first = self.alignment.law, self.alignment.first
        place = place_of(wrong[0].period if wrong else self.numbers[0])
        self.refuse_slip(wrong)
        pairs = pairs_of(self.frames, self.out, first, FRAMES_TO_SETTLE)
        if is_of_law(law, pairs):
            sample, octet, (least, most) = other_octet(law, pairs)
            measured = f"sample {sample} is {octet:#04x}, which is {least} to {most}"
            self.findings.broken(f"{law.value}.compress", place, measured, "its interval")
            return True
        turned = turned_rule(self.rows(), ranges_of(law, None))
        if turned:
            self.findings.broken(turned.rule, place, turned.measured, turned.allowed)
            return True
        if not self.findings.times.get("lost.as-it-came"):
            self.refuse_all()
        if any(each.is_known for each in wrong):
            count = f"good frames that are decoded to other octets: {len(wrong)}"
            self.findings.suspect((*DECODER, "lost.as-it-came"), place, count)
            return True
        said = f"{len(wrong)} good frames are decoded to other octets"
        self.findings.not_sure(place, f"{said}, which something before them may explain")
        return False

    def refuse_all(self) -> NoReturn:
        """Refuses a recording none of whose frames is explained."""
        said = likeness_of(self.alignment.law, self.pairs).said()
        raise NotSure(
            f"the octets of no frame are explained, so nothing was judged: {said}; another codec,"
            " gain or echo canceller may follow the decoder"
        )

    def rows(self) -> List[Row]:
        """The good frames that came in a row, with their octets."""
        rows: List[Row] = [[]]
        for k, frame in enumerate(self.frames):
            start = self.alignment.first + SAMPLES * k
            octets = self.out[start : start + SAMPLES] if start >= 0 else b""
            if frame is None or len(octets) < SAMPLES:
                rows.append([])
            else:
                rows[-1].append((frame, octets))
        return [row for row in rows if row]

    def refuse_slip(self, wrong: Sequence[Wrong]) -> None:
        """Refuses the recording if what follows the first wrong frame is found at another delay, or
        most wrong frames are, each at one of its own."""
        start = wrong[0].period if wrong else self.numbers[0]
        starts = [SAMPLES * k for k in range(len(self.periods))]
        stretches = [
            each
            for each in stretches_of(self.frames, starts)
            if self.numbers[each.place // SAMPLES] >= start
        ]
        laws = [self.alignment.law]
        other = found_exactly(stretches, self.bits, laws)
        other = other or found_by_likeness(stretches, self.bits, laws)
        if other and (other.first, other.bit) != (self.alignment.first, self.alignment.bit):
            self.refuse_delay(start, other.first - self.alignment.first)
        loud = [each for each in wrong if is_loud(decode(STANDARD, each.state, each.parameters)[0])]
        moved = [(each, move) for each in loud for move in [self.slip_of(each)] if move]
        if moved and len(moved) >= PART_THAT_SLIPPED * len(loud):
            self.refuse_delay(moved[0][0].period, moved[0][1])

    def refuse_delay(self, period: int, octets: int) -> NoReturn:
        """Refuses a recording whose delay changes."""
        raise NotSure(
            f"the delay isn't sure: from {period / PERIODS_A_SECOND:.2f} s on it is {octets} octets"
            " more"
        )

    def slip_of(self, wrong: Wrong) -> int:
        """How many octets later than it should a wrong frame is plainly found; 0 if it isn't."""
        place = self.alignment.first + SAMPLES * self.numbers.index(wrong.period)
        start = max(0, place - MOST_SLIP)
        octets = self.out[start : place + SAMPLES + MOST_SLIP]
        samples = decode(STANDARD, wrong.state, wrong.parameters)[0]
        line = [sample >> 8 for sample in expand_all(self.alignment.law, octets)]
        found, likeness = likest(samples, line)
        return start + found - place if likeness >= SLIPPED else 0
