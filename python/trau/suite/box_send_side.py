"""The downlink of a box beside its line from the exchange, as a whole."""

from typing import List, NoReturn, Optional, Sequence, Tuple

from trau.rules.frame import Bits, FrameKind, bits_of, shift_of
from trau.rules.g711 import Law, expand_all
from trau.rules.parameters import Parameters
from trau.rules.profile import FRAME_BITS

from trau.suite.box_delay import (
    JudgedSide,
    LineAlignment,
    LoudStretch,
    NotSure,
    found_by_likeness,
    line_at,
    stretches_of,
)
from trau.suite.box_downlink import ENCODER, SendJudge, SentDown, down_periods
from trau.suite.box_findings import Findings, Place
from trau.suite.box_pauses import PauseJudge
from trau.suite.box_unexplained import likeness_of
from trau.suite.box_uplink import UpPeriod

SAMPLES = 160
FEW_MATCHES = 0.1  # of the frames that differ: so few may be the encoder's by chance


def refuse_other_frames(frames: Sequence[SentDown]) -> None:
    """Refuses a line whose frames aren't those of a downlink."""
    if not frames:
        raise NotSure("the downlink has no frame")
    if 2 * sum(each.kind is FrameKind.OTHER for each in frames) > len(frames):
        raise NotSure("most frames of the downlink aren't those of a downlink, but of an uplink?")


def down_stretches(frames: Sequence[SentDown]) -> List[LoudStretch]:
    """What loud frames say, with its place in samples from bit 0 of the downlink on."""
    rows: List[Optional[Parameters]] = []
    starts: List[int] = []
    last = None
    for each in frames:
        if last is not None and each.place - last != FRAME_BITS:
            rows.append(None)
            starts.append(0)
        rows.append(each.parameters if each.kind is FrameKind.SPEECH else None)
        starts.append(each.place // 2)
        last = each.place
    return stretches_of(rows, starts)


class SendSide:
    """A line from the exchange and the downlink that came of it."""

    def __init__(self, pcm: bytes, down: bytes, laws: Sequence[Law], findings: Findings) -> None:
        self.findings = findings
        self.frames = down_periods(bits_of(down), findings)
        refuse_other_frames(self.frames)
        self.bits = bits_of(pcm)
        self.alignment = self.found_alignment(laws)
        line = line_at(self.bits, self.alignment.bit)
        self.samples = expand_all(self.alignment.law, line)

    def found_alignment(self, laws: Sequence[Law]) -> LineAlignment:
        """Where the line from the exchange has what the frames say."""
        stretches = down_stretches(self.frames)
        if not stretches:
            raise NotSure("the downlink has no five loud speech frames in a row")
        found = found_by_likeness(stretches, self.bits, laws)
        if found is None:
            raise NotSure(
                "the delay isn't sure: no place of the line from the exchange has the speech"
            )
        return found

    def judge(self, is_always: bool) -> JudgedSide:
        """Judges it."""
        judge = self.followed()
        if judge.counted:
            self.refuse_slip(judge)
        judge.conclude()
        matches, law = judge.matches, self.alignment.law
        is_named = set(self.findings.named()) & set(ENCODER)
        if not is_named and matches <= FEW_MATCHES * len(judge.counted):
            self.refuse_all()
        if matches:
            self.findings.held(f"{law.value}.expand", matches)
            self.findings.held("line.data", matches)
        PauseJudge(self.findings, is_always).run(judge.coded)
        return JudgedSide(self.alignment, self.frames[0].place, len(self.frames))

    def tried(self, first: int) -> SendJudge:
        """Follows the encoder with this delay."""
        judge = SendJudge(self.findings)
        judge.run(self.frames, self.samples, first)
        return judge

    def followed(self) -> SendJudge:
        """Follows the encoder. If it makes few of the frames, it is also tried a sample further on
        or back, lest a delay that is off by one be held against the box."""
        best = self.tried(self.alignment.first)
        if best.matches < len(best.counted):
            others = [self.tried(self.alignment.first + move) for move in (-1, 1)]
            best = max([best, *others], key=lambda one: one.matches)
        self.alignment = self.alignment._replace(first=best.first)
        return best

    def refuse_slip(self, judge: SendJudge) -> None:
        """Refuses the recording if what follows the first frame that differs is found at another
        delay: by its sound, or, of one octet, by frames that are the encoder's."""
        start = judge.counted[0][0]
        later = [each for each in self.frames if each.where() >= start]
        law, first = self.alignment.law, self.alignment.first
        other = found_by_likeness(down_stretches(later), self.bits, [law])
        move = other.first - first if other and other.bit == self.alignment.bit else 0
        here = sum(place >= start for place in judge.places)
        for near in (-1, 1) if abs(move) <= 1 else ():
            if sum(place >= start for place in self.tried(first + near).places) > here:
                raise self.slip(start, near)
        if abs(move) > 1:
            raise self.slip(start, move)

    def refuse_all(self) -> NoReturn:
        """Refuses a recording whose frames aren't the encoder's, and no rule explains them."""
        pairs = []
        line = line_at(self.bits, self.alignment.bit)
        for each in down_stretches(self.frames):
            first = each.place + self.alignment.first
            octets = line[first : first + SAMPLES] if first >= 0 else b""
            if len(octets) == SAMPLES:
                pairs.append((each.samples, octets))
        gain = -likeness_of(self.alignment.law, pairs).gain
        raise NotSure(
            f"no rule explains the frames of the downlink, so nothing was judged: their sound is that"
            f" of the line at {gain:+.1f} dB; another codec, gain or echo canceller may precede the"
            " encoder"
        )

    def slip(self, start: Place, move: int) -> NotSure:
        """Why a recording is refused whose delay changes."""
        return NotSure(
            f"the delay isn't sure: from {start.seconds:.2f} s on it is {move} octets more"
        )


def judge_send(
    pcm: bytes, down: bytes, laws: Sequence[Law], is_always: bool, findings: Findings
) -> Tuple[JudgedSide, List[SentDown]]:
    """Judges a downlink."""
    side = SendSide(pcm, down, laws, findings)
    return side.judge(is_always), side.frames


def judge_shifts(
    periods: Sequence[UpPeriod], frames: Sequence[SentDown], findings: Findings
) -> None:
    """Holds shifts of the downlink to the requests on an uplink that began with it: each is that of
    the last request in the three periods before."""
    asked = [
        (each.place, shift_of(each.frame.field))
        for each in periods
        if each.frame is not None and each.frame.kind is not FrameKind.OTHER
    ]
    for before, now in zip(frames, frames[1:]):
        octets = (now.place - before.place - FRAME_BITS) // 2
        recent = [
            shift
            for place, shift in asked
            if before.place - 3 * FRAME_BITS <= place <= before.place and shift
        ]
        if octets and abs(octets) < SAMPLES:
            is_asked = bool(recent) and recent[-1] == octets
            wanted = f"{recent[-1]} as was asked for" if recent else "none, as none was asked for"
            findings.judge("line.shift", is_asked, now.where(), f"{octets} octets", wanted)
