"""A box's downlink beside its line from the exchange: each frame is held to what the encoder makes
of the same octets, and to the rules of discontinuous transmission."""

import re
from typing import Callable, List, NamedTuple, Optional, Sequence, Tuple

from trau.model import codec
from trau.recordings.code_word import LEAST_ERRORS_OF_SPEECH, errors_of
from trau.rules.frame import Bits, FrameKind, read_down, write_down
from trau.rules.parameters import Parameters, parameters_of_bits
from trau.rules.profile import FRAME_BITS
from trau.rules.search import FRAME_OF_DOWNLINK

from trau.suite.box_analysis import (
    LATER_RULES,
    RATIO_RULES,
    AnalysedFrame,
    turned_ratios,
    turned_stage,
)
from trau.suite.box_encoder import UNKNOWN, Difference, EncoderTrack, Followed, Stage
from trau.suite.box_findings import Findings, Place
from trau.suite.box_decoder import doubt_after
from trau.suite.box_unexplained import LEAST_JUDGED

SAMPLES = 160
SYNC_PLACES = (*range(16), *range(16, FRAME_BITS, 16))
MOST_WRONG_SYNC = 6
FEW_FRAMES = 5
LOUD = 1024  # a peak of frames that confirm the encoder's state
FRAMES_FROM_START = 5  # loud ones that confirm that it began with the recording
LEAST_HIDDEN = 3  # descriptors that are sent as speech
FRAMES_TO_KNOW = 2
BEFORE_PREEMPHASIS = ("encoder.downscaling", "encoder.offset", "encoder.preemphasis")
LATER_STAGES = ("encoder.lag", "encoder.lag-gain", "encoder.grid", "encoder.pulses")
ENCODER = (*RATIO_RULES, *LATER_RULES, *LATER_STAGES)
BITS_A_SECOND = 16000


class SentDown(NamedTuple):
    """A frame of a downlink: the bit at which it begins, what it is, and its parameters."""

    place: int
    kind: FrameKind
    parameters: Parameters
    wrong_bits: int  # of the code word of silence descriptors

    def is_like_descriptor(self) -> bool:
        """Whether its data bits may be those of a descriptor."""
        is_one = len({block.xmaxc for block in self.parameters.blocks}) == 1
        return self.wrong_bits == 0 and is_one

    def said_by_data(self, hides: bool) -> FrameKind:
        """Its kind, if its data bits are plainly of another than its bit SP says; `hides` says that
        the box sends descriptors as speech."""
        if hides and self.kind is FrameKind.SPEECH and self.is_like_descriptor():
            return FrameKind.VALID_SID
        if self.kind is FrameKind.VALID_SID and self.wrong_bits >= LEAST_ERRORS_OF_SPEECH:
            return FrameKind.SPEECH
        return self.kind

    def where(self) -> Place:
        """Where it begins."""
        return Place(self.place // FRAME_BITS, self.place / BITS_A_SECOND)


class EncodedFrame(NamedTuple):
    """A frame as the encoder saw it: what was sent, and the standard's measures of its samples."""

    sent: SentDown
    samples: List[int]
    followed: Followed
    is_exact: bool  # whether the encoder's state is known
    follows: bool  # whether it follows the one before


def pattern_without(places: Sequence[int]) -> "re.Pattern[str]":
    """The sync bits of a frame but for some."""
    bits = ["."] * (FRAME_BITS - 4)
    for place in SYNC_PLACES:
        if place not in places:
            bits[place] = "0" if place < 16 else "1"
    return re.compile("".join(bits))


def matches(line: Bits, findings: Findings) -> List[Tuple[int, Bits]]:
    """The frames of a line, also if the box sends one sync bit wrong in each."""
    found = [(each.start(), each.group()) for each in FRAME_OF_DOWNLINK.finditer(line)]
    if len(found) >= FEW_FRAMES:
        return found
    for place in SYNC_PLACES:
        other = [(each.start(), each.group()) for each in pattern_without([place]).finditer(line)]
        if len(other) >= FEW_FRAMES:
            start = Place(other[0][0] // FRAME_BITS, other[0][0] / BITS_A_SECOND)
            wanted = "0" if place < 16 else "1"
            findings.broken("line.sync", start, f"the bit at place {place} of frames", wanted)
            return other
    return found


def wrong_sync(line: Bits, place: int) -> int:
    """How many sync bits are wrong in what begins there."""
    return sum(line[place + k] != ("0" if k < 16 else "1") for k in SYNC_PLACES)


def judge_gaps(line: Bits, places: Sequence[int], findings: Findings) -> None:
    """Holds sync bits of frames that are missing to the rule."""
    for place, after in zip(places, places[1:]):
        due = place + FRAME_BITS
        if after - place >= 2 * FRAME_BITS - 4 and after >= due + FRAME_BITS - 4:
            wrong = wrong_sync(line, due)
            if wrong <= MOST_WRONG_SYNC:
                where = Place(due // FRAME_BITS, due / BITS_A_SECOND)
                findings.broken("line.sync", where, f"{wrong} of 35 sync bits wrong", "0")


def down_periods(line: Bits, findings: Findings) -> List[SentDown]:
    """The frames of a downlink."""
    all_found = matches(line, findings)
    judge_gaps(line, [place for place, _ in all_found], findings)
    found = []
    for place, bits in all_found:
        frame = read_down(bits)
        parameters = parameters_of_bits(frame.data)
        found.append(SentDown(place, frame.kind, parameters, errors_of(frame.data)))
    hides = hides_descriptors(found)
    for each, (_, bits) in zip(found, all_found):
        findings.held("line.sync")
        judge_control(each, bits, hides, findings)
    return [each._replace(kind=each.said_by_data(hides)) for each in found]


def hides_descriptors(frames: Sequence[SentDown]) -> bool:
    """Whether a box sends descriptors with the bit SP of speech. Of a box that doesn't, a frame or
    two of a constant line may look like that."""
    like = [each.kind for each in frames if each.is_like_descriptor()]
    hidden, marked = like.count(FrameKind.SPEECH), like.count(FrameKind.VALID_SID)
    return hidden >= LEAST_HIDDEN and hidden > marked


def judge_control(each: SentDown, bits: Bits, hides: bool, findings: Findings) -> None:
    """Holds control bits to this project's."""
    frame = read_down(bits)
    if frame.kind is FrameKind.OTHER:
        findings.broken("line.downlink", each.where(), f"C1 to C5 are {bits[17:22]}", "11100")
        return
    ours = write_down(frame)
    control, wanted = bits[17:32] + bits[310:316], ours[17:32] + ours[310:316]
    findings.judge("line.downlink", control == wanted, each.where(), f"C {control}", wanted)
    kind = each.said_by_data(hides)
    if frame.is_speech() and kind is not frame.kind:
        words = {FrameKind.SPEECH: "speech", FrameKind.VALID_SID: "a silence descriptor"}
        sp = int(frame.kind is FrameKind.SPEECH)
        findings.broken("line.downlink", each.where(), f"SP {sp} in {words[kind]}", f"SP {1 - sp}")


class SendJudge:
    """Follows the encoder over the frames of a downlink."""

    def __init__(self, findings: Findings) -> None:
        self.findings = findings
        self.track = EncoderTrack()
        self.was_exact = False
        self.after_hidden = False
        self.is_initial = True  # whether no frame contradicts that the encoder began anew
        self.loud_matches = 0  # frames that confirm it
        self.matched = 0  # frames in a row that are the encoder's
        self.places: List[Place] = []  # of all of them
        self.unknown: List[Place] = []  # of frames that differ, but whose past isn't known
        self.first = 0
        self.coded: List[EncodedFrame] = []
        self.counted: List[Tuple[Place, Followed]] = []

    @property
    def matches(self) -> int:
        """How many frames are the encoder's."""
        return len(self.places)

    def run(self, frames: Sequence[SentDown], samples: Sequence[int], first: int) -> None:
        """Follows all frames; `first` is the sample of the frame at bit 0."""
        self.first = first
        last: Optional[SentDown] = None
        for each in frames:
            start = each.place // 2 + first
            part = list(samples[max(0, start) : max(0, start + SAMPLES)])
            if start < 0 or len(part) < SAMPLES or each.kind is FrameKind.IDLE:
                self.restart()
                last = None
                continue
            is_next = last is not None and each.place - last.place < 2 * FRAME_BITS - 4
            if not is_next:
                self.restart()
            self.frame(each, part, is_next)
            last = each

    def restart(self) -> None:
        """The encoder's state isn't known; it may be the initial one."""
        self.track.start_anew()
        self.was_exact = self.after_hidden = False
        self.matched = 0
        self.is_initial, self.loud_matches = True, 0

    def frame(self, each: SentDown, part: List[int], follows: bool) -> None:
        """Follows one frame."""
        if each.kind is FrameKind.SPEECH:
            followed = self.track.sent(part, each.parameters)
            self.judge_sent(each, followed)
        else:
            trace, peak = self.track.hidden(part)
            known = self.track.preprocessing.is_known
            followed = Followed([], known, self.was_exact, trace, peak, [])
            self.after_hidden = True
        self.coded.append(EncodedFrame(each, part, followed, self.was_exact, follows))

    def judge_sent(self, each: SentDown, followed: Followed) -> None:
        """Holds a frame that was sent as speech to the encoder's."""
        if not followed.differences:
            self.places.append(each.where())
            self.matched += 1
            self.loud_matches += self.is_initial and followed.peak >= LOUD
            self.was_exact = self.matched >= FRAMES_TO_KNOW
            self.after_hidden = False
            return
        self.is_initial = self.is_initial and self.loud_matches >= FRAMES_FROM_START
        was_hidden, self.after_hidden = self.after_hidden, False
        if was_hidden:
            self.track.doubt = doubt_after(UNKNOWN, codec.LEAST_LAG, each.parameters)
        known = [
            one
            for one in followed.differences
            if (self.is_initial or self.is_known(followed, one.stage)) and not was_hidden
        ]
        self.was_exact, self.matched = False, 0
        if known:
            self.counted.append((each.where(), followed._replace(differences=known)))
        else:
            self.unknown.append(each.where())

    @staticmethod
    def is_known(followed: Followed, stage: Stage) -> bool:
        """Whether what a stage depends on is known, wherever the recording begins."""
        return followed.knows_ratios if stage is Stage.RATIOS else followed.knows_past

    def analysed(self) -> List[AnalysedFrame]:
        """The frames of the longest row, for the steps before the coded ratios."""
        rows: List[List[EncodedFrame]] = [[]]
        for each in self.coded:
            if not each.follows:
                rows.append([])
            rows[-1].append(each)
        longest = max(rows, key=len)
        return [
            AnalysedFrame(
                one.samples,
                one.sent.parameters,
                one.followed.knows_ratios and one.sent.kind is FrameKind.SPEECH,
            )
            for one in longest
        ]

    def conclude(self) -> None:
        """Counts what was held, and names the rules of the encoder that the box breaks."""
        if self.matches:
            for rule in (*ENCODER, "send.speech"):
                self.findings.held(rule, self.matches)
        by_ratios = self.part(lambda one: one.stage is Stage.RATIOS)
        later = self.part(lambda one: one.stage is not Stage.RATIOS)
        named = ""
        if by_ratios:
            place = by_ratios[0][0]
            turned = turned_ratios([each for _, each in by_ratios], self.analysed())
            if turned:
                named = turned.rule
                self.findings.broken(turned.rule, place, turned.measured, turned.allowed)
            else:
                self.findings.suspect(RATIO_RULES, place, text_of(by_ratios[0][1]))
        if later and named not in BEFORE_PREEMPHASIS and (named or not by_ratios):
            place, followed = later[0]
            stage_rule = turned_stage([each for _, each in later])
            if stage_rule:
                one = followed.differences[0]
                sent = f"{one.stage.value} of block {one.place + 1} is {one.sent}"
                self.findings.broken(stage_rule, place, sent, one.expected)
            else:
                self.findings.suspect(LATER_RULES, place, text_of(followed))
        judged = self.matches + len(self.counted)
        if (
            self.unknown
            and not self.counted
            and judged < LEAST_JUDGED * (judged + len(self.unknown))
        ):
            self.findings.not_sure(
                self.unknown[0],
                f"the encoder's state isn't known; {len(self.unknown)} of"
                f" {judged + len(self.unknown)} speech frames aren't judged",
            )

    def part(self, holds: Callable[[Difference], bool]) -> List[Tuple[Place, Followed]]:
        """The frames with differences of some stages, with these alone."""
        found = []
        for place, followed in self.counted:
            chosen = [one for one in followed.differences if holds(one)]
            if chosen:
                found.append((place, followed._replace(differences=chosen)))
        return found


def text_of(followed: Followed) -> str:
    """The first difference of a frame in words."""
    one = followed.differences[0]
    return f"{one.stage.value} {one.place + 1} is {one.sent} and not {one.expected}"
