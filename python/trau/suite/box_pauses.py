"""Holds what a box sends in pauses to the rules of discontinuous transmission (GSM 06.31, 06.12)."""

from typing import List, Optional, Sequence

from trau.model import codec
from trau.rules.frame import FrameKind
from trau.rules.parameters import Block, Parameters

from trau.suite.box_analysis import RATIO_RULES
from trau.suite.box_downlink import EncodedFrame
from trau.suite.box_findings import Findings

HANGOVER = 4  # frames
HANGOVER_AFTER = 24  # frames since a new descriptor
DESCRIPTOR_FRAMES = 4
DESCRIBED_FROM = 5
LEAST_SPEECH = 1024  # a peak of what is surely speech, if the recording isn't soft
PART_OF_LOUDEST = 4
OUR_LEVEL = 256


def rows_of(coded: Sequence[EncodedFrame]) -> List[List[EncodedFrame]]:
    """The frames cut where one doesn't follow the one before."""
    rows: List[List[EncodedFrame]] = []
    for each in coded:
        if not each.follows or not rows:
            rows.append([])
        rows[-1].append(each)
    return rows


def is_hidden(each: EncodedFrame) -> bool:
    """Whether a frame was sent as a silence descriptor."""
    return each.sent.kind is FrameKind.VALID_SID


class PauseJudge:
    """Judges the pauses of a downlink."""

    def __init__(self, findings: Findings, is_always: bool) -> None:
        self.findings = findings
        self.is_always = is_always  # whether transmission is continuous, as the caller says
        self.was_ours = False  # whether the descriptor before had this project's means

    def run(self, coded: Sequence[EncodedFrame]) -> None:
        """Judges all frames."""
        for each in coded:
            if is_hidden(each):
                self.descriptor(each)
        loudest = max((each.followed.peak for each in coded), default=0)
        sure = max(LEAST_SPEECH, loudest // PART_OF_LOUDEST)
        level = self.level(coded)
        for row in rows_of(coded):
            self.hangovers(row, sure)
            if level is not None:
                self.means(row, level)

    def descriptor(self, each: EncodedFrame) -> None:
        """The bits of one descriptor."""
        where, wrong = each.sent.where(), each.sent.wrong_bits
        maxima = tuple(block.xmaxc for block in each.sent.parameters.blocks)
        self.findings.judge("send.code-word", wrong == 0, where, f"{wrong} of 95 bits are 1", 0)
        self.findings.judge(
            "send.one-maximum", len(set(maxima)) == 1, where, f"maxima {maxima}", "one"
        )
        if self.is_always:
            self.findings.broken("send.speech", where, "a silence descriptor", "speech alone")

    def hangovers(self, row: Sequence[EncodedFrame], sure: int) -> None:
        """Each first descriptor after speech comes four frames after the speech's end, if the last
        one before is 24 frames ago."""
        speech: Optional[int] = None
        last: Optional[int] = None
        for k, each in enumerate(row):
            if not is_hidden(each):
                speech = k if each.followed.peak >= sure else speech
                continue
            is_first = k > 0 and not is_hidden(row[k - 1])
            if is_first and speech is not None:
                since = speech + 1 - (last if last is not None else 0)
                if since >= HANGOVER_AFTER:
                    frames = k - speech - 1
                    measured = f"{frames} frames of the pause as speech"
                    self.findings.judge(
                        "send.hangover",
                        frames >= HANGOVER,
                        each.sent.where(),
                        measured,
                        f"{HANGOVER} at least",
                    )
            last = k

    def level(self, coded: Sequence[EncodedFrame]) -> Optional[int]:
        """A level that explains which frames are speech: each that follows a descriptor has a peak
        at or above it, each descriptor one below."""
        hidden = [each.followed.peak for each in coded if is_hidden(each)]
        heard = [
            now.followed.peak
            for before, now in zip(coded, coded[1:])
            if now.follows and is_hidden(before) and not is_hidden(now)
        ]
        if not hidden:
            return None
        least, most = max(hidden) + 1, min(heard, default=32767)
        first = next(each for each in coded if is_hidden(each))
        is_one = least <= most
        is_ours = is_one and least <= OUR_LEVEL <= most
        measured = f"a level from {least} to {most}" if is_one else "no level explains it"
        if not is_one and not self.findings.breaches.get("line.downlink"):
            self.findings.broken("send.level", first.sent.where(), measured, "one level")
        elif is_one:
            self.findings.held("send.level", len(hidden))
        if is_one and not is_ours:
            self.findings.note(f"silence descriptors: {measured} (here {OUR_LEVEL})")
        return (OUR_LEVEL if is_ours else most) if is_one else None

    def means(self, row: Sequence[EncodedFrame], level: int) -> None:
        """Descriptors of the fifth frame of a pause and later ones are new, and have the means of
        four frames."""
        pause, self.was_ours = 0, False
        for k, each in enumerate(row):
            pause = pause + 1 if each.followed.peak < level else 0
            four = row[k + 1 - DESCRIPTOR_FRAMES : k + 1] if k + 1 >= DESCRIPTOR_FRAMES else ()
            is_known = len(four) == DESCRIPTOR_FRAMES and all(one.is_exact for one in four)
            if not is_hidden(each) or pause < DESCRIBED_FROM or not is_known:
                continue
            ours = mean_of(four)
            self.compare(each, row[k - 1], ours)
            self.was_ours = each.sent.parameters == ours

    def repeats(self) -> bool:
        """Whether a descriptor that is the one before again can't be a new one: the one before was
        this project's, and the box codes ratios as the standard does."""
        return self.was_ours and not any(map(self.findings.breaches.get, RATIO_RULES))

    def compare(self, each: EncodedFrame, before: EncodedFrame, ours: Parameters) -> None:
        """Holds a descriptor to this project's."""
        sent = each.sent.parameters
        if sent == ours:
            self.findings.held("send.means")
            self.findings.held("send.every-frame")
        elif each.sent.wrong_bits or not is_one(sent):
            return
        elif is_hidden(before) and sent == before.sent.parameters and self.repeats():
            self.findings.broken(
                "send.every-frame", each.sent.where(), "the descriptor before again", "a new one"
            )
        else:
            self.findings.broken("send.means", each.sent.where(), described(sent), described(ours))


def is_one(frame: Parameters) -> bool:
    """Whether all block maxima are one."""
    return len({block.xmaxc for block in frame.blocks}) == 1


def described(frame: Parameters) -> str:
    """What counts of a descriptor."""
    block = frame.blocks[0]
    rest = f", Nc {block.nc}, bc {block.bc}, Mc {block.mc}" if any(block[:3]) else ""
    return f"LARc {frame.larc}, xmaxc {block.xmaxc}{rest}"


def mean_of(four: Sequence[EncodedFrame]) -> Parameters:
    """This project's descriptor of four frames (GSM 06.12)."""
    traces = [each.followed.trace for each in four]
    lar = [sum(ratios) // len(traces) for ratios in zip(*(trace.lar for trace in traces))]
    tops = [xmax for trace in traces for xmax in trace.xmax]
    block = Block(0, 0, 0, codec.code_maximum(sum(tops) // len(tops)), (0,) * 13)
    return Parameters(codec.code_ratios(lar), (block,) * 4)
