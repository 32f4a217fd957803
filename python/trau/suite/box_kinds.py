"""Holds a box to the rules of a frame's kind, and of the search for frames, by what it made of each
period: the frame that came, or another in its place (GSM 06.31, GSM 08.60)."""

import enum

from trau.recordings.code_word import (
    CODE_WORD_BITS,
    LEAST_ERRORS_OF_INVALID,
    LEAST_ERRORS_OF_SPEECH,
    errors_of,
)
from trau.rules.frame import Bits, FrameKind, UpFrame

from trau.suite.box_findings import Findings, Place
from trau.suite.box_uplink import UpPeriod


class Taken(enum.Enum):
    """What a box took a period for; the value is the word in texts."""

    SPEECH = "decoded as speech"
    DESCRIPTOR = "a silence descriptor"
    LOST = "replaced"


def has_other_bits(data: Bits) -> bool:
    """Whether bits of the pulses outside of the code word are 1."""
    least = (place - 1 for place in CODE_WORD_BITS if place - 1 not in CODE_WORD_BITS)
    return any(data[place] == "1" for place in least)


class KindJudge:
    """Judges what a box took each period for."""

    def __init__(self, findings: Findings) -> None:
        self.findings = findings

    def judge(self, place: Place, period: UpPeriod, taken: Taken) -> None:
        """Judges a period whose octets are explained."""
        if period.frame is None:
            if period.missed is not None:
                is_kept = taken is not Taken.SPEECH
                measured = "a frame with wrong sync bits is decoded"
                self.findings.judge("search.locked", is_kept, place, measured, "replaced")
            return
        if period.is_anew and taken is Taken.SPEECH:
            self.findings.held("search.place")
        self.of_frame(place, period.frame, taken)

    def of_frame(self, place: Place, frame: UpFrame, taken: Taken) -> None:
        """Judges a period with a frame, by its mark and by its code word."""
        errors = errors_of(frame.data)
        if frame.kind is FrameKind.VALID_SID and errors < LEAST_ERRORS_OF_INVALID:
            self.expect("kind.descriptor", place, taken, Taken.DESCRIPTOR)
            if has_other_bits(frame.data):
                self.expect("kind.other-bits", place, taken, Taken.DESCRIPTOR)
        elif frame.kind is FrameKind.INVALID_SID and errors < LEAST_ERRORS_OF_SPEECH:
            self.expect("kind.invalid", place, taken, Taken.LOST)
        elif frame.kind is FrameKind.SPEECH and errors >= LEAST_ERRORS_OF_SPEECH:
            self.expect("kind.speech", place, taken, Taken.SPEECH)
        elif frame.kind is FrameKind.UNUSABLE:
            self.expect("line.uplink", place, taken, Taken.LOST)

    def expect(self, rule: str, place: Place, taken: Taken, wanted: Taken) -> None:
        """Holds a period to what it is by a rule."""
        self.findings.judge(rule, taken is wanted, place, taken.value, wanted.value)
