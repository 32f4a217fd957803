"""Finds silence descriptors among full rate frames by their code word (GSM 06.12), within the
limits of GSM 06.31, section 6.1.

A base station looks for the code word and marks the frame by C13 and C14 of its uplink. Files and
packets of full rate frames have no such marks, so the tools that make uplinks from them do this
work of the base station.
"""

from collections import Counter
from typing import Tuple

from trau.rules.frame import FrameKind, speech_control
from trau.rules.parameters import BLOCK_WIDTHS, LARC_WIDTHS


BLOCKS = 4
PULSES = 13
PULSE_BITS = 3
# In the last block only this many pulses have their middle bits in class I.
PULSES_OF_LAST_BLOCK = 4


def code_word_bits() -> Tuple[int, ...]:
    """The bits of the pulses that class I of GSM 05.03 has: the highest bit of each, and the middle
    bit of all but nine."""
    found = []
    for block in range(BLOCKS):
        end = sum(LARC_WIDTHS) + (block + 1) * sum(
            BLOCK_WIDTHS
        )  # the pulses are the last parameters of a block
        for pulse in range(PULSES):
            least = end - PULSE_BITS * (
                PULSES - pulse
            )  # the place of the pulse's least significant bit, counted from D1 as 0
            has_middle = block < BLOCKS - 1 or pulse < PULSES_OF_LAST_BLOCK
            found += [least + 1, least + 2] if has_middle else [least + 2]
    return tuple(found)


CODE_WORD_BITS = code_word_bits()  # 95 bits, which are 0 in a silence descriptor
LEAST_ERRORS_OF_INVALID = 2
LEAST_ERRORS_OF_SPEECH = 16


MARKS = {
    FrameKind.SPEECH: "000",
    FrameKind.VALID_SID: "010",
    FrameKind.INVALID_SID: "101",
}  # C12 (BFI), C13 and C14 (SID)


def errors_of(data: str) -> int:
    """How many bits of the code word are wrong in D1 to D260."""
    return sum(data[bit] == "1" for bit in CODE_WORD_BITS)


def kind_of(data: str) -> FrameKind:
    """What D1 to D260 are, by GSM 06.31 section 6.1: a speech frame, a valid or an invalid SID
    frame."""
    errors = errors_of(data)
    if errors >= LEAST_ERRORS_OF_SPEECH:
        return FrameKind.SPEECH
    return FrameKind.INVALID_SID if errors >= LEAST_ERRORS_OF_INVALID else FrameKind.VALID_SID


class Marker:
    """Marks frames as a base station does, and counts the descriptors; or keeps all of them as
    speech."""

    def __init__(self, keeps: bool = False, dtxd: bool = False) -> None:
        self.dtxd = dtxd
        self.keeps = keeps
        self.counts: Counter = Counter()

    def kind(self, data: str) -> FrameKind:
        """What a frame counts as."""
        kind = FrameKind.SPEECH if self.keeps else kind_of(data)
        self.counts.update([kind])
        return kind

    def control(self, kind: FrameKind, taf: bool = False) -> str:
        """C1 to C21 of the uplink frame: a damaged descriptor is a bad frame too."""
        return speech_control(MARKS[kind], taf and kind is not FrameKind.SPEECH, self.dtxd)

    def said(self) -> str:
        """The descriptors that were marked, in words."""
        return (
            f"sid {self.counts[FrameKind.VALID_SID]} invalid {self.counts[FrameKind.INVALID_SID]}"
        )
