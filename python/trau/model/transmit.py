"""Discontinuous transmission (DTX): what is sent of encoded frames, modelled on GSM 06.31 and
06.32.

The level, the hangover and the silence descriptors are this project's profile (docs/OPERATORS.md,
"Levels and discontinuous transmission"; docs/PROFILE.md, "Silence descriptors").
"""

import enum
from itertools import accumulate
from typing import List, NamedTuple, Optional, Sequence

from trau.rules import profile
from trau.rules.parameters import Block, Parameters

from trau.model.codec import Encoded, code_maximum, code_ratios


class Dtx(enum.Enum):
    """When discontinuous transmission applies to a call; the value is the word of the order
    (docs/OPERATORS.md, "Orders")."""

    ON = "on"
    OFF = "off"
    UPLINK = "uplink"


class Coded(NamedTuple):
    """A frame of the encoder, and what holds when it is made."""

    encoded: Encoded
    level: int  # 0 to 32767
    on: bool  # whether discontinuous transmission applies

    def is_speech(self) -> bool:
        """Whether it counts as speech: its peak isn't below the level (this project's profile, in
        place of GSM 06.32)."""
        return not self.on or self.encoded.peak >= self.level


class SentFrame(NamedTuple):
    """What is sent of a frame: parameters, and SP, which says that they are speech (GSM 06.31)."""

    parameters: Parameters
    sp: bool


def silence_descriptor(frames: Sequence[Coded]) -> Parameters:
    """The silence descriptor of four frames: the means of what they had before coding (GSM 06.12,
    numbers of this project's profile).

    A mean is cut to the next whole number below it."""
    traces = [frame.encoded.trace for frame in frames]
    lar = [sum(ratios) // len(traces) for ratios in zip(*(trace.lar for trace in traces))]
    maxima = [xmax for trace in traces for xmax in trace.xmax]
    block = Block(0, 0, 0, code_maximum(sum(maxima) // len(maxima)), (0,) * 13)
    return Parameters(code_ratios(lar), (block,) * 4)


def lengths_of_pauses(frames: Sequence[Coded]) -> List[int]:
    """For each frame how many frames without speech stand unbroken up to it; 0 for a frame of
    speech."""
    return list(
        accumulate(
            (0 if frame.is_speech() else 1 for frame in frames),
            lambda length, one: (length + 1) * one,
        )
    )


def last_place(places: Sequence[bool]) -> List[Optional[int]]:
    """For each index the last one below it at which `places` holds, or None."""
    found: List[Optional[int]] = []
    last: Optional[int] = None
    for index, holds in enumerate(places):
        found.append(last)
        last = index if holds else last
    return found


def sent_frames(frames: Sequence[Coded]) -> List[SentFrame]:
    """What is sent of the frames that are encoded in a row from home (docs/OPERATORS.md, "Levels
    and discontinuous transmission")."""
    pauses = lengths_of_pauses(frames)
    made = [length >= profile.DESCRIBED_FROM for length in pauses]
    last_made = last_place(made)

    def descriptor(j: int) -> Parameters:
        return silence_descriptor(frames[j - profile.DESCRIPTOR_FRAMES + 1 : j + 1])

    def one(j: int) -> SentFrame:
        if pauses[j] == 0:
            return SentFrame(frames[j].encoded.parameters, True)
        if made[j]:
            return SentFrame(descriptor(j), False)
        first = j - pauses[j] + 1
        last = last_made[first]
        if last is None or first - last >= profile.HANGOVER_AFTER:
            return SentFrame(frames[j].encoded.parameters, True)
        return SentFrame(descriptor(last), False)

    return [one(j) for j in range(len(frames))]
