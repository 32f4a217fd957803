"""The receive side: for each period of an uplink the frame that is decoded or handed over (modelled
on GSM 06.11 and 06.12).

A period's effective frame is a good speech frame, a frame made for a lost one, a frame of comfort
noise, or none where the call is quiet. It is found by looking back over the list of periods to the
last one that is an anchor: a good speech frame, a silence descriptor (SID) or an idle frame. All
numbers are this project's profile (docs/PROFILE.md, "Lost speech" and "Comfort noise").
"""

from typing import List, NamedTuple, Optional, Sequence, Union

from trau.rules import profile
from trau.rules.frame import FrameKind, UpFrame
from trau.rules.noise import RandomSource, comfort_noise
from trau.rules.parameters import SILENCE, Parameters, parameters_of_bits

Effective = Optional[Parameters]  # None where the call is quiet


class Lost(NamedTuple):
    """What a period needs for a frame that takes the place of the n-th lost one after a good one; n
    is 0 for that one itself."""

    good: Parameters
    n: int

    def made(self, source: RandomSource) -> Parameters:
        """The frame, with a draw of the grid in each block (docs/PROFILE.md, "Lost speech")."""
        if self.n >= profile.SILENT_FROM_LOST:
            return SILENCE
        if self.n <= 1:
            return self.good
        fall = profile.MUTING_STEP * (self.n - 1)
        blocks = [
            b._replace(xmaxc=max(0, b.xmaxc - fall), mc=source.draw(profile.GRID_VALUES))
            for b in self.good.blocks
        ]
        return self.good._replace(blocks=tuple(blocks))


class Noise(NamedTuple):
    """What a period needs for a frame of comfort noise: where the noise stands, and how far it has
    fallen."""

    base: Parameters
    fall: int

    def made(self, source: RandomSource) -> Parameters:
        """The frame (docs/PROFILE.md, "Comfort noise")."""
        return (
            SILENCE
            if self.fall >= profile.SILENT_FROM_FALL
            else comfort_noise(self.base, source, self.fall)
        )


Need = Union[None, Lost, Noise]  # None where the call is quiet


def mixed(old: Parameters, new: Parameters, step: int) -> Parameters:
    """Noise on its way from an old silence descriptor to a new one, after so many of eight steps
    (docs/PROFILE.md, "Comfort noise")."""

    def between(a: int, b: int) -> int:
        return (a * (profile.APPROACH_STEPS - step) + b * step) // profile.APPROACH_STEPS

    blocks = [b._replace(xmaxc=between(a.xmaxc, b.xmaxc)) for a, b in zip(old.blocks, new.blocks)]
    return Parameters(tuple(map(between, old.larc, new.larc)), tuple(blocks))


def is_anchor(frame: Optional[UpFrame]) -> bool:
    """Whether the periods after it look back to this frame (docs/PROFILE.md, "Lost speech")."""
    return frame is not None and frame.kind in (
        FrameKind.SPEECH,
        FrameKind.VALID_SID,
        FrameKind.IDLE,
    )


def missed_descriptor(frame: Optional[UpFrame]) -> bool:
    """Whether a silence descriptor was due in this period and what came is an unusable speech frame
    (GSM 06.31, TAF)."""
    return frame is not None and frame.kind is FrameKind.UNUSABLE and frame.taf


def stretches(frames: Sequence[Optional[UpFrame]]) -> List[List[Optional[UpFrame]]]:
    """The periods cut in front of each anchor: the first of each part is an anchor, but that of the
    first part may not be."""
    starts = sorted({0} | {k for k, frame in enumerate(frames) if is_anchor(frame)})
    return [list(frames[start:end]) for start, end in zip(starts, starts[1:] + [len(frames)])]


def falls(stretch: Sequence[Optional[UpFrame]]) -> List[int]:
    """How far noise has fallen in each period from a silence descriptor on (docs/PROFILE.md,
    "Comfort noise").

    From the period on in which the second descriptor that was due didn't come it falls by one a
    period, down to silence.
    """
    missed = [k for k, frame in enumerate(stretch) if k > 0 and missed_descriptor(frame)]
    if len(missed) < profile.FALL_FROM_MISSED:
        return [0] * len(stretch)
    second = missed[profile.FALL_FROM_MISSED - 1]
    return [max(0, min(k - second + 1, profile.SILENT_FROM_FALL)) for k in range(len(stretch))]


def noise(stretch: Sequence[Optional[UpFrame]], before: Need) -> List[Need]:
    """The noise of each period from a silence descriptor on; `before` is what the period before it
    needed.

    A descriptor after noise that hasn't begun to fall is approached from where that stands, any
    other one is there at once.
    """
    assert stretch[0] is not None
    new = parameters_of_bits(stretch[0].data)
    old = before.base if isinstance(before, Noise) and before.fall == 0 else new
    steps = [min(k + 1, profile.APPROACH_STEPS) for k in range(len(stretch))]
    return [Noise(mixed(old, new, step), fall) for step, fall in zip(steps, falls(stretch))]


def needs_of_stretch(stretch: Sequence[Optional[UpFrame]], before: Need) -> List[Need]:
    """What each period of a stretch needs; `before` is what the period before it needed
    (docs/PROFILE.md, "Lost speech")."""
    first = stretch[0]
    if first is not None and first.kind is FrameKind.VALID_SID:
        return noise(stretch, before)
    if first is not None and first.kind is FrameKind.SPEECH:
        good = parameters_of_bits(first.data)
        return [Lost(good, min(n, profile.SILENT_FROM_LOST)) for n in range(len(stretch))]
    return [None] * len(stretch)


def needs(frames: Sequence[Optional[UpFrame]]) -> List[Need]:
    """What each period needs (docs/PROFILE.md, "Lost speech" and "Comfort noise")."""
    found: List[Need] = []
    if frames:
        for stretch in stretches(frames):
            found += needs_of_stretch(stretch, found[-1] if found else None)
    return found


def effective_frames(number: int, frames: Sequence[Optional[UpFrame]]) -> List[Effective]:
    """The effective frame of each period of the call of this number (docs/PROFILE.md, "Lost speech"
    and "Comfort noise").

    `frames` has the frame of each period, None for a miss and for a period without a yield. The
    draws go on over the whole call.
    """
    source = RandomSource(number)
    return [need.made(source) if need else None for need in needs(frames)]
