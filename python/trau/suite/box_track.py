"""What is known of a box's decoder while its octets are followed: the states that it may be in, and
whether its own is among them."""

from typing import List, NamedTuple, Optional, Sequence, Tuple

from trau.model import codec
from trau.rules.parameters import Parameters

from trau.suite.box_decoder import HOME, STANDARD, DecoderState, decode, doubt_after
from trau.suite.box_laws import Ranges, accepts
from trau.suite.box_search import (
    BlockSpace,
    Explained,
    allowed_samples,
    ended,
    starts,
    through_space,
)

UNKNOWN = (1.0,) * codec.MOST_LAG  # nothing is known of the past
CERTAIN = 1e-6  # less than this part of an unknown past doesn't show
LOUD = 400  # a frame with such a peak shows the decoder's state
FRAMES_TO_SETTLE = 7  # in which the short term filter forgets
FRAMES_TO_KNOW = 2  # loud frames in a row that must match


def is_loud(samples: Sequence[int]) -> bool:
    """Whether a frame shows the decoder's state."""
    return max(abs(sample) for sample in samples) >= LOUD


class Resumed(NamedTuple):
    """A state from which the box's decoder may have gone on, and the loud frames in a row that
    match since."""

    state: DecoderState
    matched: int = 0


class StateTrack:
    """The decoder's states that explain all octets so far. `is_sure` says that the box's own is one
    of them."""

    def __init__(self, ranges: Ranges) -> None:
        self.ranges = ranges
        self.states: List[DecoderState] = [HOME]
        self.is_sure = False
        self.matched = 0  # loud frames in a row
        self.doubt: Sequence[float] = UNKNOWN
        self.followed = 0  # frames since the state was lost
        self.last_sure = HOME
        self.resumed: List[Resumed] = []

    def lose(self, state: Optional[DecoderState] = None) -> None:
        """The box's state isn't known any longer; it may be like this one, or that of the last
        frame that was explained, or the initial one."""
        if self.is_sure:
            self.last_sure = self.states[0]
        self.resumed = [Resumed(each) for each in dict.fromkeys((self.last_sure, HOME))]
        self.states = [state or self.states[0]]
        self.is_sure, self.matched, self.doubt, self.followed = False, 0, UNKNOWN, 0

    def is_converged(self) -> bool:
        """Whether the frames since the state was lost leave nothing of what isn't known."""
        return max(self.doubt) < CERTAIN and self.followed >= FRAMES_TO_SETTLE

    def exactly(self, parameters: Parameters, octets: Sequence[int]) -> Explained:
        """The states after a known frame that explain the octets."""
        made = [decode(STANDARD, state, parameters) for state in self.states]
        fit = [
            (parameters, state) for samples, state in made if accepts(self.ranges, samples, octets)
        ]
        return Explained(fit, True)

    def follow(self, parameters: Parameters, octets: Sequence[int]) -> Tuple[bool, List[int]]:
        """Goes on by a frame that came while the state isn't sure; whether the octets are those,
        and the samples."""
        samples, state = decode(STANDARD, self.states[0], parameters)
        self.followed += 1
        self.doubt = doubt_after(self.doubt, self.states[0].lag, parameters)
        self.states = [state]
        fits = accepts(self.ranges, samples, octets)
        self.matched = self.matched + is_loud(samples) if fits else 0
        self.is_sure = self.matched >= FRAMES_TO_KNOW
        return self.resume(parameters, octets) or fits, samples

    def resume(self, parameters: Parameters, octets: Sequence[int]) -> bool:
        """Goes on from the states at which the box may have stopped. Whether one of them is now
        known to be the box's own."""
        found = []
        for each in self.resumed:
            samples, state = decode(STANDARD, each.state, parameters)
            if accepts(self.ranges, samples, octets):
                found.append(Resumed(state, each.matched + is_loud(samples)))
        self.resumed = found
        known = [each.state for each in found if each.matched >= FRAMES_TO_KNOW]
        if known and not self.is_sure:
            self.states, self.is_sure = known[:1], True
        return bool(known)

    def searched(
        self, larc: Sequence[int], spaces: Sequence[BlockSpace], octets: Sequence[int]
    ) -> Explained:
        """The frames of these ratios and of blocks within these spaces that explain the octets."""
        allowed = allowed_samples(self.ranges, octets)
        paths, is_whole = starts(self.states, larc), True
        for number, space in enumerate(spaces):
            paths, whole = through_space(paths, number, space, allowed)
            is_whole = is_whole and whole
            if not paths:
                return Explained([], is_whole)
        return ended(paths, larc, is_whole)

    def take(self, found: Explained) -> None:
        """Goes on with the states that were found."""
        if not found.frames:
            self.lose()
            return
        self.states = [state for _, state in found.frames]
        self.is_sure = self.is_sure and found.is_whole


class Wrong(NamedTuple):
    """A frame that came, and what the box made of it, where that can't be; and whether the box's
    state before it is known, or should only be forgotten."""

    period: int
    parameters: Parameters
    octets: bytes
    state: DecoderState
    is_known: bool
