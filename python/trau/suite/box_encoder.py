"""Follows a box's encoder frame by frame: each stage of GSM 06.10 section 4.2 is given what the
frame that was sent says of the stages before, so the first stage that differs is named."""

import enum
from typing import Dict, List, NamedTuple, Optional, Sequence, Tuple

from trau.model import codec
from trau.rules.arithmetic import magnitude, saturate_all
from trau.rules.parameters import Block, Parameters
from trau.rules.preprocessing import Preprocessing

from trau.suite.box_decoder import doubt_after

UNKNOWN = (1.0,) * codec.MOST_LAG
CERTAIN = 1e-6
OTHER_OFFSET = 1 << 27  # of a second start: an offset of 4096 that must be forgotten


class Stage(enum.Enum):
    """What a frame has of each stage; the value names it in texts."""

    RATIOS = "LARc"
    LAG = "Nc"
    GAIN = "bc"
    GRID = "Mc"
    MAXIMUM = "xmaxc"
    PULSES = "xMc"


class Difference(NamedTuple):
    """A stage that differs in a frame: in which block or ratio, what was sent and what is
    expected."""

    stage: Stage
    place: int
    sent: object
    expected: object


class Followed(NamedTuple):
    """A frame: what differs, whether all that it depends on was known, and the model's own."""

    differences: List[Difference]
    knows_ratios: bool  # whether the samples before coding are known
    knows_past: bool
    trace: codec.Trace
    peak: int
    emphasised: List[int]


class TwoStarts:
    """Preprocessing from two states far apart: what both make of a frame doesn't depend on what
    came before the recording."""

    def __init__(self) -> None:
        self.first, self.second = Preprocessing(), Preprocessing()
        self.second.offset = OTHER_OFFSET
        self.is_known = False

    def run(self, samples: Sequence[int]) -> List[int]:
        """The samples after preprocessing."""
        emphasised = self.first.run(samples)
        if not self.is_known:
            self.is_known = emphasised == self.second.run(samples)
        return emphasised


def gain_of_lag(lag: int, residual: Sequence[int], past: Sequence[int]) -> int:
    """The coded gain of a lag that was chosen (section 4.2.11)."""
    shift = codec.scaling(residual, 6)
    scaled = [value >> shift for value in residual]
    lagged = past[codec.MOST_LAG - lag :][: codec.BLOCK]
    correlation = sum(a * b for a, b in zip(scaled, lagged))
    if correlation <= 0:
        return 0
    power = 2 * sum((value >> 3) ** 2 for value in lagged)
    return codec.gain((2 * correlation) >> (6 - shift), power)


class EncoderTrack:
    """What an encoder holds between frames, as far as the frames that were sent say it."""

    def __init__(self) -> None:
        self.preprocessing = TwoStarts()
        self.forget()

    def forget(self) -> None:
        """The encoder may hold anything."""
        self.ratios: List[int] = [0] * 8
        self.memory: List[int] = [0] * 8
        self.past: List[int] = [0] * codec.MOST_LAG
        self.doubt: Sequence[float] = UNKNOWN
        self.follows_frame = False  # whether the frame before was seen

    def start_anew(self) -> None:
        """The encoder may be in its initial state."""
        self.preprocessing = TwoStarts()
        self.forget()

    def hidden(self, samples: Sequence[int]) -> Tuple[codec.Trace, int]:
        """Encodes a frame that wasn't sent, a descriptor in its place: its measures and its
        peak."""
        emphasised = self.preprocessing.run(samples)
        correlations, kept = codec.autocorrelation(emphasised)
        lar = tuple(map(codec.log_area_ratio, codec.reflection_coefficients(correlations)))
        residual = self.residual(codec.code_ratios(lar), kept)
        tops = []
        for start in range(0, codec.SAMPLES, codec.BLOCK):
            _, xmax = self.own_block(residual[start : start + codec.BLOCK])
            tops.append(xmax)
        return codec.Trace(lar, tuple(tops)), max(map(magnitude, emphasised))

    def residual(self, larc: Sequence[int], kept: Sequence[int]) -> List[int]:
        """The residual of the short term filter with these coded ratios."""
        now = codec.decode_ratios(larc)
        residual, self.memory = codec.short_term_analysis(
            codec.coefficients_by_section(self.ratios, now), self.memory, kept
        )
        self.ratios = now
        return residual

    def own_block(self, residual: Sequence[int]) -> Tuple[Block, int]:
        """The block that the standard's encoder makes."""
        lag, bc = codec.lag_and_gain(residual, self.past)
        position, pulses = self.weighted_grid(residual, lag, bc)
        xmax = max(map(magnitude, pulses))
        xmaxc = codec.code_maximum(xmax)
        block = Block(lag, bc, position, xmaxc, codec.code_pulses(pulses, xmaxc))
        self.rebuild(block)
        return block, xmax

    def weighted_grid(
        self, residual: Sequence[int], lag: int, bc: int, position: Optional[int] = None
    ) -> Tuple[int, List[int]]:
        """The grid position and its pulses, of the position that is given or of the best."""
        expected = codec.predicted(lag, bc, self.past)
        weighted = codec.weighted(saturate_all([d - p for d, p in zip(residual, expected)]))
        if position is None:
            return codec.grid(weighted)
        return position, list(weighted[position::3][:13])

    def rebuild(self, block: Block) -> None:
        """The residual that the decoder will have, too."""
        expected = codec.predicted(block.nc, block.bc, self.past)
        rebuilt = codec.place_pulses(block.mc, codec.decode_pulses(block.xmc, block.xmaxc))
        both = saturate_all([e + p for e, p in zip(rebuilt, expected)])
        self.past = self.past[codec.BLOCK :] + both

    def sent(self, samples: Sequence[int], frame: Parameters) -> Followed:
        """Follows a frame that was sent."""
        emphasised = self.preprocessing.run(samples)
        correlations, kept = codec.autocorrelation(emphasised)
        lar = tuple(map(codec.log_area_ratio, codec.reflection_coefficients(correlations)))
        expected = codec.code_ratios(lar)
        differences = [
            Difference(Stage.RATIOS, place, sent, own)
            for place, (sent, own) in enumerate(zip(frame.larc, expected))
            if sent != own
        ]
        residual = self.residual(frame.larc, kept)
        knows_past = max(self.doubt) < CERTAIN and self.follows_frame
        self.doubt = doubt_after(self.doubt, codec.LEAST_LAG, frame)
        tops = []
        for number, block in enumerate(frame.blocks):
            part = residual[codec.BLOCK * number : codec.BLOCK * (number + 1)]
            found, xmax = self.sent_block(number, part, block)
            differences += found
            tops.append(xmax)
        follows, self.follows_frame = self.follows_frame, True
        return Followed(
            differences,
            self.preprocessing.is_known,
            self.preprocessing.is_known and knows_past and follows,
            codec.Trace(lar, tuple(tops)),
            max(map(magnitude, emphasised)),
            emphasised,
        )

    def sent_block(
        self, number: int, residual: Sequence[int], block: Block
    ) -> Tuple[List[Difference], int]:
        """Follows a block that was sent, stage by stage, and its own maximum."""
        lag, _ = codec.lag_and_gain(residual, self.past)
        used = min(max(block.nc, codec.LEAST_LAG), codec.MOST_LAG)
        gain = gain_of_lag(used, residual, self.past)
        position, _ = self.weighted_grid(residual, used, block.bc)
        _, pulses = self.weighted_grid(residual, used, block.bc, block.mc)
        xmax = max(map(magnitude, pulses))
        xmaxc = codec.code_maximum(xmax)
        stages = (
            (Stage.LAG, block.nc, lag),
            (Stage.GAIN, block.bc, gain),
            (Stage.GRID, block.mc, position),
            (Stage.MAXIMUM, block.xmaxc, xmaxc),
            (Stage.PULSES, block.xmc, codec.code_pulses(pulses, block.xmaxc)),
        )
        self.rebuild(block._replace(nc=used))
        differences = [
            Difference(stage, number, sent, own) for stage, sent, own in stages if sent != own
        ]
        return differences, xmax


def stages_of(followed: Sequence[Followed]) -> Dict[Stage, int]:
    """In how many frames each stage differs, of those whose state was known."""
    found = dict.fromkeys(Stage, 0)
    for each in followed:
        for stage in {one.stage for one in each.differences}:
            found[stage] += 1
    return found
