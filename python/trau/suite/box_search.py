"""Finds the parameters of a frame by what a decoder made of it: the octets of the A side, and the
states that the decoder may have had before. Each sample prunes what can't have made it."""

from typing import Iterator, List, NamedTuple, Optional, Sequence, Tuple

from trau.model import codec
from trau.rules.arithmetic import saturate
from trau.rules.parameters import Block, Parameters

from trau.suite.box_decoder import (
    STANDARD,
    Coefficients,
    DecoderState,
    Synthesis,
    coefficients_of_samples,
    decoded_ratios,
    lag_of,
    next_sample,
    prediction,
    pulses_of,
)
from trau.suite.box_laws import Ranges

MOST_PATHS = 160  # at once within a block; with more the search is no longer whole
MOST_STATES = 40  # after a frame
PULSES = 13
GRIDS = (0, 1, 2, 3)


class BlockSpace(NamedTuple):
    """What a block may have been: each lag, gain, grid position and maximum with each other; and
    the values of a pulse, or thirteen pulses that are known."""

    lags: Tuple[int, ...]
    gains: Tuple[int, ...]
    grids: Tuple[int, ...]
    maxima: Tuple[int, ...]
    pulses: Tuple[Tuple[int, ...], ...]  # of each of the thirteen

    def heads(self) -> Iterator[Tuple[int, int, int, int]]:
        """Lag, gain, grid position and maximum in each combination."""
        for lag in self.lags:
            for gain in self.gains:
                for maximum in self.maxima:
                    for grid in self.grids:
                        yield lag, gain, grid, maximum


def known_pulses(xmc: Sequence[int]) -> Tuple[Tuple[int, ...], ...]:
    """Pulses that are known."""
    return tuple((code,) for code in xmc)


def any_pulses(least: int, most: int) -> Tuple[Tuple[int, ...], ...]:
    """Thirteen pulses of any value between these ends."""
    return (tuple(range(least, most + 1)),) * PULSES


class Path(NamedTuple):
    """A way through the blocks of a frame so far."""

    past: Tuple[int, ...]
    lag: int
    synthesis: Synthesis
    blocks: Tuple[Block, ...]
    coefficients: Sequence[Coefficients]  # of the frame's samples
    ratios: Tuple[int, ...]


class Explained(NamedTuple):
    """The frames that may have been, each with the state after it, and whether all of them are
    here."""

    frames: List[Tuple[Parameters, DecoderState]]
    is_whole: bool


class Growing(NamedTuple):
    """A way through a block so far: the codes of pulses and the residual."""

    synthesis: Synthesis
    codes: Tuple[int, ...]
    residual: Tuple[int, ...]


def grown(
    paths: Sequence[Growing],
    values: Sequence[Tuple[Optional[int], int]],
    at: Coefficients,
    allowed: Tuple[int, int],
) -> List[Growing]:
    """The ways with one more sample; `values` are the codes of a pulse with the residual, or one
    residual without a pulse."""
    found = []
    first, last = allowed
    for path in paths:
        for code, value in values:
            sample, synthesis = next_sample(STANDARD, path.synthesis, at, value)
            if first <= sample <= last:
                codes = path.codes if code is None else path.codes + (code,)
                found.append(Growing(synthesis, codes, path.residual + (value,)))
    return found


def through_block(
    path: Path,
    number: int,
    head: Tuple[int, int, int, int],
    pulses: Sequence[Sequence[int]],
    allowed: Sequence[Tuple[int, int]],
) -> Tuple[List[Path], bool]:
    """All ways through the next block with this lag, gain, grid position and maximum."""
    nc, bc, grid, maximum = head
    lag = lag_of(path.lag, nc)
    expected = prediction(STANDARD, path.past, lag, bc)
    paths, is_whole = [Growing(path.synthesis, (), ())], True
    for k in range(codec.BLOCK):
        pulse, is_between = divmod(k - grid, 3)
        values: List[Tuple[Optional[int], int]] = [(None, expected[k])]
        if not is_between and 0 <= pulse < PULSES:
            codes = pulses[pulse]
            heights = pulses_of(STANDARD, maximum, codes)
            values = [
                (code, saturate(expected[k] + height)) for code, height in zip(codes, heights)
            ]
        place = codec.BLOCK * number + k
        paths = grown(paths, values, path.coefficients[place], allowed[place])
        if not paths:
            return [], is_whole
        if len(paths) > MOST_PATHS:
            paths, is_whole = paths[:MOST_PATHS], False
    return [
        path._replace(
            past=path.past[codec.BLOCK :] + each.residual,
            lag=lag,
            synthesis=each.synthesis,
            blocks=path.blocks + (Block(nc, bc, grid, maximum, each.codes),),
        )
        for each in paths
    ], is_whole


def through_space(
    paths: Sequence[Path], number: int, space: BlockSpace, allowed: Sequence[Tuple[int, int]]
) -> Tuple[List[Path], bool]:
    """All ways through the next block."""
    found: List[Path] = []
    is_whole = True
    for path in paths:
        for head in space.heads():
            more, whole = through_block(path, number, head, space.pulses, allowed)
            found += more
            is_whole = is_whole and whole
    if len(found) > MOST_PATHS:
        return found[:MOST_PATHS], False
    return found, is_whole


def starts(states: Sequence[DecoderState], larc: Sequence[int]) -> List[Path]:
    """The ways before the first block of a frame with these ratios."""
    now = decoded_ratios(STANDARD, larc)
    return [
        Path(
            state.past,
            state.lag,
            Synthesis(state.memory, state.msr),
            (),
            coefficients_of_samples(STANDARD, state.ratios, now),
            now,
        )
        for state in states
    ]


def ended(paths: Sequence[Path], larc: Sequence[int], is_whole: bool) -> Explained:
    """What the ways through all four blocks have found."""
    frames = [
        (
            Parameters(tuple(larc), path.blocks),
            DecoderState(
                path.lag, path.past, path.ratios, path.synthesis.memory, path.synthesis.msr
            ),
        )
        for path in paths
    ]
    by_state = {state: parameters for parameters, state in reversed(frames)}
    unique = [(parameters, state) for state, parameters in by_state.items()]
    return Explained(unique[:MOST_STATES], is_whole and len(unique) <= MOST_STATES)


def allowed_samples(ranges: Ranges, octets: Sequence[int]) -> List[Tuple[int, int]]:
    """The samples that each octet allows."""
    return [ranges[octet] for octet in octets]
