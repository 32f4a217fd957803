"""The full rate decoder as a judge of a recording needs it: with states that can be kept and tried
again, one sample at a time, and with tables that may be turned (GSM 06.10 section 4.3)."""

from typing import Iterable, List, NamedTuple, Sequence, Tuple

from trau.model import codec
from trau.rules.arithmetic import LEAST, MOST, add, mult_r, saturate, sub
from trau.rules.parameters import Block, Parameters

SECTIONS = 8
Coefficients = Tuple[int, ...]  # of the eight sections, the eighth first


class DecoderTables(NamedTuple):
    """The numbers of the decoder that the standard fixes, with their names there."""

    qlb: Tuple[int, ...] = codec.QLB
    fac: Tuple[int, ...] = codec.FAC
    inva: Tuple[int, ...] = codec.INVA
    b: Tuple[int, ...] = codec.B
    mic: Tuple[int, ...] = codec.MIC
    bends: Tuple[int, ...] = (11059, 20070)  # of the three lines of section 4.2.9.2
    raises: Tuple[int, ...] = (11059, 26112)
    lengths: Tuple[int, ...] = (13, 14, 13, 120)  # samples of the four spans of section 4.2.9.1
    shares: Tuple[int, ...] = (1, 2, 3, 4)  # quarters of the new ratios in each span
    deemphasis: Tuple[int, ...] = (28180,)
    rounding: Tuple[int, ...] = (16384,)  # of the synthesis filter


STANDARD = DecoderTables()


class DecoderState(NamedTuple):
    """What a frame hands to the next."""

    lag: int
    past: Tuple[int, ...]  # the last 120 values of the residual, the oldest first
    ratios: Tuple[int, ...]  # eight decoded log area ratios
    memory: Tuple[int, ...]  # of the filter's sections, the eighth first
    msr: int  # the last sample, deemphasised


HOME = DecoderState(codec.LEAST_LAG, (0,) * codec.MOST_LAG, (0,) * SECTIONS, (0,) * SECTIONS, 0)


def decoded_ratios(tables: DecoderTables, larc: Sequence[int]) -> Tuple[int, ...]:
    """The decoded log area ratios (section 4.2.8)."""
    halves = [
        mult_r(inva, sub((code + least) << 10, b << 1))
        for code, least, b, inva in zip(larc, tables.mic, tables.b, tables.inva)
    ]
    return tuple(add(half, half) for half in halves)


def reflection(tables: DecoderTables, ratio: int) -> int:
    """The reflection coefficient of a log area ratio (section 4.2.9.2)."""
    size = min(abs(ratio), MOST)
    if size < tables.bends[0]:
        r = size << 1
    else:
        r = size + tables.raises[0] if size < tables.bends[1] else (size >> 2) + tables.raises[1]
    return -min(r, MOST) if ratio < 0 else min(r, MOST)


def mixed_ratio(old: int, new: int, share: int) -> int:
    """An old ratio and so many quarters of a new one (section 4.2.9.1)."""
    if share == 2:
        return add(old >> 1, new >> 1)
    if share in (0, 4):
        return new if share else old
    more = old if share == 1 else new
    return add(add(old >> 2, new >> 2), more >> 1)


def coefficients_of_samples(
    tables: DecoderTables, before: Sequence[int], now: Sequence[int]
) -> List[Coefficients]:
    """The coefficients at each of the 160 samples of a frame."""
    found: List[Coefficients] = []
    for share, length in zip(tables.shares, tables.lengths):
        span = [reflection(tables, mixed_ratio(old, new, share)) for old, new in zip(before, now)]
        found += [tuple(reversed(span))] * length
    return found


class Synthesis(NamedTuple):
    """The synthesis filter and deemphasis between two samples."""

    memory: Tuple[int, ...]
    msr: int


def next_sample(
    tables: DecoderTables, state: Synthesis, coefficients: Coefficients, value: int
) -> Tuple[int, Synthesis]:
    """The sample of the next value of the residual (sections 4.3.4 to 4.3.7)."""
    above = []
    (rounding,) = tables.rounding
    for r, v in zip(coefficients, state.memory):
        value -= (r * v + rounding) >> 15
        if not LEAST <= value <= MOST:
            value = saturate(value)
        left = v + ((r * value + rounding) >> 15)
        above.append(left if LEAST <= left <= MOST else saturate(left))
    above.append(value)
    msr = saturate(value + saturate((state.msr * tables.deemphasis[0] + 16384) >> 15))
    return (saturate(msr + msr) >> 3) << 3, Synthesis(tuple(above[1:]), msr)


def pulses_of(tables: DecoderTables, xmaxc: int, codes: Iterable[int]) -> List[int]:
    """Decoded pulses (section 4.2.16)."""
    exponent, mantissa = codec.exponent_and_mantissa(xmaxc)
    rounding = 1 << (5 - exponent) if exponent < 6 else 0
    factor = tables.fac[mantissa]
    return [add(mult_r(factor, (2 * code - 7) << 12), rounding) >> (6 - exponent) for code in codes]


def prediction(tables: DecoderTables, past: Sequence[int], lag: int, bc: int) -> List[int]:
    """What the long term predictor says of a block (section 4.3.2)."""
    first = codec.MOST_LAG - lag
    factor = tables.qlb[bc]
    return [(factor * value + 16384) >> 15 for value in past[first : first + codec.BLOCK]]


def lag_of(state_lag: int, nc: int) -> int:
    """The lag that is used: one outside of 40 to 120 is the one before."""
    return nc if codec.LEAST_LAG <= nc <= codec.MOST_LAG else state_lag


def residual_of_block(
    tables: DecoderTables, past: Sequence[int], lag: int, block: Block
) -> List[int]:
    """The residual of a block (sections 4.3.1 and 4.3.2)."""
    residual = prediction(tables, past, lag, block.bc)
    for k, value in enumerate(pulses_of(tables, block.xmaxc, block.xmc)):
        place = block.mc + 3 * k
        residual[place] = saturate(residual[place] + value)
    return [saturate(value) for value in residual]


def decode(
    tables: DecoderTables, state: DecoderState, parameters: Parameters
) -> Tuple[List[int], DecoderState]:
    """The samples of a frame, and the state after it."""
    now = decoded_ratios(tables, parameters.larc)
    lag, past = state.lag, list(state.past)
    for block in parameters.blocks:
        lag = lag_of(lag, block.nc)
        past += residual_of_block(tables, past[-codec.MOST_LAG :], lag, block)
    synthesis = Synthesis(state.memory, state.msr)
    samples = []
    coefficients = coefficients_of_samples(tables, state.ratios, now)
    for value, at in zip(past[codec.MOST_LAG :], coefficients):
        sample, synthesis = next_sample(tables, synthesis, at, value)
        samples.append(sample)
    after = tuple(past[-codec.MOST_LAG :])
    return samples, DecoderState(lag, after, now, synthesis.memory, synthesis.msr)


def doubt_after(doubt: Sequence[float], state_lag: int, parameters: Parameters) -> List[float]:
    """How much of an unknown past is left in the residual after a frame, as parts of it; without
    roundings."""
    parts, lag = list(doubt), state_lag
    for block in parameters.blocks:
        lag = lag_of(lag, block.nc)
        gain = codec.QLB[block.bc] / 32768
        first = len(parts) - lag
        parts += [gain * part for part in parts[first : first + codec.BLOCK]]
    return parts[-codec.MOST_LAG :]
