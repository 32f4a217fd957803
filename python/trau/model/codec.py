"""The full rate speech codec of GSM 06.10, bit for bit: frames of 160 samples to parameters and
back.

Each function is a numbered section of the standard's fixed point description (GSM 06.10 section 4),
over whole lists: a frame of 160 samples, or one of its four blocks of 40. `Encoder` and `Decoder`
keep what one frame hands to the next. Samples are words of 16 bits, the 13 bits of a sample at
their upper end.
"""

from operator import mul
from typing import List, NamedTuple, Sequence, Tuple

from trau.rules.arithmetic import (
    add,
    div,
    magnitude,
    mult,
    mult_r,
    norm,
    saturate,
    saturate_all,
    sub,
)
from trau.rules.parameters import Block, Parameters
from trau.rules.preprocessing import Preprocessing

SAMPLES = 160  # of a frame
BLOCK = 40  # samples of a block
LEAST_LAG, MOST_LAG = 40, 120


class Trace(NamedTuple):
    """What a frame had before coding: silence descriptors are made from it."""

    lar: Tuple[int, ...]  # eight log area ratios (GSM 06.10 section 4.2.6)
    xmax: Tuple[int, ...]  # the maxima of the four blocks (GSM 06.10 section 4.2.15)


class Encoded(NamedTuple):
    """What the encoder makes of a frame: its parameters, their measures before coding, and its
    peak.

    The peak is the greatest magnitude of its samples after preprocessing (GSM 06.10 section 4.2.4,
    "smax").
    """

    parameters: Parameters
    trace: Trace
    peak: int


# GSM 06.10 tables 4.1 and 4.2: quantising and decoding the log area ratios.
A = (20480, 20480, 20480, 20480, 13964, 15360, 8534, 9036)
B = (0, 0, 2048, -2560, 94, -1792, -341, -1144)
MIC = (-32, -32, -16, -16, -8, -8, -4, -4)
MAC = (31, 31, 15, 15, 7, 7, 3, 3)
INVA = (13107, 13107, 13107, 13107, 19223, 17476, 31454, 29708)
# GSM 06.10 table 4.3: the decision levels and the levels of the lag's gain.
DLB = (6554, 16384, 26214, 32767)
QLB = (3277, 11469, 21299, 32767)
# GSM 06.10 table 4.4: the weighting filter's impulse response.
H = (-134, -374, 0, 2054, 5741, 8192, 5741, 2054, 0, -374, -134)
# GSM 06.10 tables 4.5 and 4.6: the normalised inverse mantissa and the normalised mantissa.
NRFAC = (29128, 26215, 23832, 21846, 20165, 18725, 17476, 16384)
FAC = (18431, 20479, 22527, 24575, 26623, 28671, 30719, 32767)


# The encoder (GSM 06.10 section 4.2).


def scaling(values: Sequence[int], room: int) -> int:
    """By how many bits values are scaled down so that `room` bits are free above the greatest (GSM
    06.10 sections 4.2.4, 4.2.11)."""
    greatest = max(map(magnitude, values))
    return max(0, room - norm(greatest << 16)) if greatest else 0


def autocorrelation(emphasised: Sequence[int]) -> Tuple[List[int], List[int]]:
    """The nine autocorrelations of a frame, and the frame as scaling there and back leaves it (GSM
    06.10 section 4.2.4)."""
    shift = scaling(emphasised, 4)
    if shift == 0:
        scaled = kept = list(emphasised)
    else:
        scaled = [mult_r(sample, 16384 >> (shift - 1)) for sample in emphasised]
        kept = saturate_all([sample << shift for sample in scaled])
    return [2 * sum(map(mul, scaled[lag:], scaled)) for lag in range(9)], kept


def reflection_coefficients(correlations: Sequence[int]) -> List[int]:
    """The eight reflection coefficients, by the recursion of Schur (GSM 06.10 section 4.2.5)."""
    if correlations[0] == 0:
        return [0] * 8
    shift = norm(correlations[0])
    p = [(correlation << shift) >> 16 for correlation in correlations]
    k = p[1:8]
    coefficients: List[int] = []
    for left in range(7, -1, -1):
        if p[0] < magnitude(p[1]):
            break
        quotient = div(magnitude(p[1]), p[0])
        r = -quotient if p[1] > 0 else quotient
        coefficients.append(r)
        first, above = add(p[0], mult_r(p[1], r)), p[2:]
        p = [first] + [add(above[m], mult_r(k[m], r)) for m in range(left)]
        k = [add(k[m], mult_r(above[m], r)) for m in range(left)]
    return coefficients + [0] * (8 - len(coefficients))


def log_area_ratio(r: int) -> int:
    """The log area ratio of a reflection coefficient, in three straight lines (GSM 06.10 section
    4.2.6)."""
    size = magnitude(r)
    ratio = size >> 1 if size < 22118 else size - 11059 if size < 31130 else (size - 26112) << 2
    return -ratio if r < 0 else ratio


def code_ratios(lar: Sequence[int]) -> Tuple[int, ...]:
    """The coded log area ratios (GSM 06.10 section 4.2.7)."""
    sums = [add(add(mult(a, ratio), b), 256) >> 9 for a, b, ratio in zip(A, B, lar)]
    return tuple(max(least, min(most, value)) - least for value, least, most in zip(sums, MIC, MAC))


def decode_ratios(larc: Sequence[int]) -> List[int]:
    """The decoded log area ratios (GSM 06.10 section 4.2.8)."""
    halves = [
        mult_r(inva, sub((code + least) << 10, b << 1))
        for code, least, b, inva in zip(larc, MIC, B, INVA)
    ]
    return [add(half, half) for half in halves]


def decoded_coefficient(ratio: int) -> int:
    """The reflection coefficient of a decoded log area ratio (GSM 06.10 section 4.2.9.2)."""
    size = magnitude(ratio)
    r = size << 1 if size < 11059 else size + 11059 if size < 20070 else add(size >> 2, 26112)
    return -r if ratio < 0 else r


def coefficients_by_section(before: Sequence[int], now: Sequence[int]) -> List[List[int]]:
    """For each of the eight filter sections, the coefficient at each of a frame's 160 samples (GSM
    06.10 section 4.2.9.1).

    `before` and `now` are the decoded log area ratios of the frame before and of this frame; over
    the first forty samples they are interpolated."""

    def section(old: int, new: int) -> List[int]:
        first = add(add(old >> 2, new >> 2), old >> 1)
        second = add(old >> 1, new >> 1)
        third = add(add(old >> 2, new >> 2), new >> 1)
        spans = zip((first, second, third, new), (13, 14, 13, 120))
        return [r for ratio, length in spans for r in [decoded_coefficient(ratio)] * length]

    return [section(old, new) for old, new in zip(before, now)]


def short_term_analysis(
    sections: Sequence[Sequence[int]], memory: Sequence[int], samples: Sequence[int]
) -> Tuple[List[int], List[int]]:
    """The short term residual of a frame, and the filter's memory after it (GSM 06.10 section
    4.2.10).

    Each section takes a forward list (the residual so far) and a backward list; it sees the
    backward list a sample late, and its memory is that list's last value of the frame before."""
    forward = backward = list(samples)
    after = []
    for coefficients, last in zip(sections, memory):
        late = [last] + backward[:-1]
        after.append(backward[-1])
        backward = saturate_all(
            [u + ((r * d + 16384) >> 15) for r, d, u in zip(coefficients, forward, late)]
        )
        forward = saturate_all(
            [d + ((r * u + 16384) >> 15) for r, d, u in zip(coefficients, forward, late)]
        )
    return forward, after


def lag_and_gain(residual: Sequence[int], past: Sequence[int]) -> Tuple[int, int]:
    """The lag and the coded gain of a block of 40 (GSM 06.10 section 4.2.11).

    `past` is the last 120 values of the reconstructed residual, the oldest first. The lag is the
    least of those whose correlation is the greatest, where that is above 0, else 40."""
    shift = scaling(residual, 6)
    scaled = [value >> shift for value in residual]
    correlations = [
        sum(map(mul, scaled, past[MOST_LAG - lag :])) for lag in range(LEAST_LAG, MOST_LAG + 1)
    ]
    greatest = max(correlations)
    if greatest <= 0:
        return LEAST_LAG, 0
    lag = LEAST_LAG + correlations.index(greatest)
    lagged = [value >> 3 for value in past[MOST_LAG - lag :][:BLOCK]]
    return lag, gain((2 * greatest) >> (6 - shift), 2 * sum(map(mul, lagged, lagged)))


def gain(correlation: int, power: int) -> int:
    """The coded gain of a lag, of its correlation and of the power of what lies a lag before (GSM
    06.10 section 4.2.11)."""
    if correlation <= 0:
        return 0
    if correlation >= power:
        return 3
    shift = norm(power)
    numerator, denominator = (correlation << shift) >> 16, (power << shift) >> 16
    return sum(numerator > mult(denominator, level) for level in DLB[:3])


def predicted(lag: int, bc: int, past: Sequence[int]) -> List[int]:
    """What the long term predictor says of a block: what lies a lag before, by its gain (GSM 06.10
    sections 4.2.12, 4.3.2)."""
    return [(QLB[bc] * value + 16384) >> 15 for value in past[MOST_LAG - lag :][:BLOCK]]


def weighted(error: Sequence[int]) -> List[int]:
    """A block of 40 through the weighting filter (GSM 06.10 section 4.2.13)."""
    padded = [0] * 5 + list(error) + [0] * 5
    return saturate_all([(sum(map(mul, H, padded[k : k + 11])) + 4096) >> 13 for k in range(BLOCK)])


def grid(block: Sequence[int]) -> Tuple[int, List[int]]:
    """The grid position of greatest energy, the least of equal ones, and its thirteen values (GSM
    06.10 section 4.2.14)."""

    def energy(position: int) -> int:
        return sum((value >> 2) ** 2 for value in block[position::3][:13])

    position = max(range(4), key=energy)
    return position, list(block[position::3][:13])


def code_maximum(xmax: int) -> int:
    """The coded block maximum (GSM 06.10 section 4.2.15)."""
    exponent = min(6, (xmax >> 9).bit_length())
    return (xmax >> (exponent + 5)) + 8 * exponent


def exponent_and_mantissa(xmaxc: int) -> Tuple[int, int]:
    """The exponent and the mantissa of a coded block maximum (GSM 06.10 section 4.2.15)."""
    if xmaxc == 0:
        return -4, 7
    exponent = (xmaxc >> 3) - 1 if xmaxc > 15 else 0
    mantissa = xmaxc - 8 * exponent
    while mantissa <= 7:
        mantissa, exponent = 2 * mantissa + 1, exponent - 1
    return exponent, mantissa - 8


def code_pulses(pulses: Sequence[int], xmaxc: int) -> Tuple[int, ...]:
    """The thirteen coded pulses (GSM 06.10 section 4.2.15)."""
    exponent, mantissa = exponent_and_mantissa(xmaxc)
    return tuple((mult(pulse << (6 - exponent), NRFAC[mantissa]) >> 12) + 4 for pulse in pulses)


def decode_pulses(xmc: Sequence[int], xmaxc: int) -> List[int]:
    """The thirteen decoded pulses (GSM 06.10 section 4.2.16)."""
    exponent, mantissa = exponent_and_mantissa(xmaxc)
    rounding = 1 << (5 - exponent) if exponent < 6 else 0
    return [
        add(mult_r(FAC[mantissa], (2 * code - 7) << 12), rounding) >> (6 - exponent) for code in xmc
    ]


def place_pulses(position: int, pulses: Sequence[int]) -> List[int]:
    """A block of 40 with thirteen pulses, three samples apart, from the grid position on (GSM 06.10
    section 4.2.17)."""
    block = [0] * BLOCK
    block[position : position + 3 * 13 : 3] = pulses
    return block


class FullRateEncoder:
    """The encoder, from its home state on (GSM 06.10 section 4.2): every memory is 0."""

    def __init__(self) -> None:
        self.preprocessing = Preprocessing()
        self.ratios: List[int] = [0] * 8  # the decoded log area ratios of the frame before
        self.memory: List[int] = [0] * 8  # of the short term filter's sections
        self.past: List[int] = [0] * MOST_LAG  # the reconstructed residual, the oldest first

    def encode(self, samples: Sequence[int]) -> Encoded:
        """The parameters of the next frame of 160 samples, what they had before coding, and the
        frame's peak."""
        emphasised = self.preprocessing.run(samples)
        correlations, kept = autocorrelation(emphasised)
        lar = tuple(log_area_ratio(r) for r in reflection_coefficients(correlations))
        larc = code_ratios(lar)
        now = decode_ratios(larc)
        residual, self.memory = short_term_analysis(
            coefficients_by_section(self.ratios, now), self.memory, kept
        )
        self.ratios = now
        coded = [self.block(residual[start : start + BLOCK]) for start in range(0, SAMPLES, BLOCK)]
        parameters = Parameters(larc, tuple(block for block, _ in coded))
        return Encoded(
            parameters,
            Trace(lar, tuple(xmax for _, xmax in coded)),
            max(map(magnitude, emphasised)),
        )

    def block(self, residual: Sequence[int]) -> Tuple[Block, int]:
        """The parameters of the next block of the residual, and its maximum (GSM 06.10 sections
        4.2.11 to 4.2.18)."""
        lag, bc = lag_and_gain(residual, self.past)
        prediction = predicted(lag, bc, self.past)
        error = saturate_all([d - p for d, p in zip(residual, prediction)])
        position, pulses = grid(weighted(error))
        xmax = max(map(magnitude, pulses))
        xmaxc = code_maximum(xmax)
        xmc = code_pulses(pulses, xmaxc)
        rebuilt = place_pulses(position, decode_pulses(xmc, xmaxc))
        self.past = self.past[BLOCK:] + saturate_all([e + p for e, p in zip(rebuilt, prediction)])
        return Block(lag, bc, position, xmaxc, xmc), xmax


# The decoder (GSM 06.10 section 4.3).


def short_term_synthesis(
    sections: Sequence[Sequence[int]], memory: Sequence[int], residual: Sequence[int]
) -> Tuple[List[int], List[int]]:
    """The speech of a frame of residual, and the filter's memory after it (GSM 06.10 section
    4.3.4).

    Of each sample the sections are passed from the eighth to the first; each leaves what the next
    sample finds in the section above.
    """
    state = list(memory)
    speech = []
    for value, coefficients in zip(residual, zip(*sections)):
        above: List[int] = []  # what sections 8 to 1 leave
        for r, v in zip(reversed(coefficients), reversed(state)):
            value -= (r * v + 16384) >> 15
            if not -32768 <= value <= 32767:
                value = saturate(value)
            left = v + ((r * value + 16384) >> 15)
            above.append(left if -32768 <= left <= 32767 else saturate(left))
        state = [value] + above[:0:-1]  # what section 8 leaves is never read
        speech.append(value)
    return speech, state


class FullRateDecoder:
    """The decoder, from its home state on (GSM 06.10 section 4.3): every memory is 0, and the last
    lag is 40."""

    def __init__(self) -> None:
        self.lag = LEAST_LAG
        self.past: List[int] = [0] * MOST_LAG  # the reconstructed residual, the oldest first
        self.ratios: List[int] = [0] * 8
        self.memory: List[int] = [0] * 8
        self.msr = 0  # the sample before, deemphasised

    def decode(self, parameters: Parameters) -> List[int]:
        """The 160 samples of the next frame's parameters."""
        residual = [value for block in parameters.blocks for value in self.block(block)]
        now = decode_ratios(parameters.larc)
        speech, self.memory = short_term_synthesis(
            coefficients_by_section(self.ratios, now), self.memory, residual
        )
        self.ratios = now
        return self.postprocess(speech)

    def block(self, block: Block) -> List[int]:
        """The reconstructed residual of the next block (GSM 06.10 sections 4.3.1 and 4.3.2).

        A lag outside 40 to 120 is taken as the one before."""
        if LEAST_LAG <= block.nc <= MOST_LAG:
            self.lag = block.nc
        rebuilt = place_pulses(block.mc, decode_pulses(block.xmc, block.xmaxc))
        prediction = predicted(self.lag, block.bc, self.past)
        residual = saturate_all([e + p for e, p in zip(rebuilt, prediction)])
        self.past = self.past[BLOCK:] + residual
        return residual

    def postprocess(self, speech: Sequence[int]) -> List[int]:
        """Deemphasis, upscaling and truncation to 13 bits (GSM 06.10 sections 4.3.5 to 4.3.7)."""
        samples = []
        for value in speech:
            self.msr = add(value, mult_r(self.msr, 28180))
            samples.append((add(self.msr, self.msr) >> 3) << 3)
        return samples
