"""Cases of the codec's corners: parameters to the decoder, samples to the encoder."""

from typing import Callable, Dict, List, Sequence, Tuple

from trau.rules.arithmetic import saturate
from trau.rules.parameters import WIDTHS, data_of_gsm, parameters_of_values

from trau.suite import sounds
from trau.suite.cases import Case, case
from trau.suite.operations import GOOD, GSM_OCTETS, SAMPLES, units, words_of
from trau.suite.random_source import NamedSource
from trau.suite.reference import encoded, frame_of_parameters, wav_block_of_data

MOST_VALUES = [(1 << width) - 1 for width in WIDTHS]
RATIOS = 8
BLOCK_VALUES = 17  # parameters of a block
LAG, GAIN, GRID, MAXIMUM, PULSES = 0, 1, 2, 3, 4  # their places in a block
DECODING = "decoder.pulses decoder.lag-gain decoder.ratios decoder.interpolation \
decoder.reflection decoder.synthesis decoder.postprocessing"
ENCODING = "encoder.downscaling encoder.offset encoder.preemphasis encoder.autocorrelation \
encoder.reflection encoder.log-area-ratios encoder.ratio-codes encoder.short-term encoder.lag \
encoder.lag-gain encoder.grid encoder.pulses encoder.memory"
ENCODER, DECODER = f"{ENCODING} packing.rtp", f"{DECODING} packing.rtp"


def octets_of_values(values: Sequence[int]) -> bytes:
    """The frame of 76 values."""
    return frame_of_parameters(parameters_of_values(list(values)))


def random_values(source: NamedSource) -> List[int]:
    """Any parameters, with lags from 40 to 120."""
    values = [source.within(0, most) for most in MOST_VALUES]
    for block in range(4):
        values[RATIOS + BLOCK_VALUES * block + LAG] = source.within(40, 120)
    return values


def with_block(values: Sequence[int], **places: int) -> List[int]:
    """Values with these in each block: `lag`, `gain`, `grid`, `maximum`, `pulses`."""
    names = {"lag": LAG, "gain": GAIN, "grid": GRID, "maximum": MAXIMUM}
    changed = list(values)
    for start in range(RATIOS, len(WIDTHS), BLOCK_VALUES):
        for name, value in places.items():
            if name == "pulses":
                changed[start + PULSES : start + BLOCK_VALUES] = [value] * 13
            else:
                changed[start + names[name]] = value
    return changed


def calm_values(source: NamedSource) -> List[int]:
    """Parameters whose filter lets a residual pass nearly as it is."""
    values = random_values(source)
    values[:RATIOS] = [32, 32, 20, 11, 8, 5, 3, 2]
    return with_block(values, gain=0, maximum=40)


def lags(source: NamedSource) -> List[List[int]]:
    """Each lag of 7 bits, with the greatest gain."""
    return [with_block(calm_values(source), lag=lag, gain=3) for lag in range(128)]


def gains(source: NamedSource) -> List[List[int]]:
    """Each gain at the lags 40 and 120."""
    return [
        with_block(calm_values(source), lag=lag, gain=gain)
        for lag in (40, 120)
        for gain in (0, 1, 2, 3)
    ]


def maxima(source: NamedSource) -> List[List[int]]:
    """Each code of the block maximum, with any pulses."""
    return [with_block(calm_values(source), maximum=code) for code in range(64)]


def pulses(source: NamedSource) -> List[List[int]]:
    """Each pulse at each grid position, soft and loud."""
    return [
        with_block(calm_values(source), grid=grid, pulses=pulse, maximum=maximum)
        for grid in range(4)
        for pulse in range(8)
        for maximum in (3, 50)
    ]


def ratios(source: NamedSource) -> List[List[int]]:
    """The least and the greatest code of each log area ratio, in turn, and each code of each."""
    found = []
    for code in range(64):
        values = with_block(random_values(source), maximum=25, gain=0)
        values[:RATIOS] = [code % (most + 1) for most in MOST_VALUES[:RATIOS]]
        found.append(values)
    for place in range(RATIOS):
        for code in (0, MOST_VALUES[place]):
            values = with_block(calm_values(source), maximum=30)
            values[place] = code
            found.append(values)
    return found


def extremes(source: NamedSource) -> List[List[int]]:
    """Parameters that are the least or the greatest of their widths."""
    return [[source.choice((0, most)) for most in MOST_VALUES] for _ in range(40)]


def loudest(source: NamedSource) -> List[List[int]]:
    """The loudest pulses through filters near their limits, where everything saturates."""
    return [
        with_block(extremes(source)[0], maximum=63, pulses=source.choice((0, 7)), gain=3, lag=40)
        for _ in range(20)
    ]


def hunted_values(number: int) -> List[List[int]]:
    """Two frames of one of many, among which those were sought that meet a bound exactly."""
    source = NamedSource(f"hunted {number}")
    frames = [random_values(source) for _ in range(2)]
    return [with_block(values, maximum=source.within(20, 63), gain=3) for values in frames]


# The rounding and the saturation of a section of the synthesis filter, met exactly.
HUNTED_FRAMES = (142, 366)


DECODED: Dict[str, Tuple[Callable[[NamedSource], List[List[int]]], str]] = {
    "pulses": (pulses, "decoder.pulses"),
    "maxima": (maxima, "decoder.pulses"),
    "gains": (gains, "decoder.lag-gain"),
    "lags": (lags, "decoder.lag"),
    "ratios": (ratios, "decoder.ratios decoder.interpolation decoder.reflection"),
    "extremes": (extremes, "decoder.synthesis decoder.postprocessing"),
    "loudest": (loudest, "decoder.synthesis decoder.postprocessing"),
    "random": (
        lambda source: [random_values(source) for _ in range(60)],
        "decoder.synthesis decoder.postprocessing",
    ),
}


def voice_octets(name: str, frames: int) -> bytes:
    """Samples of something like speech."""
    return words_of(sounds.voice(NamedSource(name), frames, 5000))


def decoder_cases() -> List[Case]:
    """Frames for the decoder, in both packings; the same as good frames of a line."""
    found = []
    for title, (maker, rules) in DECODED.items():
        frames = [octets_of_values(values) for values in maker(NamedSource(title))]
        found.append(case("decode", title, rules, b"".join(frames)))
        good = b"".join(GOOD.encode() + frame for frame in frames)
        if title in ("random", "lags"):
            found.append(case("receive-alaw", title, rules, good))
    source = NamedSource("before any lag")
    outside = [with_block(random_values(source), lag=lag, gain=3) for lag in (0, 39, 121, 127)]
    found += [
        case("decode", f"lag-{values[RATIOS]}-first", "decoder.lag", octets_of_values(values) * 2)
        for values in outside
    ]
    speech = b"".join(map(frame_of_parameters, encoded(voice_octets("speech", 30))))
    found.append(case("decode", "speech", DECODER, speech))
    good = b"".join(GOOD.encode() + frame for frame in units(speech, GSM_OCTETS))
    found.append(case("receive-alaw", "speech", DECODING, good))
    for number in HUNTED_FRAMES:
        given = b"".join(map(octets_of_values, hunted_values(number)))
        found.append(case("decode", f"bound-{number}", "decoder.synthesis", given))
    blocks = NamedSource("blocks").octets(65 * 10)
    in_blocks = [data_of_gsm(frame) for frame in units(speech, GSM_OCTETS)]
    packed = b"".join(map(wav_block_of_data, in_blocks[::2], in_blocks[1::2]))
    return found + [
        case("decode-wav", "random", "decoder.lag decoder.synthesis", blocks),
        case("decode-wav", "speech", "packing.wav", packed),
    ]


def stay(level: int, frames: int) -> List[int]:
    """A level that stays."""
    return [level] * (SAMPLES * frames)


def near_scalings(source: NamedSource) -> List[int]:
    """Frames whose peaks lie about each power of two, where the scaling changes."""
    samples: List[int] = []
    for bits in range(10, 16):
        for peak in ((1 << bits) - 9, (1 << bits) - 1, 1 << bits, (1 << bits) + 9):
            wave = square(8, min(peak, sounds.MOST))
            samples += [
                value + source.within(-3, 3) if 4 < abs(value) < 32000 else value for value in wave
            ]
    return samples


def square(period: int, peak: int) -> List[int]:
    """A frame of a square wave of this magnitude."""
    return sounds.square(period, SAMPLES, peak, -peak)


def levels(source: NamedSource) -> List[int]:
    """Noise at each power of two."""
    return [each for bits in range(16) for each in sounds.noise(source, SAMPLES, (1 << bits) - 1)]


def ramps(source: NamedSource) -> List[int]:
    """Slopes of each power of two, which wrap around within the range."""
    return [((k << bits) + 32768) % 65536 - 32768 for bits in range(12) for k in range(SAMPLES)]


def hunted(number: int) -> List[int]:
    """Two frames of one of many sounds, among which those were sought that meet a bound exactly."""
    source = NamedSource(f"hunted {number}")
    loudness = 1 << source.within(4, 15)
    excitation = sounds.noise(source, 2 * SAMPLES, loudness // 2)
    if number % 2:
        pitch = source.within(40, 120)
        excitation = [
            loudness if k % pitch == 0 else each >> 5 for k, each in enumerate(excitation)
        ]
    first = sounds.resonated(excitation, source.within(-8000, 8000), source.within(1000, 4080))
    return sounds.resonated(first, source.within(-8000, 8000), source.within(-4000, 4000))


# Bounds of codes that a table's factor, a rounding or a clamp decides, met exactly.
HUNTED_SOUNDS = {
    "encoder.ratio-codes": (
        *(124, 144, 193, 248, 321, 342, 408, 456, 577, 584, 618, 912, 1144, 1467, 1544, 1621),
        *(1737, 2017, 2160, 2336, 2544, 3072, 3681, 3976, 7624, 9651),
    ),
    "encoder.lag-gain": (392, 441, 608, 904, 1159, 2986),
    "encoder.pulses": (238, 721),
    "encoder.grid": (1542,),
    "encoder.offset": (1110,),
}


def last_samples(number: int) -> List[int]:
    """A frame of zeros but for its last few samples, one of many among which those were sought
    whose autocorrelation at lag 1 is 0."""
    source = NamedSource(f"last samples {number}")
    count, peak = source.within(3, 8), 1 << source.within(5, 14)
    return [0] * (SAMPLES - count) + sounds.noise(source, count, peak)


def quarters(number: int) -> List[int]:
    """A frame that preemphasis makes nearly a wave of period 4, so that each second reflection
    coefficient is about 0."""
    source = NamedSource(f"quarters {number}")
    peak = 1 << source.within(8, 13)
    spread = peak >> source.within(1, 5)
    samples, last = [], 0
    for k in range(SAMPLES):
        wave = (peak, 0, -peak, 0)[k % 4]
        last = saturate(wave + source.within(-spread, spread) + ((28180 * last) >> 15))
        samples.append(last)
    return samples


def faint(number: int) -> List[int]:
    """Two frames of silence with some faint impulses, one of many among which those were sought
    with a block whose greatest correlation is 1."""
    source = NamedSource(f"faint {number}")
    rare, peak = source.within(2, 160), 1 << source.within(3, 7)
    return [0 if source.within(0, rare) else source.within(-peak, peak) for _ in range(2 * SAMPLES)]


def loud_noise(number: int) -> List[int]:
    """A frame of loud noise, one of many among which those were sought with a pulse on the bound of
    two codes."""
    source = NamedSource(f"louder {number}")
    return sounds.noise(source, SAMPLES, source.within(14000, sounds.MOST))


# Bounds that these sounds meet exactly.
OTHER_HUNTED_SOUNDS: Tuple[Tuple[Callable[[int], List[int]], int, str], ...] = (
    (last_samples, 665, "encoder.reflection"),
    (last_samples, 67794, "encoder.ratio-codes"),
    (quarters, 369, "encoder.reflection"),
    (quarters, 55117, "encoder.reflection"),
    (faint, 3429, "encoder.lag"),
    (loud_noise, 49, "encoder.lag-gain"),
    (loud_noise, 273, "encoder.pulses"),
    (loud_noise, 1120, "encoder.pulses"),
    (loud_noise, 1798, "encoder.pulses"),
    (loud_noise, 3226, "encoder.pulses"),
    (loud_noise, 5373, "encoder.pulses"),
    (loud_noise, 7673, "encoder.pulses"),
)


def used_up() -> List[int]:
    """A parabola as it is before preemphasis: the recursion for its reflection coefficients uses up
    all energy."""
    samples, last = [], 0
    for k in range(SAMPLES):
        last = 2000 * k * (SAMPLES - k) // (SAMPLES // 2) ** 2 + ((28180 * last) >> 15)
        samples.append(last)
    return samples


SOUNDS: Dict[str, Tuple[Callable[[NamedSource], List[int]], str]] = {
    "silence": (lambda source: stay(0, 3), ENCODER),
    "levels": (levels, ENCODER),
    "voice": (lambda source: sounds.voice(source, 60, 6000), ENCODER),
    "soft-voice": (lambda source: sounds.voice(source, 40, 150), ENCODER),
    "loud-voice": (lambda source: sounds.voice(source, 40, 32767), ENCODER),
    "impulses": (lambda source: sounds.impulses(source, SAMPLES * 40), ENCODER),
    "steps": (lambda source: sounds.steps(source, SAMPLES * 40), ENCODER),
    "ramps": (ramps, "encoder.downscaling encoder.offset encoder.preemphasis"),
    "offset": (lambda source: stay(1000, 30) + stay(-7, 10), "encoder.downscaling encoder.offset"),
    "least": (lambda source: stay(sounds.LEAST, 12), "encoder.offset encoder.preemphasis"),
    "greatest": (lambda source: stay(sounds.MOST, 12), "encoder.offset encoder.preemphasis"),
    "scalings": (near_scalings, "encoder.autocorrelation"),
    "scaled-up": (
        lambda source: stay(sounds.LEAST, 40) + stay(sounds.MOST, 20),
        "encoder.scaled-up-to-32768",
    ),
    "used-up": (lambda source: used_up(), "encoder.zero-by-zero"),
    "full-scale-noise": (
        lambda source: [source.choice((sounds.LEAST, sounds.MOST)) for _ in range(SAMPLES * 20)],
        ENCODER,
    ),
}
# Where correlations of floating point choose another lag.
SPLITTING_PERIODS = (10, 20)
OTHER_PERIODS = (2, 4, 8, 16, 40, 80, 120)


def encoder_cases() -> List[Case]:
    """Samples for the encoder, in both packings."""
    found = [
        case("encode", title, rules, words_of(maker(NamedSource(title))))
        for title, (maker, rules) in SOUNDS.items()
    ]
    found += [
        case(
            "encode",
            f"square-{period}",
            "encoder.lag",
            words_of(sounds.square(period, SAMPLES * 20)),
        )
        for period in SPLITTING_PERIODS
    ]
    found += [
        case("encode", f"square-{period}", ENCODER, words_of(sounds.square(period, SAMPLES * 6)))
        for period in OTHER_PERIODS
    ]
    for rule, numbers in HUNTED_SOUNDS.items():
        found += [
            case("encode", f"bound-{number}", rule, words_of(hunted(number))) for number in numbers
        ]
    for maker, number, rule in OTHER_HUNTED_SOUNDS:
        title = f"{maker.__name__.replace('_', '-')}-{number}"
        found.append(case("encode", title, rule, words_of(maker(number))))
    return found + [case("encode-wav", "voice", "packing.wav", voice_octets("wav", 12))]
