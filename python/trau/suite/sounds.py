"""Samples that are made of whole numbers alone, so they are the same on every machine."""

from typing import List, Sequence

from trau.rules.arithmetic import saturate

from trau.suite.operations import SAMPLES
from trau.suite.random_source import NamedSource

LEAST, MOST = -32768, 32767


def square(period: int, count: int, high: int = MOST, low: int = LEAST) -> List[int]:
    """A square wave of this even period in samples."""
    return [high if 2 * (k % period) < period else low for k in range(count)]


def noise(source: NamedSource, count: int, peak: int) -> List[int]:
    """Random samples up to this magnitude."""
    return source.some(count, -peak, peak)


def impulses(source: NamedSource, count: int) -> List[int]:
    """Silence with an impulse of any height now and then."""
    return [source.choice((0,) * 30 + (source.within(LEAST, MOST),)) for _ in range(count)]


def steps(source: NamedSource, count: int) -> List[int]:
    """Levels that last for a while, silence among them."""
    samples: List[int] = []
    while len(samples) < count:
        level = source.choice((0, LEAST, MOST, source.within(LEAST, MOST)))
        samples += [level] * source.choice((1, 2, 40, 160, 400))
    return samples[:count]


def resonated(excitation: Sequence[int], first: int, second: int) -> List[int]:
    """An excitation through a filter of two poles, whose coefficients have 12 bits behind the
    point."""
    before = last = 0
    samples = []
    for value in excitation:
        now = saturate(value + ((first * last - second * before) >> 12))
        before, last = last, now
        samples.append(now)
    return samples


def voice(source: NamedSource, frames: int, loudness: int) -> List[int]:
    """Something like speech: a train of pulses and noise through resonances that change."""
    samples: List[int] = []
    while len(samples) < SAMPLES * frames:
        pitch, length = source.within(30, 130), SAMPLES * source.within(1, 6)
        voiced = source.within(0, 3) > 0
        excitation = [
            (loudness if voiced and k % pitch == 0 else 0)
            + source.within(-loudness, loudness) // 16
            for k in range(length)
        ]
        formant = resonated(excitation, source.within(-6000, 7600), source.within(3000, 3900))
        samples += resonated(formant, source.within(2000, 7000), source.within(2500, 3700))
    return samples[: SAMPLES * frames]
