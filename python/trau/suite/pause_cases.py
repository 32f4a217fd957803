"""Cases of lost frames, comfort noise and discontinuous transmission."""

from typing import List, Sequence

from trau.rules.arithmetic import magnitude
from trau.rules.g711 import Law, compress_all
from trau.rules.parameters import SILENCE, Block, Parameters, values_of
from trau.rules.preprocessing import Preprocessing

from trau.suite import sounds
from trau.suite.cases import Case, case
from trau.suite.codec_cases import ENCODING, hunted, octets_of_values, random_values
from trau.suite.operations import (
    DESCRIPTOR,
    GOOD,
    IDLE,
    LOST,
    LOST_DUE,
    SAMPLE_OCTETS,
    SAMPLES,
    samples_of,
    units,
    words_of,
)
from trau.suite.random_source import NamedSource
from trau.suite.reference import frame_of_parameters

MOST_LOST = 40
SILENT_FROM = 17  # lost frames after which there is silence
NOISE = "noise.lags noise.lag-gain noise.pulses noise.between noise.draws"
# Bursts whose sound is decoded too; of the others the frames alone.
HEARD_BURSTS = (1, 2, 16, 17, 18)


def descriptor(source: NamedSource) -> bytes:
    """A silence descriptor with any ratios and any block maximum."""
    ratios = tuple(source.within(0, (1 << width) - 1) for width in (6, 6, 5, 5, 4, 4, 3, 3))
    block = Block(0, 0, 0, source.within(0, 63), (0,) * 13)
    return frame_of_parameters(Parameters(ratios, (block,) * 4))


def pattern(name: str, digits: Sequence[str]) -> bytes:
    """The periods of a loss pattern, with any speech and any descriptors."""
    source = NamedSource(name)
    silence = octets_of_values(values_of(SILENCE))

    def frame(digit: str) -> bytes:
        if digit == DESCRIPTOR:
            return descriptor(source)
        return octets_of_values(random_values(source)) if digit == GOOD else silence

    return b"".join(digit.encode() + frame(digit) for digit in digits)


def rules_of_burst(lost: int) -> str:
    """What so many lost frames after speech exercise."""
    rules = "lost.as-it-came lost.repeated"
    if lost > 1:
        rules += " lost.muted lost.never-louder lost.draws"
    return rules + (" lost.silent lost.frame-of-silence" if lost >= SILENT_FROM else "")


def burst_cases() -> List[Case]:
    """Bursts of 1 to 40 lost frames: after speech, after a descriptor, and at the start."""
    found = []
    for lost in range(1, MOST_LOST + 1):
        rules = rules_of_burst(lost)
        given = pattern(f"speech {lost}", GOOD * 2 + LOST * lost + GOOD)
        found.append(case("conceal", f"speech-lost-{lost}", rules, given))
        given = pattern(f"noise {lost}", DESCRIPTOR + LOST * lost + GOOD)
        found.append(case("conceal", f"descriptor-lost-{lost}", f"{NOISE} lost.as-it-came", given))
        given = pattern(f"start {lost}", LOST * lost + GOOD)
        found.append(case("conceal", f"start-lost-{lost}", "lost.quiet", given))
    for lost in HEARD_BURSTS:
        given = pattern(f"heard {lost}", GOOD * 2 + LOST * lost + GOOD)
        for operation in ("receive", "receive-alaw"):
            found.append(case(operation, f"speech-lost-{lost}", "lost.draws lost.muted", given))
    return found


# Loss patterns of noise, and the rules that they exercise.
PATTERNS = {
    "approach": (
        DESCRIPTOR + LOST * 23 + DESCRIPTOR + LOST * 12 + (DESCRIPTOR + LOST * 3) * 6,
        f"{NOISE} noise.approach",
    ),
    "descriptors-alone": (DESCRIPTOR * 30, f"{NOISE} noise.approach"),
    "after-speech": (
        (GOOD + DESCRIPTOR + LOST * 2 + GOOD + LOST + DESCRIPTOR + LOST) * 4,
        f"{NOISE} noise.approach lost.as-it-came",
    ),
    "one-missed": (DESCRIPTOR + (LOST * 23 + LOST_DUE + LOST * 23 + DESCRIPTOR) * 2, NOISE),
    "falls": (DESCRIPTOR + (LOST * 23 + LOST_DUE) * 2 + LOST * 25, "noise.mutes noise.fall"),
    "falls-at-once": (
        DESCRIPTOR + LOST_DUE * 3 + LOST * 20 + DESCRIPTOR + LOST * 3,
        "noise.mutes noise.fall noise.approach",
    ),
    "falls-to-descriptor": (
        (DESCRIPTOR * 2 + LOST * 3 + LOST_DUE * 2 + LOST * 4) * 3,
        "noise.fall noise.approach",
    ),
    "falls-to-speech": (
        (DESCRIPTOR + LOST_DUE * 4 + GOOD + LOST_DUE * 4) * 2 + GOOD,
        "noise.fall lost.muted lost.as-it-came",
    ),
    "idle": (
        (GOOD * 2 + LOST * 2 + IDLE + LOST * 2) * 2 + DESCRIPTOR + LOST * 2 + IDLE + LOST + GOOD,
        "lost.quiet",
    ),
    "all": (
        "00021222213222322202222114220112204",
        "lost.draws noise.draws",
    ),
}


def receiving_cases() -> List[Case]:
    """Bursts of losses, and noise that approaches, falls and ends."""
    found = burst_cases()
    for title, (digits, rules) in PATTERNS.items():
        given = pattern(title, digits)
        found.append(case("conceal", title, rules, given))
        if title in ("idle", "falls-to-speech", "all"):
            found.append(case("receive", title, rules, given))
            found.append(case("receive-alaw", title, rules, given))
    return found


# The transmit side.

LOUD, SOFT = 12000, 40
LEVEL = 256
HANGOVER_AFTER = 24  # frames from a new descriptor to a pause that has a hangover


def orders(samples: Sequence[int], level: int = LEVEL, on: bool = True) -> bytes:
    """Frames of samples with one level and mode."""
    head = words_of([level]) + (b"1" if on else b"0")
    return b"".join(head + each for each in units(words_of(samples), SAMPLE_OCTETS))


def talk(source: NamedSource, *lengths: int) -> List[int]:
    """Loud noise and nearly silent noise in turn, of these lengths in frames."""
    samples: List[int] = []
    for place, length in enumerate(lengths):
        samples += sounds.noise(source, SAMPLES * length, SOFT if place % 2 else LOUD)
    return samples


def alaw_orders(given: bytes) -> bytes:
    """The same frames with octets of A-law in place of samples."""
    return b"".join(
        each[:3] + compress_all(Law.A, samples_of(each[3:]))
        for each in units(given, 3 + SAMPLE_OCTETS)
    )


def peak_of(samples: Sequence[int]) -> int:
    """The greatest magnitude after preprocessing; of -32768 it is 32767."""
    return max(map(magnitude, Preprocessing().run(samples)))


def level_cases() -> List[Case]:
    """Levels about the peak of a frame of noise, and of one that reaches -32768."""
    found = []
    source = NamedSource("levels")
    least = [sounds.LEAST] * 80 + [sounds.MOST] * 80
    for title, first in (("noise", sounds.noise(source, SAMPLES, 500)), ("least", least)):
        samples = first + [0] * SAMPLES * 6
        for level in {peak_of(first), min(peak_of(first) + 1, sounds.MOST), 0}:
            given = orders(samples, level)
            found.append(case("send", f"level-{title}-{level}", "send.level", given))
    return found


def pause_cases() -> List[Case]:
    """Pauses of each length about the hangover, and bursts of speech of each length between two."""
    found = []
    descriptors = "send.code-word send.one-maximum"
    for pause in range(1, 10):
        given = orders(talk(NamedSource(f"pause {pause}"), 2, pause, 2, 7))
        rules = "send.every-frame" + (f" {descriptors} send.means" if pause > 4 else "")
        found.append(case("send", f"pause-{pause}", rules, given))
    for speech in (1, 3, *range(HANGOVER_AFTER - 3, HANGOVER_AFTER + 2)):
        given = orders(talk(NamedSource(f"speech {speech}"), 1, 6, speech, 6))
        rules = f"send.every-frame {descriptors}"
        found.append(case("send", f"speech-{speech}", rules, given))
    silent = talk(NamedSource("hangover"), 30) + [0] * SAMPLES * 10
    found.append(
        case("send", "silence-after-speech", f"send.hangover {descriptors}", orders(silent))
    )
    return found


def mean_case() -> Case:
    """A pause with a reflection coefficient of 31130, where two lines of the log area ratio meet
    one unit apart, and with a mean of ratios on the bound of two codes."""
    samples = hunted(38023) + hunted(6562) * 2
    return case("send", "mean-on-a-bound", "send.means", orders(samples, sounds.MOST))


def sending_cases() -> List[Case]:
    """The transmit side, also on a line of A-law."""
    source = NamedSource("sending")
    voice = sounds.voice(source, 30, 3000)
    always = case("send", "always-on", f"send.speech {ENCODING}", orders(voice, on=False))
    mixed = orders(voice[: SAMPLES * 9]) + orders(voice[SAMPLES * 9 :], 2000)
    found = [always, case("send", "voice", "send.means send.every-frame", mixed)]
    found += level_cases() + pause_cases() + [mean_case()]
    on_a_line = ("always-on", "voice", "pause-6", "speech-23", "speech-24", "silence-after-speech")
    return found + [
        case("send-alaw", one.title, " ".join(one.rules), alaw_orders(one.given))
        for one in found
        if one.title in on_a_line
    ]
