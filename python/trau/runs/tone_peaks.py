"""The peaks of a tone's frames, which discontinuous transmission compares with a call's level: the
greatest magnitude of a frame's samples after preprocessing (GSM 06.10, sections 4.2.1 to 4.2.3, and
this project's profile)."""

import math
from typing import List

from trau.rules.arithmetic import magnitude, saturate
from trau.rules.g711 import Law, compress_all, expand_all
from trau.rules.preprocessing import Preprocessing
from trau.rules.profile import PCM_OCTETS, SAMPLES_A_SECOND
from trau.runs.levels import OVERLOADS

LEAST_DBM0, MOST_DBM0 = -60.0, 3.0
LEAST_HERTZ, MOST_HERTZ = 50.0, 3950.0

# The frames of a tone that are looked at, and those before them, in which the offset compensation
# settles.
FRAMES, SETTLING_FRAMES = 200, 30


def tone(dbm0: float, hertz: float, phase: float, law: Law, samples: int) -> bytes:
    """The octets of a sine on a line of a law. The phase is a part of a turn."""
    overload, overload_level = OVERLOADS[law]
    amplitude = overload * 10 ** ((dbm0 - overload_level) / 20)
    turns = (phase + hertz * place / SAMPLES_A_SECOND for place in range(samples))
    values = (round(amplitude * math.sin(2 * math.pi * turn)) for turn in turns)
    return compress_all(law, map(saturate, values))


def peaks_of_tone(dbm0: float, hertz: float, law: Law) -> List[int]:
    """The peaks of whole frames of a tone, once the preprocessing has settled. So that the samples
    also meet a tone at all its phases whose frequency divides theirs, it goes by a turn too fast
    over all these frames."""
    samples = PCM_OCTETS * (SETTLING_FRAMES + FRAMES)
    drift = SAMPLES_A_SECOND / (PCM_OCTETS * FRAMES)
    octets = tone(dbm0, hertz + drift, 0, law, samples)
    magnitudes = [magnitude(sample) for sample in Preprocessing().run(expand_all(law, octets))]
    return [
        max(magnitudes[start : start + PCM_OCTETS])
        for start in range(PCM_OCTETS * SETTLING_FRAMES, samples, PCM_OCTETS)
    ]
