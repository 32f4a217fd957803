"""The model's codec beside libgsm, where that is installed: the same samples through both encoders,
the same parameters through both decoders. libgsm is another's implementation of GSM 06.10; what it
is compared on is made from a seed."""

import ctypes
import ctypes.util
import random
from operator import add as add_up
from pathlib import Path
from typing import Callable, Dict, List, NamedTuple, Optional, Sequence, Tuple

from trau.rules.arithmetic import saturate
from trau.rules.g711 import Law, expand_all
from trau.rules.parameters import GSM_OCTETS, WIDTHS, Parameters, parameters_of_values, values_of

from trau.model.codec import SAMPLES, FullRateDecoder, FullRateEncoder

FRAMES = 50  # of a stream, from home
DATA = Path(__file__).resolve().parents[3] / "checks" / "vectors"
RECORDINGS = ("speech-en-m3.pcm", "speech-loud-m7.pcm", "harsh.pcm")


class Libgsm:
    """The library, and one coder of it from home."""

    def __init__(self, library: ctypes.CDLL) -> None:
        self.library = library
        library.gsm_create.restype = ctypes.c_void_p
        self.coder = ctypes.c_void_p(library.gsm_create())

    def encode(self, samples: Sequence[int]) -> Parameters:
        """The parameters of the next 160 samples."""
        octets = ctypes.create_string_buffer(GSM_OCTETS)
        values = (ctypes.c_int16 * 76)()
        self.library.gsm_encode(self.coder, (ctypes.c_int16 * SAMPLES)(*samples), octets)
        self.library.gsm_explode(self.coder, octets, values)
        return parameters_of_values(list(values))

    def decode(self, parameters: Parameters) -> List[int]:
        """The 160 samples of the next parameters."""
        octets = ctypes.create_string_buffer(GSM_OCTETS)
        samples = (ctypes.c_int16 * SAMPLES)()
        self.library.gsm_implode(self.coder, (ctypes.c_int16 * 76)(*values_of(parameters)), octets)
        self.library.gsm_decode(self.coder, octets, samples)
        return list(samples)

    def close(self) -> None:
        """Gives the coder back."""
        self.library.gsm_destroy(self.coder)


def find(name: Optional[str] = None) -> Optional[ctypes.CDLL]:
    """The library of this file's name, or the installed one; None where there is none."""
    name = name or ctypes.util.find_library("gsm")
    try:
        return ctypes.CDLL(name) if name else None
    except OSError:
        return None


# Samples and parameters to compare with.


def recorded(
    draw: random.Random, names: Sequence[str] = RECORDINGS[:2], least: int = -5, most: int = 2
) -> List[int]:
    """Fifty frames of a recording, from any sample on, by a gain of 2 to the power of these."""
    samples = expand_all(Law.A, (DATA / draw.choice(names)).read_bytes())
    start = draw.randrange(len(samples) - SAMPLES * FRAMES)
    gain = 2 ** draw.uniform(least, most)
    return [saturate(int(sample * gain)) for sample in samples[start : start + SAMPLES * FRAMES]]


def saturating(draw: random.Random) -> List[int]:
    """Fifty frames of a recording so loud that most samples are cut."""
    return recorded(draw, RECORDINGS, 3, 8)


def noise(draw: random.Random) -> List[int]:
    """Fifty frames of random samples, each frame with its own greatest magnitude."""
    peaks = [2 ** draw.randrange(16) for _ in range(FRAMES)]
    return [draw.randrange(-peak, peak) for peak in peaks for _ in range(SAMPLES)]


def squares(draw: random.Random) -> List[int]:
    """Fifty frames of square waves of full scale, each frame with its own period."""
    periods = [draw.randrange(2, 200) for _ in range(FRAMES)]
    return [
        32767 if 2 * (k % period) < period else -32768 for period in periods for k in range(SAMPLES)
    ]


def steady_squares(draw: random.Random) -> List[int]:
    """Fifty frames of one square wave of full scale. A library that sums correlations in floating
    point departs on some of them."""
    period = draw.randrange(2, 161)
    start, high = draw.randrange(period), draw.randrange(1, period)
    return [32767 if (k + start) % period < high else -32768 for k in range(SAMPLES * FRAMES)]


def steps(draw: random.Random) -> List[int]:
    """Fifty frames of levels that last for a random time, impulses and silence among them."""
    samples: List[int] = []
    while len(samples) < SAMPLES * FRAMES:
        samples += [draw.choice((0, 0, draw.randrange(-32768, 32768)))] * draw.choice(
            (1, 2, 40, 160, 400)
        )
    return samples[: SAMPLES * FRAMES]


SIGNALS: Dict[str, Callable[[random.Random], List[int]]] = {
    "speech": recorded,
    "saturating": saturating,
    "noise": noise,
    "squares": squares,
    "steps": steps,
    "steady squares": steady_squares,
}


def any_parameters(draw: random.Random) -> List[Parameters]:
    """Fifty frames of parameters of any values, lags out of range among them."""
    return [
        parameters_of_values([draw.randrange(2**width) for width in WIDTHS])
        for _ in range(FRAMES)
    ]


def extreme_parameters(draw: random.Random) -> List[Parameters]:
    """Fifty frames of parameters that are the least or the greatest of their width."""
    return [
        parameters_of_values([draw.choice((0, 2**width - 1)) for width in WIDTHS])
        for _ in range(FRAMES)
    ]


PARAMETERS: Dict[str, Callable[[random.Random], List[Parameters]]] = {
    "any": any_parameters,
    "extreme": extreme_parameters,
}


# Comparing.


class Compared(NamedTuple):
    """How many frames were compared, and how many of them aren't alike."""

    frames: int
    different: int


def differences(ours: Sequence[object], theirs: Sequence[object]) -> Compared:
    """How many members differ."""
    return Compared(len(ours), sum(a != b for a, b in zip(ours, theirs)))


def encoders(library: ctypes.CDLL, samples: Sequence[int]) -> Tuple[Compared, List[Parameters]]:
    """Both encoders from home on a stream of samples, and the model's parameters."""
    frames = [samples[start : start + SAMPLES] for start in range(0, len(samples), SAMPLES)]
    encoder, other = FullRateEncoder(), Libgsm(library)
    ours = [encoder.encode(frame).parameters for frame in frames]
    theirs = [other.encode(frame) for frame in frames]
    other.close()
    return differences(ours, theirs), ours


def decoders(library: ctypes.CDLL, parameters: Sequence[Parameters]) -> Compared:
    """Both decoders from home on a stream of parameters."""
    decoder, other = FullRateDecoder(), Libgsm(library)
    compared = differences(
        [decoder.decode(one) for one in parameters], [other.decode(one) for one in parameters]
    )
    other.close()
    return compared


def table(library: ctypes.CDLL, seed: int, streams: int) -> Dict[str, Compared]:
    """Compares streams of fifty frames: of each kind how many frames were compared, and how many of
    them differ.

    Half of the streams go through the encoders, and what the model made of them through the
    decoders; the others through the decoders.
    """
    draw = random.Random(seed)
    sums: Dict[str, Compared] = {}

    def add(kind: str, compared: Compared) -> None:
        sums[kind] = Compared(*map(add_up, sums.get(kind, Compared(0, 0)), compared))

    for number in range(streams):
        if number % 2 == 0:
            kind = list(SIGNALS)[number // 2 % len(SIGNALS)]
            encoded, parameters = encoders(library, SIGNALS[kind](draw))
            add("encoding " + kind, encoded)
        else:
            kind = list(PARAMETERS)[number // 2 % len(PARAMETERS)]
            parameters = PARAMETERS[kind](draw)
        add("decoding " + kind, decoders(library, parameters))
    return sums
