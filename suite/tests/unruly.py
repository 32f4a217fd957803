"""Boxes and lines that no rule explains, for the tests of check.py: a decoder that keeps the standard, with other sound where frames are
lost and in pauses, or with something behind it; and lines that lose octets."""

import enum
from typing import List, Optional, Sequence

from boxes import SAMPLES

from trau.model.codec import FullRateDecoder
from trau.rules.frame import FrameKind, bits_of
from trau.rules.g711 import Law, compress_all, expand_all
from trau.rules.parameters import Parameters, parameters_of_bits
from trau.suite.box_uplink import up_periods
from trau.suite.random_source import NamedSource
from trau.suite.sounds import noise

IDLE = [0] * SAMPLES


class Muting(enum.Enum):
    """What a box makes of a period without a good frame."""

    IDLE = enum.auto()
    FADE = enum.auto()  # the frame again, in samples that are halved each time
    NOISE = enum.auto()  # noise that no decoder makes


class UnrulyBox:
    """A box whose decoder stands still, or goes on with the last frame, where there is no good one."""

    def __init__(self, muting: Muting) -> None:
        self.muting, self.decoder = muting, FullRateDecoder()
        self.last: Optional[Parameters] = None
        self.divisor = 1
        self.source = NamedSource("unruly")

    def good(self, parameters: Parameters) -> List[int]:
        """The samples of a good frame."""
        self.last, self.divisor = parameters, 1
        return list(self.decoder.decode(parameters))

    def other(self) -> List[int]:
        """The samples of another period."""
        if self.muting is Muting.NOISE:
            return noise(self.source, SAMPLES, 200)
        if self.muting is Muting.IDLE or self.last is None:
            return IDLE
        self.divisor *= 2
        return [sample // self.divisor for sample in self.decoder.decode(self.last)]


def unruly_samples(up: bytes, muting: Muting) -> List[int]:
    """What such a box makes of an uplink, before its law."""
    box, found = UnrulyBox(muting), []
    for each in up_periods(bits_of(up)):
        is_good = each.frame is not None and each.frame.kind is FrameKind.SPEECH
        found += box.good(parameters_of_bits(each.frame.data)) if is_good else box.other()
    return found


def unruly_out(up: bytes, muting: Muting) -> bytes:
    """Its A-law."""
    return compress_all(Law.A, unruly_samples(up, muting))


def louder(line: bytes, quarters: int) -> bytes:
    """A line with so many quarters of its sound."""
    samples = [sample * quarters // 4 for sample in expand_all(Law.A, line)]
    return compress_all(Law.A, [max(-32768, min(32767, sample)) for sample in samples])


def coarse(line: bytes) -> bytes:
    """A line after another codec, which keeps a sample of two, and those coarsely."""
    samples = expand_all(Law.A, line)
    kept: Sequence[int] = [samples[k // 2 * 2] // 1024 * 1024 for k in range(len(samples))]
    return compress_all(Law.A, kept)


def drifting(line: bytes, every: int) -> bytes:
    """A line that loses an octet of each so many."""
    return b"".join(line[k : k + every - 1] for k in range(0, len(line), every))
