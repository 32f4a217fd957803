"""What is heard of an uplink: for each period the frame that a call decodes, which may have been
made for a lost one or for a pause (docs/PROFILE.md)."""

import itertools
from array import array
from collections import Counter
from types import ModuleType
from typing import Iterator, List, Mapping, NamedTuple, Optional, Sequence

from trau.model.call import uplink
from trau.model.codec import FullRateDecoder
from trau.rules.frame import bits_of
from trau.rules.g711 import Law, compress_all
from trau.rules.parameters import (
    bits_of_parameters,
    data_of_gsm,
    gsm_of_data,
    parameters_of_bits,
)
from trau.rules.profile import PCM_OCTETS
from trau.rules.report import COUNTS
from trau.rules.search import kind_of_period, yields_by_period
from trau.runs import run_lines
from trau.runs.uplink_periods import FRAME_KINDS

CALL = 1  # whose number starts the random numbers


def samples_of(frames: Sequence[bytes], library: Optional[ModuleType]) -> "array[int]":
    """The samples of frames of libgsm in a row, by the library or, without it, by the model."""
    if library:
        samples: "array[int]" = library.Decoder().decode(b"".join(frames))
        return samples
    decoder, found = FullRateDecoder(), array("h")
    for frame in frames:
        found.extend(decoder.decode(parameters_of_bits(data_of_gsm(frame))))
    return found


def said_of_counts(counts: Mapping[str, int]) -> str:
    """How many periods of an uplink gave each kind, in words."""
    return "uplink " + " ".join(f"{word} {counts.get(word, 0)}" for word in COUNTS[:-1])


class HeardRow(NamedTuple):
    """Periods in a row that are quiet, or whose frames are decoded one after the other."""

    periods: int
    frames: Sequence[bytes]


class HeardUplink(NamedTuple):
    """What is heard of each period: a frame of libgsm, or None where it is quiet; and how many
    periods gave each kind."""

    frames: Sequence[Optional[bytes]]
    counts: Mapping[str, int]

    def said(self) -> str:
        """The counts in words."""
        return said_of_counts(self.counts)

    def rows(self) -> Iterator[HeardRow]:
        """The periods in rows. The decoder begins anew after a quiet one."""
        for _, row in itertools.groupby(self.frames, lambda frame: frame is None):
            frames = list(row)
            yield HeardRow(len(frames), [frame for frame in frames if frame is not None])

    def samples(self, library: Optional[ModuleType]) -> "array[int]":
        """The samples of the decoder; zeros where it is quiet."""
        found = array("h")
        for row in self.rows():
            quiet = array("h", bytes(2 * PCM_OCTETS * row.periods))
            found.extend(samples_of(row.frames, library) if row.frames else quiet)
        return found

    def octets(self, library: Optional[ModuleType]) -> bytes:
        """The same in A-law, as a run has it on the Out line: idle octets where it is quiet."""
        parts: List[bytes] = []
        for row in self.rows():
            if row.frames:
                parts.append(compress_all(Law.A, samples_of(row.frames, library)))
            else:
                parts.append(bytes([Law.A.idle()]) * PCM_OCTETS * row.periods)
        return b"".join(parts)


def lost_periods(octets: bytes) -> List[int]:
    """The periods of an uplink whose speech was lost, and is made up for."""
    kinds = map(kind_of_period, yields_by_period(bits_of(octets)))
    heard = run_lines.heard_codes(bytes(map(FRAME_KINDS.index, kinds)))
    return [period for period, code in enumerate(heard) if code == run_lines.LOST_HEARD]


def without_losses(samples: "array[int]", octets: bytes) -> "array[int]":
    """The samples of an uplink, with silence in place of what is made for lost speech."""
    quiet = array("h", bytes(2 * PCM_OCTETS))
    for period in lost_periods(octets):
        samples[period * PCM_OCTETS : (period + 1) * PCM_OCTETS] = quiet
    return samples


def heard_of_uplink(octets: bytes) -> HeardUplink:
    """What is heard of the whole periods of an uplink."""
    found = uplink(CALL, octets)
    frames = [
        gsm_of_data(bits_of_parameters(each)) if each is not None else None
        for each in found.effective
    ]
    return HeardUplink(frames, Counter(kind.value for kind in found.kinds))
