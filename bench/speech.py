"""The same recorded speech in the forms of the programs that are compared."""

import array
import sys
from pathlib import Path

TOP = Path(__file__).resolve().parents[1]
# The programs of this folder find the package from here.
sys.path.insert(0, str(TOP / "python"))

from trau.rules.frame import bits_of, data_of  # noqa: E402
from trau.rules.g711 import Law, octets_by_sample, samples_by_octet  # noqa: E402
from trau.rules.parameters import gsm_of_data  # noqa: E402
from trau.rules.profile import FRAME_OCTETS, PCM_OCTETS  # noqa: E402

RECORDED = TOP / "checks" / "vectors" / "speech-en-m3"
GSM_OCTETS = 33
# Of a period, by the side of its line.
PERIOD_OCTETS = {"up": FRAME_OCTETS, "pcm": PCM_OCTETS}

SAMPLE_OF = samples_by_octet(Law.A)
OCTET_OF = octets_by_sample(Law.A)


def repeated(octets: bytes, size: int) -> bytes:
    """These octets again and again, up to a size."""
    return (octets * (size // len(octets) + 1))[:size]


def recorded(side: str, periods: int) -> bytes:
    """The recorded speech of a side, repeated to this many periods."""
    given = RECORDED.with_suffix(f".{side}").read_bytes()
    return repeated(given, periods * PERIOD_OCTETS[side])


def blocks(octets: bytes, length: int) -> list[bytes]:
    return [octets[place : place + length] for place in range(0, len(octets), length)]


def gsm_frames(trau_line: bytes) -> bytes:
    """A line of TRAU frames as frames of 33 octets."""
    frames = blocks(trau_line, FRAME_OCTETS)
    return b"".join(gsm_of_data(data_of(bits_of(frame))) for frame in frames)


def samples_of(alaw_line: bytes) -> bytes:
    """The samples of an A-law line, in the machine's order of octets."""
    return array.array("h", [SAMPLE_OF[octet] for octet in alaw_line]).tobytes()


def alaw_of(samples: bytes) -> bytes:
    """The A-law line of samples."""
    return bytes(OCTET_OF[word] for word in array.array("H", samples))
