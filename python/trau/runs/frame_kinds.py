"""The kinds of TRAU frames at 16 kbit/s by C1 to C5: the code words of GSM 08.60 section 3.5, and
those that GSM 08.61 adds for half rate channels. `trau` decodes full rate speech alone; of the
others it takes the idle frames, and counts the rest as `other`."""

from collections import Counter
from typing import Iterator, Mapping, NamedTuple

from trau.rules.frame import FrameKind, bits_of, control_of
from trau.rules.profile import DOWN_IDLE, DOWN_SPEECH, UP_IDLE, UP_SPEECH
from trau.rules.search import search


CODE_BITS = 5


class OtherKind(NamedTuple):
    """A kind of frames that isn't full rate speech: its word in tables, and its name."""

    word: str
    name: str


EFR = OtherKind("efr", "enhanced full rate speech")
HALF_RATE = OtherKind("hr", "half rate speech")
AMR = OtherKind("amr", "AMR speech")
OPERATION = OtherKind("o&m", "operation and maintenance")
DATA = OtherKind("data", "data")
EXTENDED = OtherKind("e-data", "extended data")
DATA_14_5 = OtherKind("data14.5", "data at 14.5 kbit/s, or their synchronization")
HALF_DATA = OtherKind("hr-data", "data of a half rate channel")

OTHERS: Mapping[str, OtherKind] = {
    **{
        "11010": EFR,
        "00110": AMR,
        "00101": OPERATION,
        "11011": OPERATION,
        "01000": DATA,
        "10110": DATA,
    },
    **{
        "10100": DATA_14_5,
        "11111": EXTENDED,
        "00011": HALF_RATE,
        "11101": HALF_RATE,
        "01001": HALF_DATA,
        "10111": HALF_DATA,
    },
}
UP, DOWN = (UP_SPEECH, UP_IDLE), (DOWN_SPEECH, DOWN_IDLE)
NAMES = {
    **{code: kind.name for code, kind in OTHERS.items()},
    **{UP_SPEECH: "full rate speech", UP_IDLE: "idle frames"},
    **{DOWN_SPEECH: "a downlink's full rate speech", DOWN_IDLE: "a downlink's idle frames"},
}


def word_of(code: str) -> str:
    """The word of frames with these bits C1 to C5 that aren't known on the line."""
    if code in OTHERS:
        return OTHERS[code].word
    return "downlink" if code in DOWN else "uplink" if code in UP else code


def name_of(code: str) -> str:
    """The name of an uplink's frames with these bits C1 to C5."""
    return NAMES.get(code, "no known kind")


def said_of(code: str) -> str:
    """The name of an uplink's frames with these bits C1 to C5, and the bits."""
    return f"{name_of(code)} (C1 to C5 {code})"


def code_of(frame: str) -> str:
    """C1 to C5 of a frame."""
    return control_of(frame)[:CODE_BITS]


def codes_of_others(octets: bytes) -> Iterator[str]:
    """C1 to C5 of each frame of an uplink that counts as `other`."""
    for each in search(bits_of(octets)):
        if each.frame is not None and each.kind() is FrameKind.OTHER:
            yield code_of(each.frame)


def counted(codes: Mapping[str, int]) -> str:
    """How many frames there are of which kind, as in a table: the most frequent kind first."""
    return " ".join(f"{word_of(code)} {count}" for code, count in Counter(codes).most_common())
