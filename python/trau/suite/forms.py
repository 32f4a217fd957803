"""The forms in which cases are written: words of 16 bits as ETSI's sequences have them, frames,
laws, loss patterns, TRAU lines."""

from typing import Callable, Dict, List

from trau.rules.parameters import data_of_gsm, parameters_of_bits, values_of

from trau.suite.cases import Case
from trau.suite.operations import (
    CALL_OCTETS,
    GSM_OCTETS,
    LINE_OCTETS,
    OPERATIONS,
    SAMPLES,
    samples_of,
    units,
    words_of,
)

Files = Dict[str, bytes]  # octets by endings


def cod(frames: bytes) -> bytes:
    """Frames of 33 octets as 76 words each, in the order of table 1.1 of GSM 06.10."""
    return b"".join(
        words_of(values_of(parameters_of_bits(data_of_gsm(each))))
        for each in units(frames, GSM_OCTETS)
    )


def parted(octets: bytes, size: int, head: int) -> List[bytes]:
    """The heads of units and their rests, each put together."""
    cut = units(octets, size)
    return [b"".join(each[:head] for each in cut), b"".join(each[head:] for each in cut)]


def periods(octets: bytes) -> Files:
    """Digits and frames."""
    digits, frames = parted(octets, 1 + GSM_OCTETS, 1)
    return {"digits": digits + b"\n", "gsm": frames}


def orders(ending: str, octets: bytes, size: int) -> Files:
    """Levels and modes, a line a frame, and sound."""
    heads, sound = parted(octets, size, 3)
    lines = [f"{samples_of(each[:2])[0]} {each[2:].decode()}\n" for each in units(heads, 3)]
    return {"orders": "".join(lines).encode(), ending: sound}


def call(ending: str, given: bytes, expected: bytes) -> Files:
    """The four lines of a call; what comes from the exchange and what goes to it have `pcm` and
    `out` before the law's ending."""
    up, pcm = parted(given, CALL_OCTETS, LINE_OCTETS)
    out, down = parted(expected, CALL_OCTETS, SAMPLES)
    return {"up": up, f"pcm.{ending}": pcm, f"out.{ending}": out, "down": down}


def forms_of(case: Case, expected: bytes) -> Files:
    """The files of a case by their endings: what is given, and what is expected."""
    word, given = case.operation, case.given
    size = OPERATIONS[word].unit
    law = {"alaw": "al", "mulaw": "ul"}.get(word.partition("-")[0], "")
    made: Dict[str, Callable[[], Files]] = {
        "encode": lambda: {"inp": given, "cod": cod(expected), "gsm": expected},
        "decode": lambda: {"cod": cod(given), "gsm": given, "out": expected},
        "encode-wav": lambda: {"inp": given, "wav49": expected},
        "decode-wav": lambda: {"wav49": given, "out": expected},
        "kind": lambda: {"gsm": given, "digits": expected + b"\n"},
        "conceal": lambda: {**periods(given), "handed.gsm": expected},
        "receive": lambda: {**periods(given), "out": expected},
        "receive-alaw": lambda: {**periods(given), "al": expected},
        "send": lambda: {**orders("inp", given, size), **periods(expected)},
        "send-alaw": lambda: {**orders("al", given, size), **periods(expected)},
        "write-uplink": lambda: {**periods(given), "up": expected},
        "read-uplink": lambda: {"up": given, **periods(expected)},
        "write-downlink": lambda: {**periods(given), "down": expected},
        "read-downlink": lambda: {"down": given, **periods(expected)},
        "recode": lambda: {"laws": given, "law": expected},
        "mark": lambda: {"gsm": given, "up": expected},
        "search": lambda: {"up": given, "txt": expected},
        "count": lambda: {"up": given, "txt": expected},
        "call-alaw": lambda: call("al", given, expected),
        "call-mulaw": lambda: call("ul", given, expected),
    }
    if law:
        to_samples = word.endswith("expand")
        return {law: given, "out": expected} if to_samples else {"inp": given, law: expected}
    return made[word]()
