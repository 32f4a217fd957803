"""The C library as a peer."""

from typing import Callable, Dict

from trau import trau_fr
from trau.trau_fr import Kind, Line

from trau.suite.operations import (
    A_TO_A,
    A_TO_MU,
    CALL,
    DESCRIPTOR,
    GOOD,
    GSM_OCTETS,
    IDLE,
    LINE_OCTETS,
    LOST,
    LOST_DUE,
    MU_TO_A,
    MU_TO_MU,
    SAMPLE_OCTETS,
    SAMPLES,
    samples_of,
    units,
)

KINDS = {
    GOOD: Kind.SPEECH,
    DESCRIPTOR: Kind.DESCRIPTOR,
    LOST: Kind.LOST,
    LOST_DUE: Kind.LOST,
    IDLE: Kind.IDLE,
}
LAWS = {
    A_TO_A: ("alaw", "alaw"),
    A_TO_MU: ("alaw", "mulaw"),
    MU_TO_A: ("mulaw", "alaw"),
    MU_TO_MU: ("mulaw", "mulaw"),
}
DIGITS = {Kind.SPEECH: GOOD, Kind.DESCRIPTOR: DESCRIPTOR, Kind.LOST: LOST, Kind.IDLE: IDLE}


def recode(octets: bytes) -> bytes:
    """Octets of a law to octets of the other; those of the same law stay."""
    return b"".join(
        (each[1:] if law == other else trau_fr.compress(trau_fr.expand(each[1:], law), other))
        for each in units(octets, 2)
        for law, other in [LAWS[chr(each[0])]]
    )


def kind(octets: bytes) -> bytes:
    """The kind of each frame."""
    frames = units(octets, GSM_OCTETS)
    return "".join(DIGITS[trau_fr.kind_of(each)] for each in frames).encode()


def received(
    turn: Callable[[trau_fr.Receiver, bytes, Kind, bool], bytes]
) -> Callable[[bytes], bytes]:
    """Periods of a receiver, each by this function of it."""

    def answer(octets: bytes) -> bytes:
        receiver = trau_fr.Receiver(CALL)
        return b"".join(
            turn(receiver, each[1:], KINDS[chr(each[0])], chr(each[0]) == LOST_DUE)
            for each in units(octets, 1 + GSM_OCTETS)
        )

    return answer


def sent(size: int, in_alaw: bool) -> Callable[[bytes], bytes]:
    """Periods of a sender."""

    def answer(octets: bytes) -> bytes:
        sender, found = trau_fr.Sender(), []
        for each in units(octets, size):
            (level,), on = samples_of(each[:2]), each[2:3] == b"1"
            if in_alaw:
                one = sender.send_line(each[3:], level, on)
            else:
                one = sender.send(each[3:], level, on)
            found.append((GOOD if one.speech else DESCRIPTOR).encode() + one.octets)
        return b"".join(found)

    return answer


def period_of(line: Line) -> bytes:
    """The period of a frame that was read."""
    if line.kind is Kind.IDLE:
        return IDLE.encode() + bytes(GSM_OCTETS)
    digit = LOST_DUE if line.taf and line.kind is Kind.LOST else DIGITS[line.kind]
    return digit.encode() + line.octets


def written(octets: bytes, is_up: bool) -> bytes:
    """Frames of a line."""
    lines = []
    for each in units(octets, 1 + GSM_OCTETS):
        period_kind, is_due = KINDS[chr(each[0])], chr(each[0]) == LOST_DUE
        lines.append(
            trau_fr.write_uplink(each[1:], period_kind, is_due)
            if is_up
            else trau_fr.write_downlink(each[1:], period_kind)
        )
    return b"".join(lines)


ANSWERS: Dict[str, Callable[[bytes], bytes]] = {
    "encode": lambda octets: trau_fr.Encoder().encode(octets),
    "decode": lambda octets: bytes(trau_fr.Decoder().decode(octets)),
    "alaw-expand": lambda octets: bytes(trau_fr.expand(octets, "alaw")),
    "alaw-compress": lambda octets: trau_fr.compress(octets, "alaw"),
    "mulaw-expand": lambda octets: bytes(trau_fr.expand(octets, "mulaw")),
    "mulaw-compress": lambda octets: trau_fr.compress(octets, "mulaw"),
    "recode": recode,
    "kind": kind,
    "conceal": received(lambda receiver, *period: receiver.hand(*period)),
    "receive": received(lambda receiver, *period: bytes(receiver.receive(*period))),
    "receive-alaw": received(lambda receiver, *period: receiver.receive_line(*period)),
    "send": sent(3 + SAMPLE_OCTETS, False),
    "send-alaw": sent(3 + SAMPLES, True),
    "write-uplink": lambda octets: written(octets, True),
    "read-uplink": lambda octets: b"".join(
        period_of(trau_fr.read_uplink(each)) for each in units(octets, LINE_OCTETS)
    ),
    "write-downlink": lambda octets: written(octets, False),
    "read-downlink": lambda octets: b"".join(
        period_of(trau_fr.read_downlink(each)) for each in units(octets, LINE_OCTETS)
    ),
}
