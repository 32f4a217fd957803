#!/usr/bin/env python3
"""Compares the two sides of random calls by the library with the same by the model (model/receive.py, transmit.py, call.py).

Receiving, each period has a random kind (unknown ones too), TAF, and frame (of speech, random, or one without the four bits 1101), and some
lie in bridges. Sending, the level and DTX change, and the sender is taken anew now and then. Both laws, by companding. What is compared:
samples, octets, whether the call is quiet, and the frames of TRAU lines both ways, also with wrong bits. One line says how many periods were
equal; a call that differs is named with its seed, and the status is 1.
"""

from __future__ import annotations

import argparse
import multiprocessing
import random
import sys
from array import array
from pathlib import Path
from typing import Callable, List, NamedTuple, Optional, Sequence, Tuple

TOP = Path(__file__).resolve().parents[2]

from trau import trau_fr
from trau.rules.frame import (
    DownFrame,
    FrameKind,
    UpFrame,
    bits_of,
    kind_of_sp,
    octets_of,
    read_down,
    read_up,
    write_down,
    write_up,
)
from trau.rules.g711 import Law, compress_all, expand_all
from trau.rules.parameters import (
    WIDTHS,
    Parameters,
    bits_of_parameters,
    parameters_of_bits,
    parameters_of_values,
    values_of,
)
from trau.rules.search import FRAME
from trau.model import call as calls
from trau.model.codec import FullRateEncoder
from trau.model.libgsm import SIGNALS
from trau.model.receive import effective_frames
from trau.model.transmit import Coded, sent_frames

LAWS = {Law.A: "alaw", Law.MU: "mulaw"}
KINDS = {
    FrameKind.SPEECH: trau_fr.Kind.SPEECH,
    FrameKind.VALID_SID: trau_fr.Kind.DESCRIPTOR,
    FrameKind.UNUSABLE: trau_fr.Kind.LOST,
    FrameKind.IDLE: trau_fr.Kind.IDLE,
}
MAGIC = 13
UNKNOWN = (4, 7, 255, 256, 65536, 1 << 31, (1 << 32) - 1)
# Kinds with the numbers of periods that follow each other; -1 stands for an unknown one.
STRETCHES = (
    (0, 1),
    (0, 5),
    (0, 12),
    (2, 1),
    (2, 3),
    (2, 9),
    (2, 25),
    (2, 40),
    (1, 1),
    (1, 1),
    (1, 1),
    (1, 2),
    (3, 1),
    (-1, 1),
    (-1, 3),
)
LOUD = 12000
# Frames of loud noise between two pauses: 24 decide whether the second one has a hangover.
LOUD_FRAMES = (9, 22, 23, 23, 24, 24, 25)
LEVELS = (256, 256, 512, 100, 1, 0, -5, -32768, 2000, 32767)


class Period(NamedTuple):
    """What a receiver is given."""

    kind: int
    taf: bool
    octets: bytes


def packed(parameters: Parameters) -> bytes:
    """The 33 octets of a frame (RFC 3551), by these lines alone."""
    number = MAGIC
    for value, width in zip(values_of(parameters), WIDTHS):
        number = number << width | value
    return number.to_bytes(trau_fr.OCTETS, "big")


def unpacked(octets: bytes) -> Optional[Parameters]:
    """The frame of 33 octets, None without the four bits 1101."""
    number, values = int.from_bytes(octets, "big"), []
    for width in reversed(WIDTHS):
        values.append(number & ((1 << width) - 1))
        number >>= width
    return parameters_of_values(values[::-1]) if number == MAGIC else None


def signal(draw: random.Random) -> Sequence[int]:
    """Speech, noise or steps, or noise so loud that each of its frames counts as speech."""
    if draw.randrange(2):
        return SIGNALS[draw.choice(("speech", "speech", "noise", "steps"))](draw)
    return [draw.randrange(-LOUD, LOUD) for _ in range(trau_fr.SAMPLES * draw.choice(LOUD_FRAMES))]


def line_of(draw: random.Random, law: Law, periods: int) -> bytes:
    """Signals with pauses between them, as octets of a line."""
    samples: List[int] = []
    while len(samples) < trau_fr.SAMPLES * periods:
        samples += signal(draw)
        samples += [
            draw.randrange(-60, 60) for _ in range(trau_fr.SAMPLES * draw.choice((0, 3, 8, 30, 45)))
        ]
    return compress_all(law, samples[: trau_fr.SAMPLES * periods])


def random_octets(draw: random.Random) -> bytes:
    """A frame of random bits, which in one of three begins with any four."""
    first = draw.randrange(256) if draw.randrange(3) == 0 else MAGIC << 4 | draw.randrange(16)
    return bytes([first]) + bytes(draw.randrange(256) for _ in range(trau_fr.OCTETS - 1))


def uplink_frame(period: Period) -> UpFrame:
    """The uplink frame that a period stands for (docs/FILES.md, "Control bits")."""
    frame = unpacked(period.octets)
    data = "0" * 260 if frame is None else bits_of_parameters(frame)
    if period.kind == 3:
        return UpFrame(FrameKind.IDLE, period.taf)
    kinds = {} if frame is None else {0: FrameKind.SPEECH, 1: FrameKind.VALID_SID}
    return UpFrame(kinds.get(period.kind, FrameKind.UNUSABLE), period.taf, data=data)


def periods_of(draw: random.Random, law: Law, count: int) -> List[Period]:
    """The periods of a receiver: stretches of a kind each."""
    kinds: List[int] = []
    while len(kinds) < count:
        kind, length = draw.choice(STRETCHES)
        kinds += [draw.choice(UNKNOWN) if kind < 0 else kind for _ in range(length)]
    frames = trau_fr.Encoder().encode(trau_fr.expand(line_of(draw, law, count), LAWS[law]))
    size = trau_fr.OCTETS
    coded = [frames[size * k : size * k + size] for k in range(count)]
    octets = [random_octets(draw) if draw.randrange(12) == 0 else frame for frame in coded]
    return [Period(kind, draw.randrange(4) == 0, frame) for kind, frame in zip(kinds, octets)]


def bridges_of(draw: random.Random, count: int) -> List[calls.BridgeSpan]:
    """Bridges of random periods, apart from each other."""
    found, at = [], draw.randrange(100)
    while at < count - 40:
        found.append(calls.BridgeSpan(at, at + draw.choice((1, 2, 5, 30)), []))
        at = found[-1].end + draw.randrange(1, 120)
    return found


class Heard(NamedTuple):
    """What a period of a receiver gives: the octets of the call's line or those that are handed over, and whether the call is quiet."""

    octets: bytes
    quiet: bool


def heard_by_model(
    number: int, law: Law, frames: Sequence[UpFrame], bridges: Sequence[calls.BridgeSpan]
) -> List[Heard]:
    """What the model makes of the frames of an uplink."""
    count, uplink = len(frames), calls.Uplink([], frames, effective_frames(number, frames))
    call = calls.Call(number, law, count, uplink, b"", [], bridges)
    line, bridged = calls.out_line(call), calls.in_bridge(call)
    handed = [packed(parameters_of_bits(bits)) for bits in calls.handed(uplink, 0, count)]
    size = trau_fr.SAMPLES
    octets = [handed[k] if bridged[k] else line[size * k : size * k + size] for k in range(count)]
    return [Heard(each, frame is None) for each, frame in zip(octets, uplink.effective)]


def heard_by_library(
    number: int, law: Law, periods: Sequence[Period], bridges: Sequence[calls.BridgeSpan]
) -> List[Heard]:
    """The same by a receiver."""
    receiver, found = trau_fr.Receiver(number), []
    for k, period in enumerate(periods):
        if any(span.start <= k < span.end for span in bridges):
            octets = receiver.hand(period.octets, period.kind, period.taf)
        else:
            octets = trau_fr.compress(
                receiver.receive(period.octets, period.kind, period.taf), LAWS[law]
            )
        found.append(Heard(octets, receiver.quiet))
    return found


def line_by_model(frame: UpFrame) -> Tuple[bytes, trau_fr.Line]:
    """The 40 octets of an uplink frame, and what is read of them."""
    return octets_of(write_up(frame)), trau_fr.Line(
        packed(parameters_of_bits(frame.data)), KINDS[frame.kind], frame.taf
    )


def line_by_library(period: Period) -> Tuple[bytes, trau_fr.Line]:
    """The same by the library."""
    octets = trau_fr.write_uplink(period.octets, period.kind, period.taf)
    return octets, trau_fr.read_uplink(octets)


def spoiled(draw: random.Random, octets: bytes) -> bytes:
    """A frame of a line in which up to three bits are changed, half of them in its control bits and sync bits."""
    number = int.from_bytes(octets, "big")
    for _ in range(draw.randrange(4)):
        number ^= 1 << (draw.randrange(320) if draw.randrange(2) else 319 - draw.randrange(16, 32))
    return number.to_bytes(trau_fr.LINE_OCTETS, "big")


def uplink_by_model(octets: bytes) -> Optional[trau_fr.Line]:
    """What 40 octets of an uplink bring; None if the sync bits are wrong."""
    bits = bits_of(octets)
    frame = read_up(bits)
    # An invalid descriptor and a frame of another pattern count as a miss does: no descriptor was due.
    is_heard, kind = frame.kind in KINDS, KINDS.get(frame.kind, trau_fr.Kind.LOST)
    return (
        trau_fr.Line(packed(parameters_of_bits(frame.data)), kind, is_heard and frame.taf)
        if FRAME.fullmatch(bits)
        else None
    )


def downlink_by_model(octets: bytes) -> Optional[trau_fr.Line]:
    """The frame of 40 octets of a downlink; None if the sync bits are wrong."""
    bits = bits_of(octets)
    frame = read_down(bits)
    kind = KINDS.get(frame.kind, trau_fr.Kind.LOST)
    return (
        trau_fr.Line(packed(parameters_of_bits(frame.data)), kind, False)
        if FRAME.fullmatch(bits)
        else None
    )


def by_library(read: Callable[[bytes], trau_fr.Line], octets: bytes) -> Optional[trau_fr.Line]:
    """What the library reads; None where it refuses."""
    try:
        return read(octets)
    except trau_fr.Refused:
        return None


def reading_differs(draw: random.Random, count: int) -> Optional[int]:
    """The first of so many spoiled frames of lines that library and model don't read alike, an uplink frame and a downlink frame in turn."""
    periods = periods_of(draw, Law.A, count)
    up = [
        spoiled(draw, trau_fr.write_uplink(period.octets, period.kind, period.taf))
        for period in periods
    ]
    down = [spoiled(draw, trau_fr.write_downlink(period.octets, period.kind)) for period in periods]
    wanted = zip(map(uplink_by_model, up), map(downlink_by_model, down))
    got = zip(
        (by_library(trau_fr.read_uplink, each) for each in up),
        (by_library(trau_fr.read_downlink, each) for each in down),
    )
    return first_difference(list(wanted), list(got))


def first_difference(wanted: Sequence[object], got: Sequence[object]) -> Optional[int]:
    """The first index at which two lists differ."""
    return next((k for k, (one, other) in enumerate(zip(wanted, got)) if one != other), None)


def receiving_differs(draw: random.Random, count: int) -> Optional[int]:
    """The first period of a random call in which the receive sides differ."""
    law, number = draw.choice((Law.A, Law.MU)), draw.randrange(65536)
    periods, bridges = periods_of(draw, law, count), bridges_of(draw, count)
    frames = [uplink_frame(period) for period in periods]
    wanted = zip(heard_by_model(number, law, frames, bridges), map(line_by_model, frames))
    return first_difference(
        list(wanted),
        list(zip(heard_by_library(number, law, periods, bridges), map(line_by_library, periods))),
    )


class Settings(NamedTuple):
    """What holds for a period of a sender."""

    level: int
    dtx: bool
    anew: bool  # the sender begins in its reset state


def settings_of(draw: random.Random, count: int) -> List[Settings]:
    """Settings that change now and then."""
    found = [Settings(256, True, True)]
    while len(found) < count:
        level = draw.choice(LEVELS) if draw.randrange(20) == 0 else found[-1].level
        dtx = draw.randrange(4) > 0 if draw.randrange(25) == 0 else found[-1].dtx
        found.append(Settings(level, dtx, draw.randrange(150) == 0))
    return found


def sent_by_model(
    line: Sequence[Sequence[int]], settings: Sequence[Settings]
) -> List[Tuple[trau_fr.Sent, bytes]]:
    """What the model sends for samples, and its frames on a downlink."""
    starts = [k for k, one in enumerate(settings) if one.anew] + [len(settings)]
    sent = []
    for start, end in zip(starts, starts[1:]):
        encoder = FullRateEncoder()
        stretch = zip(line[start:end], settings[start:end])
        sent += sent_frames(
            [Coded(encoder.encode(samples), one.level, one.dtx) for samples, one in stretch]
        )
    down = [
        write_down(DownFrame(kind_of_sp(one.sp), bits_of_parameters(one.parameters)))
        for one in sent
    ]
    return [
        (trau_fr.Sent(packed(one.parameters), one.sp), octets_of(bits))
        for one, bits in zip(sent, down)
    ]


def sent_by_library(
    line: Sequence[Sequence[int]], settings: Sequence[Settings]
) -> List[Tuple[trau_fr.Sent, bytes]]:
    """The same by senders."""
    sender, found = trau_fr.Sender(), []
    for samples, one in zip(line, settings):
        sender = trau_fr.Sender() if one.anew else sender
        sent = sender.send(array("h", samples), one.level, one.dtx)
        kind = trau_fr.Kind.SPEECH if sent.speech else trau_fr.Kind.DESCRIPTOR
        octets = trau_fr.write_downlink(sent.octets, kind)
        assert trau_fr.read_downlink(octets) == trau_fr.Line(sent.octets, kind, False)
        found.append((sent, octets))
    return found


def sending_differs(draw: random.Random, count: int) -> Optional[int]:
    """The first period of a random call in which the transmit sides differ."""
    law, size = draw.choice((Law.A, Law.MU)), trau_fr.SAMPLES
    samples = expand_all(law, line_of(draw, law, count))
    line = [samples[size * k : size * k + size] for k in range(count)]
    settings = settings_of(draw, count)
    return first_difference(sent_by_model(line, settings), sent_by_library(line, settings))


SIDES: "Tuple[Tuple[str, Callable[[random.Random, int], Optional[int]]], ...]" = (
    ("receive", receiving_differs),
    ("transmit", sending_differs),
    ("lines", reading_differs),
)


def differences_of(call: Tuple[int, int]) -> List[str]:
    """What differs in the call of this seed and number of periods."""
    seed, count = call
    found = [(side, differs(random.Random(f"{side} {seed}"), count)) for side, differs in SIDES]
    return [f"differs: {side}, seed {seed}, period {k}" for side, k in found if k is not None]


def main() -> int:
    parser = argparse.ArgumentParser(
        prog="random_sides.py", description=__doc__, formatter_class=argparse.RawTextHelpFormatter
    )
    parser.add_argument(
        "--seed",
        type=int,
        default=1,
        help="of the first call; the next ones have the next seeds (default 1)",
    )
    parser.add_argument("--calls", type=int, default=40, help="(default 40)")
    parser.add_argument("--periods", type=int, default=250, help="of each call (default 250)")
    parser.add_argument("--jobs", type=int, default=2, help="processes (default 2)")
    asked = parser.parse_args()
    work = [(asked.seed + k, asked.periods) for k in range(asked.calls)]
    with multiprocessing.Pool(asked.jobs) as pool:
        differences = [line for lines in pool.imap(differences_of, work) for line in lines]
    print("\n".join(differences) or f"{asked.calls * asked.periods} periods of each side are equal")
    return 1 if differences else 0


if __name__ == "__main__":
    sys.exit(main())
