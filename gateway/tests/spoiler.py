"""A sender of RTP with the faults of a network: loss, jitter, doubled and swapped packets, a clock that isn't 8000 Hz. The same seed gives
the same packets at the same times."""

from __future__ import annotations

import random
import struct
from dataclasses import dataclass
from typing import Callable, List, Sequence, Tuple

SECOND = 1_000_000_000
SAMPLES = 160
SWAPPED_BY = 0.03  # seconds by which a swapped packet comes late

Sent = Tuple[int, bytes]  # nanoseconds, datagram


@dataclass(frozen=True)
class Faults:
    """The shares of packets that are lost, doubled and swapped, the greatest jitter in seconds, and the sender's rate."""

    loss: float = 0.0
    jitter: float = 0.0
    doubled: float = 0.0
    swapped: float = 0.0
    rate: float = 8000.0


CLEAN = Faults()


def header(kind: int, number: int, stamp: int, source: int) -> bytes:
    """The first 12 octets of a packet."""
    return struct.pack(">BBHII", 0x80, kind, number & 0xFFFF, stamp & 0xFFFFFFFF, source)


def schedule(
    contents: Sequence[bytes],
    kind: int,
    seed: int,
    faults: Faults = CLEAN,
    start: float = 0.0,
    is_sent: Callable[[int], bool] = lambda period: True,
) -> List[Sent]:
    """The packets of one period each, in the order of their times. Periods that aren't sent take no number."""
    draw = random.Random(seed)
    source, number, stamp = draw.getrandbits(32), draw.getrandbits(16), draw.getrandbits(32)
    sent: List[Sent] = []
    for period, content in enumerate(contents):
        if not is_sent(period):
            continue
        packet = header(kind, number, stamp + SAMPLES * period, source) + content
        number += 1
        if draw.random() < faults.loss:
            continue
        at = start + period * SAMPLES / faults.rate + draw.random() * faults.jitter
        at += SWAPPED_BY if draw.random() < faults.swapped else 0
        sent.append((int(at * SECOND), packet))
        if draw.random() < faults.doubled:
            sent.append((int((at + draw.random() * SWAPPED_BY) * SECOND), packet))
    return sorted(sent, key=lambda each: each[0])
