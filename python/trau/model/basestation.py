"""The base station's end of a recorded downlink: the frames that it finds, and what it sends up
(docs/commands/follow.md).

Places are counted in bits from the start of the line. What is asked for, and how long a request
waits, are this project's profile.
"""

from typing import List, NamedTuple, Sequence

from trau.rules import profile
from trau.rules.frame import DownFrame, FrameKind, UpFrame, bits_of, read_down
from trau.rules.search import FRAME_OF_DOWNLINK


class HeardFrame(NamedTuple):
    """A frame of a downlink, and the place of its first bit."""

    place: int
    frame: DownFrame


def heard_frames(octets: bytes) -> List[HeardFrame]:
    """The frames of a downlink: each at the first place that matches, 316 bits or more behind the
    one before (docs/commands/follow.md)."""
    return [
        HeardFrame(found.start(), read_down(found.group()))
        for found in FRAME_OF_DOWNLINK.finditer(bits_of(octets))
    ]


def heard_by_period(octets: bytes) -> List[List[HeardFrame]]:
    """For each whole period of the line the frames whose bit 315 it holds: two at most
    (docs/commands/follow.md)."""
    periods = len(octets) // profile.FRAME_OCTETS
    by_period: List[List[HeardFrame]] = [[] for _ in range(periods)]
    for one in heard_frames(octets[: profile.FRAME_OCTETS * periods]):
        by_period[(one.place + profile.FOUND_BITS - 1) // profile.FRAME_BITS].append(one)
    return by_period


def field_for(wanted: int, place: int) -> int:
    """The alignment field that asks for the wanted place, where the last frame is at this one
    (docs/commands/follow.md, 1)."""
    offset = (wanted - place) % profile.FRAME_BITS
    if offset == 2 * profile.SMALL_DELAY_OCTETS:
        return profile.SMALL_DELAY_FIELD
    return offset // (2 * profile.STEP_OCTETS)


def end_of_wait(by_period: Sequence[Sequence[HeardFrame]], request: int) -> int:
    """The period in which a request of this period waits no more, or the number of periods
    (docs/commands/follow.md, 2)."""
    last = by_period[request][-1].place
    frames = 0
    for period in range(request + 1, len(by_period)):
        places = [one.place for one in by_period[period]]
        frames += len(places)
        steps = [place - before for before, place in zip([last] + places, places)]
        if any(step != profile.FRAME_BITS for step in steps) or frames >= profile.FRAMES_OF_WAIT:
            return period
        last = places[-1] if places else last
    return len(by_period)


def asked_fields(by_period: Sequence[Sequence[HeardFrame]], wanted: int) -> List[int]:
    """The alignment field that is sent up in each period (docs/commands/follow.md)."""
    fields = [0] * len(by_period)
    period = 0
    while period < len(by_period):
        if by_period[period]:
            fields[period] = field_for(wanted, by_period[period][-1].place)
        period = end_of_wait(by_period, period) if fields[period] else period + 1
    return fields


def answer(heard: Sequence[HeardFrame], field: int) -> UpFrame:
    """The frame that is sent up in a period in which these were found (docs/commands/follow.md)."""
    if heard and heard[-1].frame.is_speech():
        return UpFrame(FrameKind.SPEECH, False, True, field, heard[-1].frame.data)
    return UpFrame(FrameKind.IDLE, False, True, field)


def answers(by_period: Sequence[Sequence[HeardFrame]], wanted: int) -> List[UpFrame]:
    """The frames that are sent up, one a period (docs/commands/follow.md)."""
    return [
        answer(heard, field) for heard, field in zip(by_period, asked_fields(by_period, wanted))
    ]
