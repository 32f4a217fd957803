"""A whole call: what goes out on its Out and Down lines of what came in, of its settings and its
bridges.

Periods are counted from the call's opening. A call has two halves. The uplink half is made of the
call's number and its Up line alone; the downlink half needs it, the Pcm line, and what the partners
of bridges hand over. So no call has to wait for another: first all uplink halves, then all downlink
halves.
"""

from bisect import bisect_right
from itertools import accumulate
from typing import List, NamedTuple, Optional, Sequence, Tuple

from trau.rules import profile
from trau.rules.frame import (
    Bits,
    DownFrame,
    FrameKind,
    UpFrame,
    bits_of,
    kind_of_sp,
    octets_of,
    read_up,
    write_down,
)
from trau.rules.g711 import Law, compress_all, expand_all
from trau.rules.parameters import SILENCE, bits_of_parameters
from trau.rules.search import kind_of_period, yields_by_period

from trau.model.codec import FullRateDecoder, FullRateEncoder
from trau.model.downlink import Extent, MadeFrame, asked_shifts, down_bits, made_frames
from trau.model.receive import Effective, effective_frames
from trau.model.transmit import Coded, Dtx, sent_frames


class Setting(NamedTuple):
    """An accepted order on the level or on DTX (docs/OPERATORS.md, "Orders"); what is None stays as
    it was."""

    period: int  # it holds for frames that are made from this period on
    level: Optional[int] = None
    dtx: Optional[Dtx] = None


class BridgeSpan(NamedTuple):
    """A bridge of the call (docs/OPERATORS.md, "Bridges")."""

    start: int  # its first period
    end: int  # the first period that it doesn't have; it may be `start`
    items: Sequence[Bits]  # what the partner hands over in each of its periods, 260 bits each


class Uplink(NamedTuple):
    """The uplink half of a call, period by period."""

    kinds: List[FrameKind]
    frames: List[Optional[UpFrame]]
    effective: List[Effective]


class Call(NamedTuple):
    """What a call's outgoing lines are made of."""

    number: int  # 1 to 4096
    law: Law
    periods: int
    up: Uplink  # of as many periods or more
    pcm: bytes  # 160 octets a period, or more
    settings: Sequence[Setting]  # in the orders' order
    spans: Sequence[BridgeSpan]  # in order, a period or more between two


class OutgoingLines(NamedTuple):
    """What a call writes, and what its report says of it."""

    out: bytes  # 160 octets a period
    down: bytes  # 40 octets a period
    counts: List[int]  # how many periods yielded each kind, and how many frames were made
    sent: List[int]  # for each bridge how many of the frames that were handed to this call went out


# The uplink half.


def uplink(number: int, up: bytes) -> Uplink:
    """The frames and the effective frames of the whole periods of an Up line
    (docs/commands/frames.md, docs/PROFILE.md)."""
    yields = yields_by_period(bits_of(up))
    frames = [read_up(one.frame) if one and one.frame else None for one in yields]
    return Uplink(list(map(kind_of_period, yields)), frames, effective_frames(number, frames))


def handed(up: Uplink, start: int, end: int) -> List[Bits]:
    """What a call hands to its partner in the periods from `start` up to `end` (docs/OPERATORS.md,
    "Bridges")."""
    return [bits_of_parameters(parameters or SILENCE) for parameters in up.effective[start:end]]


# The Out line.


def in_bridge(call: Call) -> List[bool]:
    """For each period whether it lies in a bridge."""
    covered = [False] * call.periods
    for span in call.spans:
        covered[span.start : span.end] = [True] * (span.end - span.start)
    return covered


def runs(wanted: Sequence[bool], breaks: Sequence[bool]) -> List[Extent]:
    """The longest parts of which all is wanted and no member but the first is a
    break."""
    firsts = [
        k for k, one in enumerate(wanted) if one and (k == 0 or not wanted[k - 1] or breaks[k])
    ]
    ends = [
        k + 1
        for k, one in enumerate(wanted)
        if one and (k + 1 == len(wanted) or not wanted[k + 1] or breaks[k + 1])
    ]
    return list(map(Extent, firsts, ends))


def out_line(call: Call) -> bytes:
    """The Out line: the decoded effective frames, and idle octets in bridges and where the call is
    quiet (docs/PROFILE.md, "The Out line").

    The decoder begins at home after each idle period and at each start of a bridge, also of one
    without a period.
    """
    starts = {span.start for span in call.spans}
    plain = [
        frame is not None and not covered
        for frame, covered in zip(call.up.effective, in_bridge(call))
    ]
    blocks = [bytes([call.law.idle()]) * profile.PCM_OCTETS] * call.periods
    for first, end in runs(plain, [k in starts for k in range(call.periods)]):
        decoder = FullRateDecoder()
        for k in range(first, end):
            parameters = call.up.effective[k]
            assert parameters is not None
            blocks[k] = compress_all(call.law, decoder.decode(parameters))
    return b"".join(blocks)


# The Down line.


def in_force(call: Call) -> List[Tuple[int, Dtx]]:
    """The level and the mode of DTX of each period (docs/OPERATORS.md, "Levels and discontinuous
    transmission")."""
    levels: List[Optional[int]] = [None] * call.periods
    modes: List[Optional[Dtx]] = [None] * call.periods
    for setting in call.settings:
        if setting.period < call.periods:
            levels[setting.period] = (
                levels[setting.period] if setting.level is None else setting.level
            )
            modes[setting.period] = modes[setting.period] if setting.dtx is None else setting.dtx
    level = accumulate(
        levels, lambda old, new: old if new is None else new, initial=profile.FIRST_LEVEL
    )
    mode = accumulate(modes, lambda old, new: old if new is None else new, initial=Dtx.UPLINK)
    return list(zip(level, mode))[1:]


def asked_dtx(call: Call) -> List[bool]:
    """For each period whether the last uplink speech frame so far had DTXd 1 (docs/OPERATORS.md,
    "Orders")."""
    said = [
        frame.dtxd if frame is not None and frame.is_speech() else None
        for frame in call.up.frames[: call.periods]
    ]
    return list(accumulate(said, lambda old, new: old if new is None else new, initial=False))[1:]


def coded_frames(call: Call, made: Sequence[MadeFrame]) -> List[Coded]:
    """The frames of the encoder, from home, that are made in a row (docs/PROFILE.md, "The
    downlink")."""
    settings, asked = in_force(call), asked_dtx(call)
    encoder = FullRateEncoder()

    def coded(frame: MadeFrame) -> Coded:
        level, mode = settings[frame.period]
        octets = call.pcm[frame.start : frame.start + profile.PCM_OCTETS]
        on = mode is Dtx.ON or (mode is Dtx.UPLINK and asked[frame.period])
        return Coded(encoder.encode(expand_all(call.law, octets)), level, on)

    return [coded(frame) for frame in made]


def down_frames(call: Call, made: Sequence[MadeFrame]) -> List[DownFrame]:
    """What each frame that is made carries (docs/PROFILE.md, "The downlink")."""
    frames = [DownFrame(FrameKind.IDLE)] * len(made)
    for j, frame in enumerate(made):
        if frame.item is not None:
            frames[j] = DownFrame(
                FrameKind.SPEECH, call.spans[frame.item.span].items[frame.item.number]
            )
    is_coded = [
        frame.item is None and call.up.effective[frame.period] is not None for frame in made
    ]
    for first, end in runs(is_coded, breaks_of_coding(call, made)):
        sent = sent_frames(coded_frames(call, made[first:end]))
        frames[first:end] = [
            DownFrame(kind_of_sp(one.sp), bits_of_parameters(one.parameters)) for one in sent
        ]
    return frames


def breaks_of_coding(call: Call, made: Sequence[MadeFrame]) -> List[bool]:
    """For each frame whether a bridge started after the period of the frame before and not after
    its own (docs/PROFILE.md)."""
    starts = [span.start for span in call.spans]
    begun = [bisect_right(starts, frame.period) for frame in made]
    return [now > before for now, before in zip(begun, begun[:1] + begun[:-1])]


# The whole.


def outgoing(call: Call) -> OutgoingLines:
    """The Out and Down lines of a call, its report's counts, and how many handed frames went out of
    each bridge (docs/OPERATORS.md, "The report, line by line")."""
    made = made_frames(
        call.periods,
        asked_shifts(call.up.frames[: call.periods]),
        [Extent(span.start, span.end) for span in call.spans],
    )
    bits = [write_down(frame) for frame in down_frames(call, made)]
    carried = [frame.item.span for frame in made if frame.item is not None]
    sent = [carried.count(span) for span in range(len(call.spans))]
    down = octets_of(down_bits(made, bits, call.periods))
    counts = [*map(call.up.kinds[: call.periods].count, FrameKind), len(made)]
    return OutgoingLines(out_line(call), down, counts, sent)
