"""The lines of a run's calls beside its report: what each period of an uplink yields and gives to
be heard, and the frames of the downlink. If the lines don't give what the report says, they are of
another run."""

from __future__ import annotations

import enum
import math
import re
from dataclasses import dataclass, field
from pathlib import Path
from typing import Dict, Iterator, List, NamedTuple, Optional, Sequence

from trau.command_line.files import read_part
from trau.command_line.side_by_side import results_of
from trau.command_line.words import Refusal
from trau.rules.frame import bits_of, data_of
from trau.rules.g711 import Law
from trau.rules.lines import OCTETS_OF_SIDE, OUTGOING, SIDES, UP, name_of
from trau.rules.orders import Order
from trau.rules.parameters import SILENCE, bits_of_parameters
from trau.rules.profile import DOWN_IDLE, DOWN_SPEECH, FRAME_BITS, FRAME_OCTETS, PCM_OCTETS
from trau.rules.report import Reply, Report, ReportedBridge, ReportedCall
from trau.runs import run_texts
from trau.runs.octet_columns import FrameColumns, joined, table
from trau.runs.uplink_periods import (
    FRAME_KINDS,
    IDLE,
    SPEECH,
    VALID_SID,
    Asking,
    by_what_came_before,
    searched,
)

# The uplink


class Heard(enum.Enum):
    """What a period of an uplink gives to be heard, or handed over."""

    SPEECH = "speech"
    LOST = "lost"  # made instead of lost speech
    NOISE = "noise"  # comfort noise, in a pause
    QUIET = "quiet"  # nothing: before the first frame that can be used, and after an idle frame; of a gateway's call also until its peer begins


HEARDS = tuple(Heard)
SPEECH_HEARD, LOST_HEARD, NOISE_HEARD, QUIET_HEARD = range(
    len(HEARDS)
)  # codes: the places in their order
CHANGED = 0x80
HEARD_ITSELF = {SPEECH: SPEECH_HEARD, VALID_SID: NOISE_HEARD, IDLE: QUIET_HEARD}
HEARD_OF_CODE = table(
    lambda code: code & 3 if code & CHANGED else HEARD_ITSELF.get(code, QUIET_HEARD)
)
HEARD_BEHIND = [256 * bytes([CHANGED | code]) for code in (LOST_HEARD, NOISE_HEARD, QUIET_HEARD)]


def heard_codes(kinds: bytes) -> bytes:
    """The codes of what each period gives, by the codes of the kinds."""
    return by_what_came_before(kinds, *HEARD_BEHIND).translate(HEARD_OF_CODE)


class Stretch(NamedTuple):
    """Periods in a row that give the same: the first, and how many."""

    start: int
    length: int

    def end(self) -> int:
        """The period after the last one."""
        return self.start + self.length


def stretches(heard: bytes, wanted: Heard) -> List[Stretch]:
    """The stretches of a value's code, in their order."""
    code = re.escape(bytes([HEARDS.index(wanted)]))
    return [Stretch(found.start(), len(found.group())) for found in re.finditer(code + b"+", heard)]


def longest(found: Sequence[Stretch]) -> Optional[Stretch]:
    """The first of the longest stretches, if there is any."""
    return max(found, key=lambda stretch: stretch.length) if found else None


# The downlink


@dataclass(frozen=True)
class MadeFrames:
    """Frames in a row made for a downlink: the octet of the Pcm line at which the first begins, how
    many there are, each 160 octets after the one before, whether a bridge handed them over, and the
    shift, in octets, that the last one adopts."""

    octet: int
    count: int
    handed: bool
    shift: int

    def period(self) -> int:
        """The period, counted from the call's opening, that brings the first frame's last octet."""
        return (self.octet + PCM_OCTETS - 1) // PCM_OCTETS

    def place(self) -> int:
        """The first frame's first bit on the Down line, which begins with 320 ones; an octet of the
        Pcm line is two bits."""
        return FRAME_BITS + 2 * self.octet

    def behind(self) -> int:
        """The octet of the Pcm line at which the next frame begins."""
        return self.octet + PCM_OCTETS * self.count + self.shift


class Handing:
    """The frames of a call that bridges still have to hand over."""

    def __init__(self, call: int, start: int, bridges: Sequence[ReportedBridge]) -> None:
        mine = [bridge for bridge in bridges if call in bridge.calls]
        self.starts = [bridge.start - start for bridge in mine]
        self.left = [bridge.end - bridge.start for bridge in mine]

    def bridge_at(self, period: int) -> Optional[int]:
        """The bridge that hands over the frame of a period, if any."""
        return next(
            (at for at, start in enumerate(self.starts) if period >= start and self.left[at] > 0),
            None,
        )

    def next_start(self, period: int) -> float:
        """The first period after this one at which a bridge begins."""
        return min((start for start in self.starts if start > period), default=math.inf)


def frames_made(
    call: int, start: int, periods: int, asking: Sequence[Asking], bridges: Sequence[ReportedBridge]
) -> Iterator[MadeFrames]:
    """The frames that are made for a call's downlink. Frames handed over in a bridge adopt no
    shift."""
    handing = Handing(call, start, bridges)
    waiting = iter([*asking, Asking(periods, 0)])
    ask = next(waiting)
    octet, asked = 0, 0
    while octet + PCM_OCTETS <= PCM_OCTETS * periods:
        period = (octet + PCM_OCTETS - 1) // PCM_OCTETS
        while ask.period <= period:
            asked, ask = ask.octets, next(waiting)
        count = int(min(periods, handing.next_start(period))) - period
        bridge = handing.bridge_at(period)
        if bridge is not None:
            count = min(count, handing.left[bridge])
            handing.left[bridge] -= count
            made = MadeFrames(octet, count, True, 0)
        elif asked:
            made, asked = MadeFrames(octet, 1, False, asked), 0
        else:
            made = MadeFrames(octet, min(count, ask.period - period), False, 0)
        yield made
        octet = made.behind()


class DownlinkKind(enum.Enum):
    """What a frame of a downlink is."""

    SPEECH = "speech"
    VALID_SID = "silence descriptor"
    IDLE = "idle"
    HANDED = "handed over in a bridge"
    OTHER = "another frame"


SENTS = tuple(DownlinkKind)
NOTHING_SENT = len(
    SENTS
)  # the code of a period in which no frame begins; the others have their places in the order
FRAME_WITHOUT_TIME = FRAME_BITS - 4

# A downlink's frame has C1 to C5 in its octet 2, and C16 (SP) in its octet 38.
DOWN_KINDS = {int(DOWN_IDLE, 2): DownlinkKind.IDLE, int(DOWN_SPEECH, 2): DownlinkKind.SPEECH}
DOWN_KIND = table(lambda octet: SENTS.index(DOWN_KINDS.get(octet >> 2 & 31, DownlinkKind.OTHER)))
SPEECH_PAUSE = table(lambda octet: 0 if octet & 2 else 0x10)
DOWN_CODE = table(
    lambda marks: SENTS.index(DownlinkKind.VALID_SID)
    if marks == 0x10 | SENTS.index(DownlinkKind.SPEECH)
    else min(marks & 7, NOTHING_SENT)
)
HANDED_CODE = table(
    lambda code: SENTS.index(DownlinkKind.HANDED)
    if code in (SENTS.index(DownlinkKind.SPEECH), SENTS.index(DownlinkKind.VALID_SID))
    else code
)


def sent(made: MadeFrames, octets: bytes) -> bytes:
    """The codes of frames on a Down line, of those whose control bits it has."""
    room = (8 * len(octets) - made.place() - FRAME_WITHOUT_TIME) // FRAME_BITS + 1
    frames = FrameColumns(octets, made.place(), min(made.count, room))
    if frames.count <= 0:
        return b""
    codes = joined(
        frames.column(2).translate(DOWN_KIND), frames.column(38).translate(SPEECH_PAUSE)
    ).translate(DOWN_CODE)
    return codes.translate(HANDED_CODE) if made.handed else codes


# A run

SILENT_DATA = bits_of_parameters(SILENCE)  # D1 to D260


@dataclass
class RecordedCall:
    """A call as the report describes it and as its uplink is searched. Only the orders show its
    law."""

    number: int
    span: ReportedCall
    law: Law = Law.A
    failed: List[str] = field(default_factory=list)
    kinds: bytes = b""  # the code of what each period yielded
    asking: List[Asking] = field(default_factory=list)
    made: List[MadeFrames] = field(default_factory=list)
    is_primed: bool = (
        False  # its first frame is one of silence, as a gateway makes it if the peer hasn't begun
    )

    def periods(self) -> int:
        """How many periods it has."""
        return self.span.end - self.span.start

    def octets(self, folder: Path, side: str, first: int = 0, last: Optional[int] = None) -> bytes:
        """The octets of a line of this call, from a period of the call on to another, those of its
        own periods at most."""
        last = self.periods() if last is None else min(last, self.periods())
        octets = OCTETS_OF_SIDE[side]
        if last <= first:
            return b""
        return read_part(
            folder / name_of(self.number, side), first * octets, (last - first) * octets
        )

    def counts(self) -> Dict[str, int]:
        """How many periods yielded what, and how many frames were made, by the report's words."""
        yielded = {kind.value: self.kinds.count(code) for code, kind in enumerate(FRAME_KINDS)}
        return {**yielded, "made": sum(made.count for made in self.made)}

    def take(self, octets: bytes, bridges: Sequence[ReportedBridge]) -> None:
        """Takes the octets of the uplink over the call's periods."""
        self.kinds, self.asking = searched(octets)
        self.is_primed = (
            self.kinds[:1] == bytes([SPEECH])
            and data_of(bits_of(octets[:FRAME_OCTETS])) == SILENT_DATA
        )
        self.made = list(
            frames_made(self.number, self.span.start, self.periods(), self.asking, bridges)
        )

    def search(self, folder: Path, bridges: Sequence[ReportedBridge]) -> RecordedCall:
        """The call itself, once it has searched the uplink over its periods, and held the report to
        it."""
        name = folder / name_of(self.number, UP)
        octets = self.octets(folder, UP)
        if len(octets) < self.periods() * FRAME_OCTETS:
            raise Refusal(
                f"{name}: has {len(octets)} octets, fewer than {self.periods()} periods need"
            )
        self.take(octets, bridges)
        for what, count in self.counts().items():
            if self.span.counts[what] != count:
                raise Refusal(
                    f"{name}: gives {what} {count}, and the report has {self.span.counts[what]}: it is of another run"
                )
        self.check_outgoing(folder)
        return self

    def check_outgoing(self, folder: Path) -> None:
        """Refuses an outgoing line that hasn't the octets of the call's periods. One that failed
        may have fewer; one of a call without periods is an older one."""
        for side in OUTGOING:
            name, wanted = (
                folder / name_of(self.number, side),
                self.periods() * OCTETS_OF_SIDE[side],
            )
            if (
                wanted
                and side not in self.failed
                and name.is_file()
                and name.stat().st_size != wanted
            ):
                raise Refusal(
                    f"{name}: has {name.stat().st_size} octets, and {self.periods()} periods give {wanted}: it is of another run, or of a"
                    " part of this one"
                )

    def shifts(self) -> Iterator[Asking]:
        """The periods of the run in which the downlink's timing shifts, and by how many octets."""
        return (
            Asking(self.span.start + made.period(), made.shift) for made in self.made if made.shift
        )

    def brought(self) -> bytes:
        """The codes of what the base station sent in each period. A gateway's frame of silence
        counts as idle: nothing is lost after it."""
        return bytes([IDLE]) + self.kinds[1:] if self.is_primed else self.kinds

    def heard(self) -> bytes:
        """The codes of what each period gives to be heard."""
        return heard_codes(self.brought())


def calls_of(report: Report, numbers: Optional[Sequence[int]] = None) -> Iterator[RecordedCall]:
    """The calls of a report, or those of them with these numbers, whose uplinks aren't searched
    yet."""
    for number, span in report.calls.items():
        if numbers is None or number in numbers:
            sides = [SIDES[failed.side] for failed in report.failed if failed.call == number]
            yield RecordedCall(number, span, failed=sides)


def bridges_of(call: RecordedCall, bridges: Sequence[ReportedBridge]) -> List[ReportedBridge]:
    """The bridges of a call."""
    return [bridge for bridge in bridges if call.number in bridge.calls]


def read_calls(
    folder: Path, report: Report, numbers: Optional[Sequence[int]] = None, processes: int = 1
) -> Dict[int, RecordedCall]:
    """The calls of a report, or those of them with these numbers, and what their uplinks in a
    folder give."""
    calls = list(calls_of(report, numbers))
    works = [(call, folder, bridges_of(call, report.bridges)) for call in calls]
    weight = FRAME_OCTETS * sum(call.periods() for call in calls)
    return {
        call.number: call
        for call in results_of(processes, "searching uplinks", RecordedCall.search, works, weight)
    }


class FrozenShift(NamedTuple):
    """A shift that frames in a row ask for while a bridge keeps the timing as it is: the first
    period, and how many ask."""

    period: int
    octets: int
    times: int


def asked_while_frozen(call: RecordedCall, bridges: Sequence[ReportedBridge]) -> List[FrozenShift]:
    """The shifts of a call's downlink that are asked for in its bridges."""
    spans = [range(bridge.start, bridge.end) for bridge in bridges if call.number in bridge.calls]
    found: List[FrozenShift] = []
    for asking in call.asking:
        period = call.span.start + asking.period
        if not any(period in span for span in spans):
            continue
        last = found[-1] if found else None
        if last and (last.octets, last.period + last.times) == (asking.octets, period):
            found[-1] = last._replace(times=last.times + 1)
        else:
            found.append(FrozenShift(period, asking.octets, 1))
    return found


# A run as a whole


class Answered(NamedTuple):
    """An order that was executed, with its reply."""

    order: Order
    reply: Reply

    def told(self) -> str:
        """The order and its answer, in words."""
        answer = (
            ""
            if self.reply.refusal is None
            else f" - refused: {run_texts.REFUSALS[self.reply.refusal]}"
        )
        return f"order {self.order.number}: {self.order.words}{answer}"


@dataclass
class Run:
    """A run: its executed orders, and its bridges and calls, those that aren't left out."""

    orders: List[Answered]
    bridges: List[ReportedBridge]
    calls: List[RecordedCall]
    folder: Path

    @staticmethod
    def read(
        folder: Path,
        orders: Path,
        report_name: Path,
        numbers: Optional[Sequence[int]] = None,
        processes: int = 1,
    ) -> Run:
        """Reads a run, and holds its report to its orders, and its uplinks to its report."""
        report = run_texts.read_report(report_name)
        if not report.calls:
            raise Refusal(f"{report_name}: is of a run without calls")
        given = run_texts.read_orders(orders)
        run_texts.hold_to_orders(report_name, report, given, run_texts.periods_told(report, given))
        run_texts.hold_numbers(report_name, report, numbers)
        calls = list(read_calls(folder, report, numbers, processes).values())
        shown = {call.number for call in calls}
        answered = [Answered(order, reply) for order, reply in zip(given, report.replies)]
        laws = run_texts.laws_of(report, given)
        for call in calls:
            call.law = laws[call.number]
        return Run(
            [each for each in answered if shown & set(each.order.calls)],
            [bridge for bridge in report.bridges if shown & set(bridge.calls)],
            calls,
            folder,
        )

    def start(self) -> int:
        """The first period in which a call is open."""
        return min(call.span.start for call in self.calls)

    def end(self) -> int:
        """The period at which the last call ends."""
        return max(call.span.end for call in self.calls)
