"""The calls that are open, and the lines that open, change, bridge and close them. What is accepted
is recorded as an order.
"""

from __future__ import annotations

import os
import time
from collections import Counter
from dataclasses import dataclass, field
from functools import partial
from pathlib import Path
from typing import Callable, Dict, List, Optional, Set, Tuple

from trau.rules.board import OrderRefusal
from trau.rules.lines import SIDES
from trau.rules.profile import MOST_CALLS, MOST_LEVEL, PERIODS_A_SECOND
from trau.command_line.words import Refusal
from trau.gateway.calls import NOT_YET, STILL_AFTER, LiveCall
from trau.gateway.clock import PHASES
from trau.gateway.network import Network, SocketEndpoint
from trau.gateway.recorder import FILES, LAST_WRITES, AnyRecorder, NoRecorder, Recorder
from trau.runs.run_texts import REFUSALS
from trau.gateway.settings import Settings, number, read_open, switch

SECOND, HOUR = PERIODS_A_SECOND, 3600 * PERIODS_A_SECOND  # periods
REFUSED = {
    "stranger",
    "other-port",
    "other-type",
    "odd-size",
    "empty",
    "too-long",
    "not-rtp",
    "probation",
    "far",
    "unreachable",
    "fault",
}

ORDERS_OF_OPEN = 3  # open, level, dtx
SOCKETS_OF_CALL = 6  # of both sides, each with two for RTP and one for RTCP
DESCRIPTORS_OF_CALL = SOCKETS_OF_CALL + len(SIDES)
DESCRIPTORS_OF_REST = 64  # a recording, the next one, and what else the process has
Say = Callable[[str], None]
Work = Callable[[int], object]  # that is done with the period in which a line is in force
Seen = Tuple[Optional[int], Dict[str, int]]  # when a side was heard last, and its counts then
NEVER_SEEN: Seen = (None, {})


class TooSoon(Refusal):
    """A line would end a bridge before its first period, so it waits until that is done."""

    def __init__(self) -> None:
        super().__init__("the bridge has had no period")


def refusal(reason: OrderRefusal) -> Refusal:
    """A refusal that a run has too, in its words."""
    return Refusal(REFUSALS[reason])


@dataclass
class Connection:
    """An open call with its phase, its recording, and its endpoints, by sides."""

    call: LiveCall
    phase: int
    recorder: AnyRecorder
    endpoints: Dict[str, SocketEndpoint] = field(default_factory=dict)
    noted: Dict[str, int] = field(default_factory=dict)  # counts up to the last events
    seen: Dict[str, Seen] = field(default_factory=dict)  # by sides

    @property
    def has_files(self) -> bool:
        """Whether its lines are written, if it is recorded."""
        return not self.recorder.ending_of(self.call.number)

    def take_events(self) -> str:
        """What the network did since this was called last: counts that rose."""
        counts = {
            f"{side}-{name}": count
            for side, stream in self.call.sides.items()
            for name, count in stream.faults().items()
        }
        before, self.noted = self.noted, counts
        if counts == before:  # as mostly
            return ""
        risen = {
            name: count - before.get(name, 0)
            for name, count in counts.items()
            if count > before.get(name, 0)
        }
        return " ".join(
            f"{name} {count}" for name, count in sorted(risen.items())
        ) + self.call.faults(risen)

    def keep_counts(self, side: str) -> None:
        """Keeps the counts of a side as they are when it was heard, to the second."""
        incoming = self.call.sides[side].incoming
        heard, _ = self.seen.get(side, NEVER_SEEN)
        if heard != incoming.heard:
            self.seen[side] = incoming.heard, dict(incoming.counts)

    def most_refused(self, side: str) -> str:
        """What was refused most since a side was heard; empty if nothing was."""
        _, counts = self.seen.get(side, NEVER_SEEN)
        risen = self.call.sides[side].incoming.counts - Counter(counts)
        return next(
            (f": {reason} {count}" for reason, count in risen.most_common() if reason in REFUSED),
            "",
        )


class Switchboard:
    """Executes lines, and processes the calls of a phase."""

    def __init__(self, network: Network, recorder: Recorder, most_calls: int, say: Say) -> None:
        self.network, self.most_calls, self.say = network, most_calls, say
        self.recorders, self.unrecorded = [recorder], NoRecorder()  # new calls go to the last one
        self.ended: List[Recorder] = []  # whose threads may still write
        self.most_descriptors: Optional[int] = None  # that the process may have
        self.is_whole = True  # whether all recordings are that are forgotten by now
        self.folder = recorder.folder  # that the operator named last
        self.connections: Dict[int, Connection] = {}
        self.is_running = False  # whether the clock turns, so that nothing may wait for the disk
        self.still: Set[str] = set()
        self.verbs: Dict[str, Callable[[List[str], int], None]] = {
            "open": self.open,
            "close": self.close,
            "level": self.level,
            "dtx": self.dtx,
            "bridge": self.bridge,
            "unbridge": self.unbridge,
            "counts": self.counts,
            "record": self.record,
        }

    def execute(self, text: str, period: int) -> None:
        """Executes a line at the start of a period. Raises Refusal (TooSoon: it waits for the next
        one), or OSError if a port or a folder can't be had; nothing has changed then."""
        verb, *words = text.split()
        wanted = {
            "close": 1,
            "unbridge": 1,
            "counts": 1,
            "record": 1,
            "level": 2,
            "dtx": 2,
            "bridge": 2,
        }.get(verb)
        if verb not in self.verbs or wanted not in (None, len(words)):
            raise Refusal(
                "it isn't open, close, level, dtx, bridge, unbridge, counts or record with its words"
            )
        self.verbs[verb](words, period)

    def hold_to_room(self, recorder: AnyRecorder, orders: int = 1, opens: int = 0) -> None:
        """Refuses orders that a run of this recording wouldn't take."""
        if not recorder.has_room(orders, opens):
            raise Refusal("the recording has as many orders as a run takes")

    def hold_to_descriptors(self) -> None:
        """Refuses another call, and a recording for it, if the process may not have the
        descriptors."""
        recorders = self.recorders + self.ended
        used = SOCKETS_OF_CALL * len(self.connections) + sum(each.files for each in recorders[1:])
        used += recorders[0].files - FILES  # as those of one recording are among the rest
        needed = used + DESCRIPTORS_OF_CALL + DESCRIPTORS_OF_REST
        if self.most_descriptors is not None and needed > self.most_descriptors:
            raise Refusal(f"the process may have {self.most_descriptors:,} descriptors alone")

    def connection(self, word: str) -> Connection:
        """The open call of a number."""
        call = number(word, 1, MOST_CALLS, "call")
        if call not in self.connections:
            raise refusal(OrderRefusal.NOT_OPEN)
        return self.connections[call]

    def open(self, words: List[str], period: int) -> None:
        """Opens a call, in the state that the orders after `open` record."""
        settings = read_open(words)
        if settings.number in self.connections:
            raise refusal(OrderRefusal.ALREADY_OPEN)
        if settings.record and self.recorders[-1].has_ended:
            raise Refusal(self.recorders[-1].ending)
        if len(self.connections) >= self.most_calls:
            raise Refusal(f"{self.most_calls} calls are open")
        self.hold_to_descriptors()
        call = self.call_of(settings, period)
        connection = self.connected(call, settings)
        try:
            recorder = connection.recorder = self.recorder_of(settings, period)
            self.begin_call(connection)
        except (Refusal, OSError):
            self.disconnect(connection)
            raise
        self.connections[call.number] = connection
        recorder.open(call.number)
        orders = (
            f"open {call.number}{' mulaw' if call.law == 'mulaw' else ''}",
            f"level {call.number} {call.level}",
            f"dtx {call.number} {'on' if call.dtx else 'off'}",
        )
        self.when_done(period, *map(recorder.planned, orders))
        if recorder.has_ended:
            self.say(f"call {call.number} isn't recorded: {recorder.ending}")

    def call_of(self, settings: Settings, period: int) -> LiveCall:
        """The call that is to be opened."""
        return LiveCall(settings, period)

    # What follows is of the host that processes the calls: the loop in C (pump.py), or calls in Python, as tests have them.

    @property
    def is_ready(self) -> bool:
        """Whether another line may be executed."""
        return True

    def begin_call(self, connection: Connection) -> None:
        """The call begins, with its recorder."""

    def change(self, connection: Connection) -> None:
        """The level or DTX of a call has changed."""

    def join(self, one: Connection, other: Connection) -> None:
        """Two calls are bridged."""

    def separate(self, connection: Connection) -> None:
        """The bridge of a call is over."""

    def move(self, connection: Connection, phase: int) -> None:
        """Processes a call in this phase from now on."""
        connection.phase = phase

    def end_call(self, connection: Connection) -> None:
        """The call ends."""

    def ask(self, connection: Connection) -> None:
        """The counts of a call are to be those of now."""

    def process(self, phase: int, period: int, behind: int) -> None:
        """The tick of the calls of a phase: all that came is read, all packets leave, and then the
        lines are written."""

    def give_up(self, periods: int, period: int) -> None:
        """The clock has given up time, in all calls alike. What came in it is old, and dropped."""

    def when_done(self, period: int, *works: Work) -> None:
        """Does these, each with the period in which the line is in force."""
        for work in works:
            work(period)

    def recorder_of(self, settings: Settings, period: int) -> AnyRecorder:
        """What records a call. If its number was used, or the recording is full, the next is begun."""
        recorder = self.recorders[-1]
        if settings.record is False:
            return self.unrecorded
        has_room = recorder.has_room(ORDERS_OF_OPEN, 1)
        if recorder.has_ended or has_room and settings.number not in recorder.used:
            return recorder
        begun = self.begin_recording(self.folder, period, is_next=True)
        begun.say_begun(period)
        return begun

    def connected(self, call: LiveCall, settings: Settings) -> Connection:
        """The call with its two sockets, in the phase with the fewest calls; it isn't recorded yet."""
        phase = self.emptiest_phase(list(self.connections.values()))
        connection = Connection(call, phase, self.unrecorded)
        try:
            for side, stream in call.sides.items():
                connection.endpoints[side] = self.network.open(
                    settings.sides[side], settings.is_strict, stream.incoming, phase
                )
        except OSError:
            self.disconnect(connection)
            raise
        return connection

    def emptiest_phase(self, connections: List[Connection]) -> int:
        """The phase that has the fewest of these calls."""
        phases = [connection.phase for connection in connections]
        return min(range(PHASES), key=phases.count)

    def disconnect(self, connection: Connection) -> None:
        """Closes the sockets of a call."""
        for endpoint in connection.endpoints.values():
            self.network.close(endpoint, connection.phase)

    def close(self, words: List[str], period: int) -> None:
        """Closes a call, and its bridge before."""
        connection = self.connection(words[0])
        works: List[Work] = []
        if connection.call.partner:
            works.append(self.part(connection.call, period))
            self.separate(connection)
        self.end_call(connection)
        del self.connections[connection.call.number]
        order = connection.recorder.planned(f"close {connection.call.number}")
        self.when_done(period, *works, order, lambda at: self.closed(connection, at))

    def closed(self, connection: Connection, period: int) -> None:
        """A call was closed."""
        self.note(connection, period)
        connection.recorder.close(connection.call.number)
        self.disconnect(connection)
        self.end_old(period)
        self.still -= {f"call {connection.call.number} {side}" for side in connection.call.sides}
        self.say(connection.call.summary(f"to {period}"))

    def level(self, words: List[str], period: int) -> None:
        """Changes the level of a call."""
        connection, level = self.connection(words[0]), number(words[1], 0, MOST_LEVEL, "level")
        self.hold_to_room(connection.recorder)
        connection.call.level = level
        self.change(connection)
        order = f"level {connection.call.number} {level}"
        self.when_done(period, connection.recorder.planned(order))

    def dtx(self, words: List[str], period: int) -> None:
        """Turns DTX of a call on or off."""
        connection, is_on = self.connection(words[0]), switch(words[1])
        self.hold_to_room(connection.recorder)
        connection.call.dtx = is_on
        self.change(connection)
        order = f"dtx {connection.call.number} {words[1]}"
        self.when_done(period, connection.recorder.planned(order))

    def bridge(self, words: List[str], period: int) -> None:
        """Bridges two calls; both are in one phase from now on, the one with the fewest other
        calls."""
        one, other = self.connection(words[0]), self.connection(words[1])
        if one is other:
            raise refusal(OrderRefusal.SAME_CALL)
        if one.call.partner or other.call.partner:
            raise refusal(OrderRefusal.BRIDGED)
        if period <= max(one.call.parted, other.call.parted):
            raise refusal(OrderRefusal.DRAINING)
        if one.recorder is not other.recorder or one.has_files != other.has_files:
            raise Refusal("the calls aren't in one recording")
        self.hold_to_room(one.recorder)
        begun = self.pair(one.call, other.call)
        others = [each for each in self.connections.values() if each not in (one, other)]
        phase = self.emptiest_phase(others)
        for connection in (one, other):
            self.move(connection, phase)
        self.join(one, other)
        order = f"bridge {one.call.number} {other.call.number}"
        self.when_done(period, begun, one.recorder.planned(order))

    def unbridge(self, words: List[str], period: int) -> None:
        """Ends a bridge."""
        connection = self.connection(words[0])
        if connection.call.partner is None:
            raise refusal(OrderRefusal.NOT_BRIDGED)
        self.hold_to_room(connection.recorder)
        parted = self.part(connection.call, period)
        others = [each for each in self.connections.values() if each is not connection]
        self.move(connection, self.emptiest_phase(others))
        self.separate(connection)
        order = f"unbridge {connection.call.number}"
        self.when_done(period, parted, connection.recorder.planned(order))

    def pair(self, one: LiveCall, other: LiveCall) -> Work:
        """Begins the bridge of two calls; the result takes the period in which it began."""
        one.partner, other.partner = other, one
        one.bridged = other.bridged = NOT_YET

        def begun(period: int) -> None:
            one.bridged = other.bridged = period

        return begun

    def part(self, one: LiveCall, period: int) -> Work:
        """Ends the bridge of a call, which has at least one period; the result takes the period in
        which it ended."""
        assert one.partner
        if one.bridged >= period:
            raise TooSoon
        both = one, one.partner
        for call in both:
            call.partner, call.parted = None, NOT_YET

        def parted(at: int) -> None:
            for call in both:
                call.parted = at

        return parted

    def counts(self, words: List[str], period: int) -> None:
        """Says the counts of a call up to now. It is no order."""
        connection = self.connection(words[0])
        self.ask(connection)
        self.when_done(period, lambda at: self.say_counts(connection, at))

    def say_counts(self, connection: Connection, period: int) -> None:
        """Says the counts of a call up to a period."""
        ending = connection.recorder.ending_of(connection.call.number)
        summary = connection.call.summary(f"at {period}")
        self.say(f"{summary}, not recorded: {ending}" if ending else summary)

    def record(self, words: List[str], period: int) -> None:
        """Begins a recording in a new folder, for calls that are opened from now on."""
        if "\0" in words[0]:
            raise Refusal("a folder's name has no NUL")
        try:
            os.fsencode(words[0])
        except UnicodeEncodeError:
            raise Refusal("the system's encoding has no such name") from None
        self.folder = self.begin_recording(Path(words[0]), period).folder

    def begin_recording(self, folder: Path, period: int, is_next: bool = False) -> Recorder:
        """Begins a recording for calls that are opened from now on."""
        recorder = Recorder(folder, self.recorders[-1].every, self.say, period, is_next)
        if self.is_running:
            recorder.make_soon()
        else:
            recorder.make()
        recorder.time(period)
        self.recorders.append(recorder)
        self.end_old(period)
        return recorder

    def end_old(self, period: int) -> None:
        """Ends the recordings of which no call is open, but the last one."""
        for recorder in [each for each in self.recorders[:-1] if not each.held]:
            self.end_recording(recorder, period)

    def forget_written(self) -> None:
        """Forgets the ended recordings of which all is written, but whether they are whole."""
        for recorder in [each for each in self.ended if not each.writer.is_alive()]:
            self.is_whole = self.is_whole and recorder.is_whole
            self.ended.remove(recorder)

    def end_recording(self, recorder: Recorder, period: Optional[int]) -> None:
        """Ends a recording; what is still to be written is written by its thread."""
        self.recorders.remove(recorder)
        self.ended.append(recorder)
        recorder.end(period)

    def say_given_up(self, periods: int, period: int) -> None:
        """Says and records that the clock has given up time."""
        self.say(f"given up {periods} periods at {period}")
        for recorder in self.recorders:
            recorder.give_up(period, periods)

    def look_after(self, period: int) -> None:
        """Looks after each call and the disk once a second, and writes the time once an hour."""
        numbers = range(period % SECOND, MOST_CALLS + 1, SECOND)
        for connection in filter(None, map(self.connections.get, numbers)):
            self.ask(connection)
            self.when_done(period, partial(self.look_after_call, connection))
        if period % SECOND == 0:
            for recorder in self.recorders + self.ended:
                recorder.look_after(period)
            self.forget_written()
        if period % HOUR == 0:
            for recorder in self.recorders:
                recorder.time(period)

    def look_after_call(self, connection: Connection, period: int) -> None:
        """Records what its network did, and looks after its sides."""
        self.note(connection, period)
        for side in connection.call.sides:
            self.look_after_side(connection, side, period)

    def note(self, connection: Connection, period: int) -> None:
        """Records what the network did since the last time."""
        for endpoint in connection.endpoints.values():
            endpoint.count_losses()
        if events := connection.take_events():
            connection.recorder.event(period, f"call {connection.call.number} {events}")

    def look_after_side(self, connection: Connection, side: str, period: int) -> None:
        """Answers RTCP; says that a side hears nothing for five seconds, with what was refused most
        in them, and that it is heard again."""
        incoming, _, reports = connection.call.sides[side]
        connection.endpoints[side].report(reports, period)
        connection.keep_counts(side)
        name = f"call {connection.call.number} {side}"
        is_still = (
            period - (connection.call.start if incoming.heard is None else incoming.heard)
            >= STILL_AFTER
        )
        if is_still and name not in self.still:
            self.still.add(name)
            self.say(f"{name} hears nothing at {period}{connection.most_refused(side)}")
        elif not is_still and name in self.still:
            self.still.remove(name)
            self.say(f"{name} hears again at {period}")

    def end(self, period: int) -> int:
        """Closes all calls; the result is the period at which that is. If a bridge began in it, that
        is its period, and they are closed in the next one."""
        if any(
            each.call.partner and each.call.bridged >= period for each in self.connections.values()
        ):
            for phase in range(PHASES):
                self.process(phase, period, 0)
            period += 1
        for call in list(self.connections):
            self.close([str(call)], period)
        return period

    def end_recordings(self, period: Optional[int]) -> bool:
        """Ends all recordings, and waits some seconds for the disk; the result is whether all are
        whole. No period: not all calls are closed."""
        for recorder in list(self.recorders):
            self.end_recording(recorder, period)
        until = time.monotonic() + LAST_WRITES
        for recorder in self.ended:
            recorder.finish(until)
        return self.is_whole and all(recorder.is_whole for recorder in self.ended)
