"""The gateway's loop in C (gateway/pump.c): calls are processed on a thread that never waits for Python.

Python keeps lines, settings, recordings, RTCP and counts. A line becomes a command; the loop executes
the commands of a batch at the start of one period, and says which. Its answers and the records come
in one order, so an order is recorded before the first octet of its period, as without the loop.
"""

from __future__ import annotations

import contextlib
import ctypes
import os
import select
import socket
import struct
from collections import deque
from pathlib import Path
from typing import Any, Callable, Deque, Dict, Iterator, List, Optional, Tuple, Type

from trau.command_line.words import Refusal
from trau.gateway.calls import LiveCall
from trau.gateway.clock import Clock, Turn
from trau.gateway.incoming import Incoming
from trau.gateway.network import Network, SocketEndpoint
from trau.gateway.recorder import MOST_WAITING, Recorder
from trau.gateway.rtcp import Reception, signed
from trau.gateway.settings import Settings
from trau.gateway.switchboard import Connection, Say, Switchboard, Work
from trau.rules.lines import OCTETS_OF_SIDE, SIDES
from trau.rules.profile import PERIODS_A_SECOND

# Of this clone or package, and of installed packages; below them, what clib/build makes.
TOPS = Path(__file__).resolve().parents[3], Path("/usr/local/lib/trau"), Path("/usr/lib/trau")
FOLDER, LIBRARY = Path("lib", "trau-gateway"), "libtrau_pump.so.1"
NEEDED_BY_V3 = set("avx avx2 bmi1 bmi2 f16c fma abm movbe".split())  # as Linux names them
NAMES = "gsm", "pcm"  # the sides of a call, as the loop numbers them
NOTHING, OPEN, SET, BRIDGE, PART, REPORT, CLOSE = range(7)  # verbs of commands
ANSWER, BLOCK, GAVE_UP, OVERFLOW = range(1, 5)  # kinds of events
BEGUN = 0  # what trau_call_begin answers
LAWS = "alaw", "mulaw"  # as the core numbers them
# The counts of a side in the order of trau_call.h; the first one is of what was taken.
REASONS = (
    "taken not-rtp rtcp other-type empty odd-size too-long probation given-up far doubled late"
    " new-source jumps off-the-grid slips-on slips-back packets missing"
).split()
ENDS = "stranger", "other-port", "given-up", "unreachable", "unsent", "moved"
UNSENT = ENDS.index("unsent")
COUNTED = [*REASONS, *ENDS]
PERIODS = "speech", "descriptor", "invalid", "not-gsm", "no-gsm", "no-pcm"
MOST_COMMANDS = 1024  # that may wait, besides one for each slot
FOREVER = 0xFFFFFFFF  # a period that never comes
SIZES = [OCTETS_OF_SIDE[side] for side in SIDES]  # octets of a period of each line
RECORD = sum(SIZES)  # and of all of them

_u8, _u16, _u32, _i16, _i32, _i64 = (
    ctypes.c_uint8,
    ctypes.c_uint16,
    ctypes.c_uint32,
    ctypes.c_int16,
    ctypes.c_int32,
    ctypes.c_int64,
)


def _structure(name: str, **fields: Any) -> Any:
    """A structure of C with these fields, in their order."""
    return type(name, (ctypes.Structure,), {"_fields_": list(fields.items())})


CoreReports = _structure(
    "CoreReports",
    counts=_u32 * len(REASONS),
    periods=_u32 * len(PERIODS),
    **dict.fromkeys(
        "source first highest received jitter heard stamp sender packets octets".split(), _u32
    ),
    is_known=_u8,
    was_heard=_u8,
)
_EndCounts = _structure(
    "_EndCounts", counts=_u32 * len(ENDS), failure=_i32, host=_u8 * 4, port=_u8 * 2
)
Report = _structure("Report", core=CoreReports * 2, ends=_EndCounts * 2, held_up=_u32)
_Command = _structure("_Command", verb=_u32, slot=_u32, other=_u32, phase=_u32, level=_i16, dtx=_u8)
_End = _structure(
    "_End", socket=_i32, host=_u8 * 4, port=_u8 * 2, is_strict=_u8, is_any=_u8, is_connected=_u8
)
_Event = _structure("_Event", kind=_u32, number=_u32, period=_u32)
_Block = _structure("_Block", slot=_u32, periods=_u32, octets=ctypes.c_void_p)
_State = _structure(
    "_State",
    **dict.fromkeys("period late given_up load behind has_ended".split(), _u32),
    latest=_i64,
)

_Settings = _structure(
    "_Settings",
    **dict.fromkeys("number law depth".split(), _u32),
    **dict.fromkeys("prime gsm pcm".split(), _u8),
    random=_u8 * 20,
)
LoopTurn = _structure("LoopTurn", period=_u32, phase=_u32, behind=_u32, given_up=_u32)
_SIZED = Report, _Command, _End, _Event, _Block, _State, _Settings

_pointer, _text = ctypes.c_void_p, ctypes.c_char_p
_FUNCTIONS: Dict[str, Tuple[Any, ...]] = {  # the result, then the arguments
    "pump_new": (_pointer, _u32, _u32, _u32, _u32),
    "pump_free": (None, _pointer),
    "pump_stage": (ctypes.c_bool, _pointer, _pointer),
    "pump_publish": (None, _pointer),
    "pump_take_event": (ctypes.c_bool, _pointer, _pointer),
    "pump_report_of": (None, _pointer, _u32, _pointer),
    "pump_block_of": (ctypes.POINTER(_Block), _pointer, _u32),
    "pump_return_block": (None, _pointer, _u32),
    "pump_prepare": (_u32, _pointer, _u32, _pointer, _pointer, ctypes.c_bool),
    "pump_dismiss": (None, _pointer, _u32),
    "pump_watch": (ctypes.c_int, _pointer, _u32, _u32, _u32),
    "pump_start": (ctypes.c_int, _pointer, _u32, ctypes.c_int),
    "pump_stop": (_u32, _pointer),
    "pump_state": (None, _pointer, _pointer),
    "pump_execute": (ctypes.c_bool, _pointer, _u32),
    "pump_process": (None, _pointer, _pointer),
    "pump_give_up": (None, _pointer, _pointer),
    "pump_arrived": (None, _pointer, _u32, _u32, _text, ctypes.c_size_t, _u32, _u16, _pointer),
}


def has_v3() -> bool:
    """Whether this machine's processor is one of x86-64-v3."""
    try:
        return NEEDED_BY_V3 <= set(Path("/proc/cpuinfo").read_text().split())
    except OSError:
        return False


def library_path() -> Path:
    """The loop's library: the one that TRAU_PUMP names, or the one for this processor in the folder
    that TRAU_CLIB names, or else in clib/out of this clone or package, or of an installed one."""
    if named := os.environ.get("TRAU_PUMP"):
        return Path(named)
    built = os.environ.get("TRAU_CLIB")
    places = [Path(built)] if built else [top / "clib" / "out" for top in TOPS]
    found = [place / FOLDER / LIBRARY for place in places]
    library = next((each for each in found if each.exists()), found[0])
    best = library.parent / "glibc-hwcaps" / "x86-64-v3" / LIBRARY
    return best if has_v3() and best.exists() else library


def load(path: Path) -> ctypes.CDLL:
    """The library, with the types of its functions. Raises Refusal if it can't be had, or is of
    another version."""
    try:
        library = ctypes.CDLL(str(path))
        for name, (result, *arguments) in _FUNCTIONS.items():
            function = getattr(library, name)
            function.restype, function.argtypes = result, arguments
        built = list((_u32 * len(_SIZED)).in_dll(library, "pump_sizes"))
    except (OSError, AttributeError, ValueError) as failure:
        made = "clib/build of a clone makes it, and packages of trau have it"
        raise Refusal(f"the library of the gateway's calls: {failure}; {made}") from None
    if built != list(map(ctypes.sizeof, _SIZED)):
        raise Refusal(f"the library of the gateway's calls: {path} is of another version")
    return library


class Pump:
    """The loop, and the commands that wait for it."""

    def __init__(self, library: ctypes.CDLL, slots: int, every: int) -> None:
        """Room for so many calls at a time, and for records as long as the recorder has it."""
        self.library, self.every = library, every
        self.wakes, self.waker = os.pipe()  # the loop writes to it when Python is to look
        for end in (self.wakes, self.waker):
            os.set_blocking(end, False)
        blocks = slots + MOST_WAITING // (RECORD * every)
        self.pump = library.pump_new(slots, every, blocks, slots + MOST_COMMANDS)
        if not self.pump:
            raise Refusal("no memory for the loop")
        self.free = list(range(slots))
        self.works: Deque[List[Work]] = deque()  # of each command, when it is answered
        self.staged = self.published = self.answered = 0  # commands
        self.is_running = False

    def stage(self, **fields: int) -> int:
        """Adds a command to the batch; the result is its number."""
        if not self.library.pump_stage(self.pump, ctypes.byref(_Command(**fields))):
            raise Refusal("too many lines wait")
        self.works.append([])
        self.staged += 1
        return self.staged - 1

    def publish(self) -> None:
        """Gives the batch to the loop."""
        self.published = self.staged
        self.library.pump_publish(self.pump)

    def events(self) -> Iterator[Any]:
        """What the loop has said since the last time."""
        event = _Event()
        while self.library.pump_take_event(self.pump, ctypes.byref(event)):
            yield event

    def report(self, number: int) -> Any:
        """The counts in the answer to a command, when it has come."""
        report = Report()
        self.library.pump_report_of(self.pump, number & 0xFFFFFFFF, ctypes.byref(report))
        return report

    def lines(self, number: int) -> Tuple[int, Tuple[bytes, bytes, bytes, bytes]]:
        """The slot of a block, and its lines. The block goes back."""
        block = self.library.pump_block_of(self.pump, number).contents
        at, periods, parts = block.octets, block.periods, []
        for size in SIZES:
            parts.append(ctypes.string_at(at, size * periods))
            at += size * self.every
        slot = block.slot
        self.library.pump_return_block(self.pump, number)
        up, pcm, down, out = parts
        return slot, (up, pcm, down, out)

    def start(self, until: Optional[int]) -> None:
        """Starts the thread. It ends before this period."""
        failure = self.library.pump_start(
            self.pump, FOREVER if until is None else until, self.waker
        )
        if failure:
            raise OSError(failure, os.strerror(failure))
        self.is_running = True

    def stop(self) -> int:
        """Ends the thread; the result is the first period that isn't processed."""
        self.is_running = False
        return int(self.library.pump_stop(self.pump))

    def state(self) -> Any:
        """The clock of the thread."""
        state = _State()
        self.library.pump_state(self.pump, ctypes.byref(state))
        return state

    def close(self) -> None:
        """Frees all memory, once the thread has ended and no call is open."""
        self.library.pump_free(self.pump)
        self.pump = None
        os.close(self.wakes)
        os.close(self.waker)


class PumpClock(Clock):
    """The clock of the loop: a turn whenever the loop has answered or a line has come, and in each
    fifth period. Its period is the next one that a line may be executed in."""

    def __init__(self, pump: Pump, until: Optional[int]) -> None:
        super().__init__()
        self.pump, self.until = pump, until
        self.percent = 0
        self.sources: Callable[[], List[int]] = lambda: []  # from which a line may come

    def load(self) -> int:
        """The share of its time, in per cent, in which the loop didn't wait."""
        return self.percent

    def look(self) -> Turn:
        """Takes over the loop's clock."""
        state = self.pump.state()
        given_up = state.given_up - self.given_up
        self.late, self.given_up, self.percent = state.late, state.given_up, state.load
        self.lately = max(self.lately, state.latest)
        period = state.period + (not state.has_ended)
        return Turn(period, 0, state.behind, given_up)

    def turns(self) -> Iterator[Turn]:
        """The turns without end."""
        self.pump.start(self.until)
        while True:
            select.select([self.pump.wakes, *self.sources()], [], [])
            with contextlib.suppress(BlockingIOError):
                os.read(self.pump.wakes, 4096)
            yield self.look()


def beginning_of(call: LiveCall) -> Any:
    """What the core of a call begins with; random are the first numbers, stamps and sources of what
    is sent to both sides."""
    outs = (call.to_gsm, call.to_pcm)
    first = b"".join(struct.pack(">HII", out.number, out.stamp, out.source) for out in outs)
    settings = call.number, LAWS.index(call.law), call.gsm.buffer.depth, call.is_to_prime
    return _Settings(*settings, *(out.kind for out in outs), (_u8 * 20)(*first))


class PumpCall(LiveCall):
    """A call of the loop. Here are its settings and its counts, up to its last report."""

    def __init__(self, settings: Settings, start: int) -> None:
        super().__init__(settings, start)
        self.slot: Optional[int] = None
        self.reported = {side: [0] * len(COUNTED) for side in NAMES}  # counts of the last report

    def begin(self, period: int) -> None:
        """The loop has begun it in this period."""
        self.start = period

    def take(self, report: Any) -> None:
        """Takes over the counts of a report."""
        for side, core, end in zip(NAMES, report.core, report.ends):
            incoming, outgoing, _ = self.sides[side]
            self.take_counts(side, incoming, core, end)
            take_reception(incoming, core)
            outgoing.stamp, outgoing.packets, outgoing.octets = (
                core.stamp,
                core.packets,
                core.octets,
            )
            if end.counts[UNSENT]:
                incoming.faults["unsent"] = os.strerror(end.failure)
        counts = dict(zip(PERIODS, report.core[0].periods))
        counts["held-up"] = report.held_up
        self.counts.update({name: count for name, count in counts.items() if count})

    def take_counts(self, side: str, incoming: Incoming, core: Any, end: Any) -> None:
        """Adds what the counts of a side have risen by; they go on modulo 2^32, and `missing` may
        fall."""
        now = [*core.counts, *end.counts]
        before, self.reported[side] = self.reported[side], now
        if now == before:  # as mostly
            return
        for name, count, last in zip(COUNTED, now, before):
            if count != last:
                incoming.counts[name] += signed(count - last, 32)


def take_reception(incoming: Incoming, core: Any) -> None:
    """Takes over what came of the source that is heard."""
    incoming.heard = core.heard if core.was_heard else None
    if not core.is_known:
        return
    came = incoming.reception
    if came is None or came.source != core.source:
        came = incoming.reception = Reception(core.source, core.first)
    incoming.source = core.source
    came.first, came.received, came.jitter = core.first, core.received, core.jitter
    came.highest = core.first + signed(core.highest - core.first, 32)


class PumpBoard(Switchboard):
    """Executes lines by commands to the loop."""

    def __init__(
        self, network: Network, recorder: Recorder, most_calls: int, say: Say, library: ctypes.CDLL
    ) -> None:
        super().__init__(network, recorder, most_calls, say)
        # Twice as many slots, as calls that are closed have theirs up to the next period.
        self.pump = Pump(library, 2 * most_calls, recorder.every)
        self.by_slot: Dict[int, Connection] = {}
        self.is_closing = False
        self.looked_at = -1  # the last period in which calls were looked after

    # ---- commands

    @property
    def is_ready(self) -> bool:
        """Whether a line may be executed: all before are answered, and none of this batch closes a
        call, since its ports are free only then."""
        waits = self.pump.answered < self.pump.published
        return not self.pump.is_running or not waits and not self.is_closing

    def command(self, verb: int, connection: Connection, **fields: int) -> int:
        """Adds a command about a call to the batch."""
        call = connection.call
        assert isinstance(call, PumpCall) and call.slot is not None
        return self.pump.stage(
            verb=verb,
            slot=call.slot,
            phase=connection.phase,
            level=call.level,
            dtx=call.dtx,
            **fields,
        )

    def call_of(self, settings: Settings, period: int) -> LiveCall:
        """As Switchboard.call_of."""
        return PumpCall(settings, period)

    def begin_call(self, connection: Connection) -> None:
        """The call has a slot of the loop, whose memory it takes, and its sockets are watched."""
        call, pump = connection.call, self.pump
        assert isinstance(call, PumpCall)
        if not pump.free:
            raise Refusal("too many calls were closed just now")
        slot = call.slot = pump.free.pop()
        ends = (_End * 2)(*(end_of(connection.endpoints[side]) for side in NAMES))
        is_recorded = isinstance(connection.recorder, Recorder)
        begun = pump.library.pump_prepare(
            pump.pump, slot, ctypes.byref(beginning_of(call)), ends, is_recorded
        )
        if begun != BEGUN:
            raise Refusal("no memory for the call")
        for side in range(len(NAMES)):
            if failure := pump.library.pump_watch(pump.pump, slot, side, connection.phase):
                raise OSError(failure, os.strerror(failure))
        self.by_slot[slot] = connection
        self.command(OPEN, connection)
        pump.works[-1].append(call.begin)

    def disconnect(self, connection: Connection) -> None:
        """The call has ended, or couldn't begin: its slot is free."""
        super().disconnect(connection)
        call = connection.call
        if isinstance(call, PumpCall) and call.slot is not None:
            self.pump.library.pump_dismiss(self.pump.pump, call.slot)
            self.by_slot.pop(call.slot, None)
            self.pump.free.append(call.slot)
            call.slot = None

    def change(self, connection: Connection) -> None:
        """As Switchboard.change."""
        self.command(SET, connection)

    def join(self, one: Connection, other: Connection) -> None:
        """As Switchboard.join."""
        assert isinstance(other.call, PumpCall) and other.call.slot is not None
        self.command(BRIDGE, one, other=other.call.slot)

    def separate(self, connection: Connection) -> None:
        """As Switchboard.separate."""
        self.command(PART, connection)

    def end_call(self, connection: Connection) -> None:
        """As Switchboard.end_call."""
        self.is_closing = True
        self.report(connection, self.command(CLOSE, connection))

    def ask(self, connection: Connection) -> None:
        """As Switchboard.ask."""
        self.report(connection, self.command(REPORT, connection))

    def report(self, connection: Connection, number: int) -> None:
        """Takes over the counts in the answer to a command."""

        def take(_: int) -> None:
            report = self.pump.report(number)
            assert isinstance(connection.call, PumpCall)
            connection.call.take(report)
            for endpoint, end in zip(map(connection.endpoints.__getitem__, NAMES), report.ends):
                if endpoint.is_any:  # another's packets go where they went
                    host, port = socket.inet_ntoa(bytes(end.host)), int.from_bytes(end.port, "big")
                    endpoint.peer = host, port

        self.pump.works[-1].append(take)

    def when_done(self, period: int, *works: Work) -> None:
        """Does these after the commands of the batch."""
        if self.pump.staged == self.pump.published:
            self.pump.stage(verb=NOTHING)
        self.pump.works[-1].extend(works)
        if not self.pump.is_running:
            self.execute_batch(period)

    def execute_batch(self, period: int) -> None:
        """Executes the batch, while no thread does."""
        self.is_closing = False
        self.pump.publish()
        self.pump.library.pump_execute(self.pump.pump, period)
        self.collect()

    # ---- events

    def collect(self) -> None:
        """Takes what the loop has said, in its order."""
        for event in self.pump.events():
            if event.kind == ANSWER:
                self.pump.answered += 1
                for work in self.pump.works.popleft():
                    work(event.period)
            elif event.kind == BLOCK:
                slot, lines = self.pump.lines(event.number)
                connection = self.by_slot[slot]
                connection.recorder.block(connection.call.number, lines)
            elif event.kind == GAVE_UP:
                self.say_given_up(event.number, event.period)
            elif event.kind == OVERFLOW:
                for recorder in self.recorders:
                    recorder.fail("the disk is too slow")
        for recorder in self.recorders:
            recorder.write()

    def process(self, phase: int, period: int, behind: int) -> None:
        """The loop does it, and has the next batch if all before was answered. Without a thread, the
        tick of the calls of a phase."""
        if self.pump.is_running:
            self.collect()
            if self.pump.answered == self.pump.published < self.pump.staged:
                self.is_closing = False
                self.pump.publish()
            return
        turn = LoopTurn(period, phase, behind, 0)
        self.pump.library.pump_process(self.pump.pump, ctypes.byref(turn))
        self.collect()

    def give_up(self, periods: int, period: int) -> None:
        """The loop does it, and says so by an event."""
        if not self.pump.is_running:
            self.say_given_up(periods, period)
            turn = LoopTurn(period, 0, 0, periods)
            self.pump.library.pump_give_up(self.pump.pump, ctypes.byref(turn))

    def look_after(self, period: int) -> None:
        """Looks after the calls of each period since the last time."""
        if self.pump.is_running and not self.is_ready:
            return
        first = max(self.looked_at + 1, period - PERIODS_A_SECOND + 1)
        for each in range(first, period + 1):
            super().look_after(each)
        self.looked_at = period

    # ---- the end

    def halt(self) -> Optional[int]:
        """Ends the thread, if there is one, and executes what it hasn't; the result is the period."""
        if not self.pump.is_running:
            return None
        period = self.pump.stop()
        self.execute_batch(period)
        return period

    def end(self, period: int) -> int:
        """As Switchboard.end, once the thread has ended."""
        ended = self.halt()
        return super().end(period if ended is None else ended)

    def end_recordings(self, period: Optional[int]) -> bool:
        """As Switchboard.end_recordings. After a fault of the gateway, what the loop holds is written
        too."""
        self.halt()
        for connection in list(self.by_slot.values()):
            self.end_call(connection)
        self.execute_batch(0)
        is_whole = super().end_recordings(period)
        self.pump.close()
        return is_whole


def end_of(endpoint: SocketEndpoint) -> Any:
    """An endpoint, as the loop has it."""
    host, port = endpoint.peer
    return _End(
        endpoint.socket.fileno(),
        (_u8 * 4)(*socket.inet_aton(host)),
        (_u8 * 2)(*port.to_bytes(2, "big")),
        endpoint.is_strict,
        endpoint.is_any,
        endpoint.is_connected,
    )
