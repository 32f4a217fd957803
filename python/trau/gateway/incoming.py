"""One incoming stream: whose packets are taken, and where in the jitter buffer they belong. The
rules are the oracle of the tests, as in calls.py; the gateway takes only counts from here.
"""

from __future__ import annotations

from collections import Counter
from contextlib import suppress
from typing import Dict, Optional, Tuple

from trau.gateway import rtp
from trau.gateway.jitter_buffer import LIMIT, JitterBuffer
from trau.gateway.rtcp import Reception
from trau.gateway.rtp import HEADER, SAMPLES, PacketRefused

MOST_FAULT = 80  # characters that name one
STILL = 2  # periods beyond the depth after which a source that brought nothing is still
PROBATION = 5  # ticks for which a source on probation keeps its place


class Incoming:
    """The stream of one sender. `frame` is the size of a frame that fills a period, or 0 for octets
    of a line, one a sample."""

    def __init__(self, kind: int, frame: int, buffer: JitterBuffer) -> None:
        self.kind, self.frame, self.buffer = kind, frame, buffer
        self.size = frame or SAMPLES  # octets of a period
        self.half = SAMPLES // 2 if frame else 0  # a period; by which frames may be off the grid
        # Most packets have this size, and begin so.
        self.usual, self.plain = HEADER.size + self.size, bytes((0x80, kind))
        self.counts: Counter[str] = Counter()
        self.faults: Dict[str, str] = {}  # what the latest ones were, by the count
        self.source: Optional[int] = None
        self.reception: Optional[Reception] = None  # what came of it
        # Another source, the number that it must bring next, and since which tick.
        self.probation: Optional[Tuple[int, int, int]] = None
        self.jump: Optional[Tuple[int, int]] = None  # number and stamp with which a jump goes on
        self.stamp = self.position = 0  # a time stamp, and its place in samples from the first one
        self.heard: Optional[int] = None  # the tick of the last packet that was taken
        # Periods that the clock has given up, whose packets are still to be read until this tick.
        self.stale = self.stale_until = 0

    def fail(self, count: str, failure: Exception) -> None:
        """Counts a fault of the gateway or its host, and keeps what it was."""
        self.counts[count] += 1
        text = getattr(failure, "strerror", None) or f"{type(failure).__name__} {failure}"
        self.faults[count] = " ".join(text.split())[:MOST_FAULT]

    def packet(self, data: bytes, tick: int, behind: int) -> bool:
        """Takes a datagram that is read at a tick, which is late by `behind` periods. The result is
        whether it is a packet of the source that is heard, at a place of its stream."""
        is_watched = behind == 0  # a late tick says nothing about the path
        try:
            if len(data) == self.usual and data.startswith(self.plain):
                _, _, number, stamp, source = HEADER.unpack_from(data)
                payload, samples = data[HEADER.size :], SAMPLES
            else:
                number, stamp, source, payload, samples = self.parsed(data)
            reception = self.reception
            if source != self.source or reception is None:
                reception = self.take_source(source, number, stamp, tick, behind)
            reception.count(number, stamp, tick if is_watched and not self.stale else None)
            period, part = self.place(number, stamp, samples, tick, behind)
        except PacketRefused as refused:
            self.counts[str(refused)] += 1
            return False
        self.heard = tick
        at = 0
        while at < len(payload):
            end = at + self.size - part
            if reason := self.buffer.put(
                period, part, payload[at:end], tick, is_watched and at == 0
            ):
                self.counts[reason] += 1
            period, part, at = period + 1, 0, end
        return True

    def parsed(self, data: bytes) -> Tuple[int, int, int, bytes, int]:
        """Number, stamp, source, payload and samples of a packet. One of the source that is heard
        is counted in any case: telephone-event, comfort noise and empty packets aren't lost."""
        kind, number, stamp, source, payload = rtp.parse(data)
        try:
            return number, stamp, source, payload, self.samples(kind, payload)
        except PacketRefused:
            self.count_unplayed(number, stamp, source)
            raise

    def count_unplayed(self, number: int, stamp: int, source: int) -> None:
        """Counts a packet that isn't played, if it is of the source that is heard."""
        if self.reception and source == self.source:
            self.reception.count(number, stamp, None)

    def drop(self, data: bytes) -> None:
        """Drops a datagram of time that was given up. It came, so it isn't missing as well."""
        self.counts["given-up"] += 1
        with suppress(PacketRefused):
            _, number, stamp, source, _ = rtp.parse(data)
            self.count_unplayed(number, stamp, source)

    def samples(self, kind: int, payload: bytes) -> int:
        """How far a packet moves the time stamp. Refuses other payload types, and payloads of no
        whole frames."""
        if kind != self.kind:
            raise PacketRefused("other-type")
        if not payload:
            raise PacketRefused("empty")
        if self.frame and len(payload) % self.frame:
            raise PacketRefused("odd-size")
        samples = len(payload) // self.frame * SAMPLES if self.frame else len(payload)
        if samples > LIMIT * SAMPLES:
            raise PacketRefused("too-long")
        return samples

    def take_source(
        self, source: int, number: int, stamp: int, tick: int, behind: int
    ) -> Reception:
        """Another source has to bring two packets in a row (RFC 3550, A.1) while the present one is
        still: of two at once, one is heard."""
        if self.source is not None:
            is_next = self.probation is not None and self.probation[:2] == (source, number)
            if not is_next or not self.is_still(tick):
                self.probation = self.on_probation(source, number, tick)
                raise PacketRefused("probation")
            self.counts["new-source"] += 1
        self.counts.update(self.came())
        self.source, self.probation = source, None
        self.reception = reception = Reception(source, number)
        self.begin(stamp, tick + behind)
        return reception

    def on_probation(self, source: int, number: int, tick: int) -> Tuple[int, int, int]:
        """What is on probation after a packet of another source. It keeps its place for 0.1 s, so
        of several new sources at once one is heard."""
        since = tick
        if self.probation:
            other, _, began = self.probation
            if other == source:
                since = began
            elif tick - began < PROBATION:
                return self.probation
        return source, number + 1 & rtp.NUMBERS, since

    def is_still(self, tick: int) -> bool:
        """Whether the present source has brought nothing for some periods, and all that it brought
        is played."""
        return tick > (self.heard or 0) + self.buffer.depth + STILL and self.buffer.is_empty(tick)

    def came(self) -> Counter[str]:
        """The packets of the present source, and those that are missing by their numbers."""
        return Counter(
            {"packets": self.reception.received, "missing": self.reception.missing()}
            if self.reception
            else {}
        )

    def begin(self, stamp: int, tick: int) -> None:
        """The stream begins with a packet of this time stamp."""
        self.stamp, self.position, self.jump = stamp, 0, None
        self.buffer.start(tick)

    def place(
        self, number: int, stamp: int, samples: int, tick: int, behind: int
    ) -> Tuple[int, int]:
        """The period at which a packet begins, and the place in it; a frame belongs to the nearest
        period. A jump of the time stamps is believed if the very next packet follows it."""
        ahead = (stamp - self.stamp + 0x80000000 & rtp.STAMPS) - 0x80000000
        place = self.position + ahead
        period, part = divmod(place + self.half, SAMPLES)
        margin = period - self.buffer.shift - tick
        if self.stale:
            self.refuse_stale(margin, tick, behind)
        if not -LIMIT <= margin <= LIMIT + behind:
            if self.jump != (number, stamp):
                self.jump = number + 1 & rtp.NUMBERS, stamp + samples & rtp.STAMPS
                raise PacketRefused("far")
            self.counts["jumps"] += 1
            self.stale = 0  # what comes now is of another time
            self.begin(stamp, tick + behind)
            return 0, 0
        self.jump = None
        if ahead > 0:
            self.stamp, self.position = stamp, place
            self.buffer.follow(margin, tick)
        if self.frame:
            if part != self.half:
                self.counts["off-the-grid"] += 1
            return period, 0
        return period, part

    def give_up(self, periods: int, tick: int) -> None:
        """The clock has given up time. What came in it is still to be read, and is neither late nor
        a jump."""
        self.buffer.give_up(periods, tick)
        self.stale, self.stale_until = self.stale + periods, tick + LIMIT

    def refuse_stale(self, margin: int, tick: int, behind: int) -> None:
        """Refuses packets of time that was given up, until one comes that is neither late nor far
        away, or for a second."""
        if 0 <= margin <= LIMIT + behind or tick >= self.stale_until:
            self.stale = 0
        elif -self.stale - LIMIT <= margin < 0:
            raise PacketRefused("given-up")
