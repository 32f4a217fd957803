"""A jitter buffer in whole periods, read once a tick. It alone decides which period of the sender
is played at which tick.

A sender's period p is played at tick p - shift. Its *margin* is the number of ticks until then.
What is played at a place of a period is the first octet that came for it in time, or the filler.
The path's delay and the sender's clock change; so now and then a period is left out (a slip on)
or one without content is put in (a slip back). The rules are the oracle of the tests, as in calls.py.
"""

from __future__ import annotations

from collections import Counter
from typing import Callable, Dict, List, Optional, Tuple

LIMIT = 50  # periods that a packet may stand ahead; one that is further away is a jump
WINDOW = 500  # packets or ticks over which margins are watched, 10 s
FEWEST = 50  # packets that say something about a path
STRAGGLERS = 100  # one packet in so many of a window may come too late without a slip back
MOST_MARGIN = 40  # periods; where packets wait so long, stragglers no longer bring slips back
PATIENCE = 250  # ticks that slips wait for a pause
REST = 10  # ticks from a slip to the next one in what came
BURST = 5  # ticks; what comes late in them is one burst
BURSTS = 3  # so many of them within SPAN ticks: the path reorders
SPAN = 100
KEPT = 256  # periods for which it is known what of them was played; more than any packet is away

Content = Optional[bytes]
Laid = Tuple[bytes, int]  # a period as far as it came, and a bit for each of its octets that didn't


def merged(octets: bytes, part: int, piece: bytes, places: int) -> bytes:
    """A period with a piece from its place `part` on, at these places alone, a bit for each."""
    period = bytearray(octets)
    for place, octet in enumerate(piece, part):
        if places >> place & 1:
            period[place] = octet
    return bytes(period)


class JitterBuffer:
    """Takes pieces of periods, gives one period a tick."""

    def __init__(self, depth: int, filler: bytes, is_soft: Callable[[bytes], bool]) -> None:
        """The first packet waits `depth` ticks. `filler` is a whole period, for what a sender
        leaves out of one. `is_soft`: whether a period is one in which a slip is hardly heard."""
        self.depth, self.filler, self.is_soft = depth, filler, is_soft
        self.whole = (1 << len(filler)) - 1
        self.counts: Counter[str] = Counter()
        self.start(0)

    def start(self, tick: int) -> None:
        """Begins anew: the sender's period 0 has come at this tick."""
        self.periods: Dict[int, Laid] = {}
        self.newest = -1  # of all that were held
        # Period p at p % KEPT, with what it lacked.
        self.played: List[Tuple[Optional[int], int]] = [(None, 0)] * KEPT
        self.shift = -tick - self.depth
        self.was_late = False  # the newest packet
        self.late_at = tick  # when a packet came late behind newer ones
        self.owed = 0  # slips on, or below 0 slips back, that wait for a pause
        self.patience = 0  # ticks that they wait
        self.rest_until = tick
        self.watch_anew(tick)

    def watch_anew(self, tick: int) -> None:
        """Forgets the margins that were seen."""
        self.margins: List[int] = []
        # Of late packets, the tick and the margin of the first one.
        self.bursts: List[Tuple[int, int]] = []
        self.watched_from = tick

    def margin(self, period: int, tick: int) -> int:
        """The ticks until a period is played; below 0 it is too late."""
        return period - self.shift - tick

    def is_empty(self, tick: int) -> bool:
        """Whether nothing is left to be played."""
        return not self.periods or self.margin(max(self.periods), tick) < 0

    def laid(self, period: int) -> Laid:
        """What is held of a period, and which octets are neither held nor were played."""
        if period > self.newest:  # as most are
            return self.filler, self.whole
        laid = self.periods.get(period)
        if laid:
            return laid
        played, missing = self.played[period % KEPT]
        return self.filler, missing if played == period else self.whole

    def put(self, period: int, part: int, piece: bytes, tick: int, is_watched: bool = False) -> str:
        """Puts a piece at a place of a period, where nothing is held and nothing was played. The
        result is empty, or the reason why it isn't taken. `is_watched`: unless it is doubled,
        its margin says something about the path."""
        octets, missing = self.laid(period)
        end = part + len(piece)
        own = self.whole if len(piece) == len(self.filler) else (1 << end) - (1 << part)
        places = missing & own
        if not places:
            return "doubled"
        margin = period - self.shift - tick
        if is_watched and tick >= self.watched_from:
            self.margins.append(margin)
        if margin < 0:
            if is_watched:
                self.straggle(margin, tick)
            return "late"
        if places == self.whole:  # as mostly
            laid = piece
        elif places == own:
            laid = octets[:part] + piece + octets[end:]
        else:
            laid = merged(octets, part, piece, places)
        self.periods[period] = laid, missing ^ places
        if period > self.newest:
            self.newest = period
        return ""

    def follow(self, margin: int, tick: int) -> None:
        """A packet that is newer than all before has come, with this margin. If it is the second
        late one in a row, the path got longer, or the sender is slow: the playing moves, so that
        the packet waits `depth` ticks, as the first one did. If the path only stalled, the rest of
        what it held comes within as many ticks as the playing moved, and isn't watched."""
        is_late = margin < 0
        if is_late and self.was_late:
            self.counts["slips-back"] += self.depth - margin
            self.shift += margin - self.depth
            self.owed, is_late = 0, False
            self.watch_anew(tick + self.depth - margin)
        self.was_late = is_late

    def straggle(self, margin: int, tick: int) -> None:
        """A packet was late. If this comes again and again, the path reorders: slips back are owed,
        by the middle one of the last bursts, so that such packets wait too. One burst moves
        nothing, nor do packets for which the newest would wait too long."""
        self.late_at = tick
        newest = max(self.periods, default=tick + self.shift)
        is_same = self.bursts and tick < self.bursts[-1][0] + BURST
        if is_same or self.margin(newest, tick) - margin > MOST_MARGIN:
            return
        recent = [burst for burst in self.bursts if tick - burst[0] <= SPAN]
        self.bursts = recent[1 - BURSTS :] + [(tick, margin)]
        if len(self.bursts) == BURSTS:
            self.owed = sorted(lacking for _, lacking in self.bursts)[BURSTS // 2]
            self.patience = PATIENCE

    def take(self, tick: int) -> Content:
        """The period that is played at this tick, or None if it didn't come."""
        if self.owed:
            self.slip(tick)
        elif (
            len(self.margins) >= WINDOW
            or tick - self.watched_from >= WINDOW
            and len(self.margins) >= FEWEST
        ):
            self.review(tick)
        period = tick + self.shift
        laid = self.periods.pop(period, None)
        if laid is None:
            return None
        octets, missing = laid
        self.played[period % KEPT] = period, missing
        return octets

    def review(self, tick: int) -> None:
        """Decides on slips by the margins of all packets but the stragglers: they wait longer than
        the depth, or come just in time."""
        margins = sorted(self.margins)
        least = margins[len(margins) // STRAGGLERS]
        if least > self.depth:
            self.owed = least - self.depth
        elif least < min(1, self.depth) and margins[-1] < MOST_MARGIN:
            self.owed = -1
        self.patience = PATIENCE
        self.watch_anew(tick)
        self.drop_past(tick)

    def slip(self, tick: int) -> None:
        """Makes one slip that is owed: where nothing came at once, else after a rest, and in a soft
        period until patience ends. Slips back for a path that reorders are owed no longer if
        nothing was late for a while."""
        if self.owed < -1 and tick - self.late_at > SPAN:
            self.owed = 0
            return
        self.patience -= 1
        laid = self.periods.get(tick + self.shift)
        if laid and self.is_spared(laid, tick):
            return
        if self.owed > 0:
            self.periods.pop(tick + self.shift, None)
            self.shift += 1
            self.owed -= 1
            self.counts["slips-on"] += 1
        else:
            self.shift -= 1
            self.owed += 1
            self.counts["slips-back"] += 1
        self.rest_until = tick + REST
        self.watch_anew(tick)

    def is_spared(self, laid: Laid, tick: int) -> bool:
        """Whether the slip that is owed waits for another period than this one."""
        octets, missing = laid
        if self.owed < 0 and missing:  # what didn't come may still come
            return False
        return tick < self.rest_until or self.patience > 0 and not self.is_soft(octets)

    def give_up(self, periods: int, tick: int) -> None:
        """The clock has given up time: what would have been played in it is left out."""
        self.shift += periods
        self.drop_past(tick)

    def drop_past(self, tick: int) -> None:
        """Drops what will never be played."""
        for period in [p for p in self.periods if self.margin(p, tick) < 0]:
            del self.periods[period]
