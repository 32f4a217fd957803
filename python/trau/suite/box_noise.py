"""Follows a box's comfort noise: how it approaches a descriptor, its lags, gains and pulses, and how
it falls (GSM 06.12, GSM 06.11)."""

from typing import Callable, Dict, Iterator, List, NamedTuple, Optional, Sequence, Tuple

from trau.rules.parameters import SILENCE, Parameters
from trau.rules.profile import APPROACH_STEPS, MUTING_STEP, SILENT_FROM_FALL

from trau.suite.box_findings import Findings, Place
from trau.suite.box_search import GRIDS, BlockSpace, Explained, any_pulses
from trau.suite.box_track import StateTrack
from trau.suite.box_uplink import Hears, Situation
from trau.suite.judges import LEAST_PULSE, MOST_PULSE, NOISE_LAGS, heard_values

ANY_LAG = tuple(range(40, 121))
ANY_GAIN = (0, 1, 2, 3)
ANY_MAXIMUM = tuple(range(64))
MOST_STEPS = 33  # in which a box may approach a descriptor
MOST_RATIO_SEARCHES = 2
MOST_WAY_SEARCHES = 4
MOST_FAILURES = 4  # periods in which all searches find nothing
MOST_CODE = 7  # of a pulse
MOST_STATES_OF_MAXIMA = 4  # with more a search for what isn't likely takes too long
RATIO_WIDTHS = (6, 6, 5, 5, 4, 4, 3, 3)

Values = Tuple[int, ...]  # eight ratios and four block maxima


class Approach(NamedTuple):
    """How a box approaches a descriptor: in so many steps, rounded down or to the nearest."""

    steps: int
    is_rounded: bool

    def mixed(self, old: int, new: int, step: int) -> int:
        """A value after so many of the steps."""
        value = old * (self.steps - step) + new * step
        return (2 * value + self.steps * self.is_rounded) // (2 * self.steps)


OURS = Approach(APPROACH_STEPS, False)
APPROACHES = [OURS] + [
    Approach(steps, is_rounded)
    for steps in range(1, MOST_STEPS)
    for is_rounded in (False, True)
    if Approach(steps, is_rounded) != OURS
]


class Ways(NamedTuple):
    """What a block of noise may have been in a first look, as the box was known so far."""

    lags: Tuple[int, ...] = NOISE_LAGS
    gain: int = 0
    least: int = LEAST_PULSE
    most: int = MOST_PULSE

    def space(self, number: int, tops: Sequence[int]) -> BlockSpace:
        """The space of a block."""
        return BlockSpace(
            (self.lags[number],),
            (self.gain,),
            GRIDS,
            tuple(tops),
            any_pulses(self.least, self.most),
        )


class NoiseJudge:
    """Searches and judges comfort noise."""

    def __init__(self, track: StateTrack, findings: Findings) -> None:
        self.track, self.findings = track, findings
        self.ways, self.approach = Ways(), OURS
        self.old: Dict[Approach, Values] = {}
        self.bases: Dict[Approach, Values] = {}
        self.last = Situation(Hears.UNKNOWN)
        self.fall_step = MUTING_STEP
        self.fall = 0  # how often the box's noise has fallen, if not as the rule says
        self.was_silent = False
        self.ratio_searches = self.way_searches = self.failures = 0
        self.was_known = False  # whether the noise of the period before was found

    # What the noise should stand at, for each way to approach.

    def heard(self, situation: Situation) -> None:
        """Notes what a period brought, after it was judged."""
        if situation.hears is not Hears.NOISE:
            self.bases, self.was_known, self.was_silent = {}, False, False
        self.last = situation

    def step(self, situation: Situation) -> None:
        """Moves the base of each approach by a period."""
        assert situation.anchor is not None
        new = tuple(heard_values(situation.anchor))
        if situation.since == 0:
            self.fall = 0
            goes_on = self.last.hears is Hears.NOISE and self.last.falling == 0
            self.old = {each: self.bases.get(each, new) if goes_on else new for each in APPROACHES}
        self.bases = {
            each: tuple(
                each.mixed(a, b, min(situation.since + 1, each.steps))
                for a, b in zip(self.old[each], new)
            )
            for each in APPROACHES
        }

    def skip(self, situation: Situation) -> None:
        """A period whose noise wasn't found."""
        if not (self.bases and self.last == situation):
            self.step(situation)
        self.was_known = False

    # The search.

    def search(self, situation: Situation, octets: bytes) -> Explained:
        """The frames that the noise of a period may have been, those of the fewest changes."""
        self.step(situation)
        for found in self.likely(situation, octets):
            if found.frames:
                return found
        return Explained([], True)

    def search_further(self, situation: Situation, octets: bytes) -> Explained:
        """The frames of more changes, where those of few aren't it."""
        if self.failures >= MOST_FAILURES or len(self.track.states) > MOST_STATES_OF_MAXIMA:
            return Explained([], True)
        for found in self.unlikely(situation, octets):
            if found.frames:
                return found
        self.failures += 1
        return Explained([], True)

    def likely(self, situation: Situation, octets: bytes) -> Iterator[Explained]:
        """The searches for what is likely, the most likely first."""
        base = self.bases[self.approach]
        fall = min(situation.falling, SILENT_FROM_FALL)
        if fall >= SILENT_FROM_FALL or self.was_silent:
            yield self.track.exactly(SILENCE, octets)
        if self.fall and situation.missed:
            yield self.falling_to(self.fall + 1, base, octets)
        yield self.by(self.ways, base, fall, octets)
        if situation.missed:
            yield self.track.exactly(SILENCE, octets)
            for other in range(SILENT_FROM_FALL + 1):
                yield self.falling_to(other, base, octets)
        if self.approach != OURS:
            yield self.by(self.ways, self.bases[OURS], fall, octets)

    def unlikely(self, situation: Situation, octets: bytes) -> Iterator[Explained]:
        """The searches for what is less likely. They take long, so they end after a few periods in
        which none finds anything."""
        base = self.bases[self.approach]
        fall = min(situation.falling, SILENT_FROM_FALL)
        yield self.one_way_changed(base, fall, octets)
        yield self.all_ways_changed(base, fall, octets)
        for approach, values in self.other_bases():
            found = self.by(self.ways, values, fall, octets)
            if found.frames:
                self.approach = approach
            yield found
        yield self.track.exactly(SILENCE, octets)
        new = tuple(heard_values(situation.anchor)) if situation.anchor else base
        for values in dict.fromkeys((base[:8], self.bases[OURS][:8], new[:8])):
            yield self.any_maxima(values, octets)
        yield self.one_ratio_changed(base, octets)

    def falling_to(self, fall: int, base: Values, octets: bytes) -> Explained:
        """A search in which noise has fallen so often; it is remembered if that was so."""
        found = self.by(self.ways, base, fall, octets)
        if found.frames:
            self.fall = fall
        return found

    def other_bases(self) -> List[Tuple[Approach, Values]]:
        """Where the noise would stand by other approaches, each once."""
        seen = {self.bases[self.approach]}
        found = []
        for approach, values in self.bases.items():
            if values not in seen:
                seen.add(values)
                found.append((approach, values))
        return found

    def by(self, ways: Ways, base: Values, fall: int, octets: bytes) -> Explained:
        """A search with all blocks as this says."""
        tops = [max(0, top - self.fall_step * fall) for top in base[8:]]
        spaces = [ways.space(number, (top,)) for number, top in enumerate(tops)]
        return self.track.searched(base[:8], spaces, octets)

    def one_way_changed(self, base: Values, fall: int, octets: bytes) -> Explained:
        """A search in which pulses, gains or lags may be any; nothing if two of these would do."""
        tops = [(max(0, top - self.fall_step * fall),) for top in base[8:]]
        changes: Tuple[Callable[[BlockSpace], BlockSpace], ...] = (
            lambda space: space._replace(pulses=any_pulses(0, MOST_CODE)),
            lambda space: space._replace(gains=ANY_GAIN),
            lambda space: space._replace(lags=ANY_LAG),
        )
        fits = []
        for change in changes:
            spaces = [change(self.ways.space(k, top)) for k, top in enumerate(tops)]
            found = self.track.searched(base[:8], spaces, octets)
            if found.frames:
                fits.append(found)
        return fits[0] if len(fits) == 1 else Explained([], True)

    def all_ways_changed(self, base: Values, fall: int, octets: bytes) -> Explained:
        """A search in which pulses, gains and lags may all be any. It takes long, so it isn't tried
        often."""
        self.way_searches += 1
        if self.way_searches > MOST_WAY_SEARCHES or len(self.track.states) > 1:
            return Explained([], True)
        spaces = [
            BlockSpace(
                ANY_LAG,
                ANY_GAIN,
                GRIDS,
                (max(0, top - self.fall_step * fall),),
                any_pulses(0, MOST_CODE),
            )
            for top in base[8:]
        ]
        return self.track.searched(base[:8], spaces, octets)

    def any_maxima(self, larc: Sequence[int], octets: bytes) -> Explained:
        """A search with any block maxima."""
        spaces = [self.ways.space(number, ANY_MAXIMUM) for number in range(4)]
        return self.track.searched(larc, spaces, octets)

    def one_ratio_changed(self, base: Values, octets: bytes) -> Explained:
        """A search in which one ratio may have any code. It takes long, so it isn't tried often."""
        self.ratio_searches += 1
        if self.ratio_searches > MOST_RATIO_SEARCHES or len(self.track.states) > 1:
            return Explained([], True)
        for place, width in enumerate(RATIO_WIDTHS):
            for code in range(1 << width):
                larc = (*base[:place], code, *base[place + 1 : 8])
                found = self.any_maxima(larc, octets)
                if found.frames:
                    return found
        return Explained([], True)

    # The judgement.

    def judge(
        self, place: Place, situation: Situation, found: Explained, before: Optional[Parameters]
    ) -> None:
        """Judges the noise of a period; if several frames may have been, the one that keeps most."""
        frame = min((one for one, _ in found.frames), key=self.changes)
        self.was_silent = frame == SILENCE
        fall = situation.falling
        if fall:
            self.judge_fall(place, frame, min(fall, SILENT_FROM_FALL), before)
        if frame != SILENCE:
            self.judge_frame(place, frame)
            if not fall:
                self.judge_base(place, situation, frame, before)
        self.was_known = True

    def changes(self, frame: Parameters) -> int:
        """How much of a frame isn't as the rules have it."""
        tops = self.bases[OURS][8:]
        return sum(
            (block.nc != lag)
            + (block.bc != 0)
            + (block.xmaxc != top)
            + sum(not LEAST_PULSE <= pulse <= MOST_PULSE for pulse in block.xmc)
            for block, lag, top in zip(frame.blocks, NOISE_LAGS, tops)
        )

    def judge_frame(self, place: Place, frame: Parameters) -> None:
        """Lags, gains and pulses, which are drawn."""
        lags = tuple(block.nc for block in frame.blocks)
        gains = tuple(block.bc for block in frame.blocks)
        pulses = [pulse for block in frame.blocks for pulse in block.xmc]
        least, most = min(pulses), max(pulses)
        is_within = LEAST_PULSE <= least and most <= MOST_PULSE
        self.ways = self.ways._replace(
            lags=lags,
            gain=gains[0],
            least=min(self.ways.least, least),
            most=max(self.ways.most, most),
        )
        self.findings.judge("noise.lags", lags == NOISE_LAGS, place, lags, NOISE_LAGS)
        self.findings.judge("noise.lag-gain", not any(gains), place, f"bc {gains}", 0)
        allowed = f"{LEAST_PULSE} to {MOST_PULSE}"
        self.findings.judge(
            "noise.pulses", is_within, place, f"pulses from {least} to {most}", allowed
        )
        self.findings.drawn("noise.draws", len(pulses) + len(lags))

    def judge_base(
        self, place: Place, situation: Situation, frame: Parameters, before: Optional[Parameters]
    ) -> None:
        """Ratios and block maxima on their way to those of the descriptor."""
        now, ours = tuple(heard_values(frame)), self.bases[OURS]
        assert situation.anchor is not None
        new = heard_values(situation.anchor)
        if self.was_known and before is not None:
            old = heard_values(before)
            is_between = all(min(a, b) <= c <= max(a, b) for a, b, c in zip(old, new, now))
            allowed = f"between {tuple(old)} and {tuple(new)}"
            self.findings.judge(
                "noise.between", is_between, place, f"ratios and maxima {now}", allowed
            )
            if not is_between:
                return
        is_muted = situation.missed > 0 and now[:8] == ours[:8]  # early, which isn't the approach
        if now == ours or not is_muted:
            self.findings.judge(
                "noise.approach", now == ours, place, f"ratios and maxima {now}", ours
            )

    def judge_fall(
        self, place: Place, frame: Parameters, fall: int, before: Optional[Parameters]
    ) -> None:
        """Noise that mutes never rises."""
        tops = tuple(block.xmaxc for block in frame.blocks)
        ours = tuple(max(0, top - MUTING_STEP * fall) for top in self.bases[OURS][8:])
        is_silent = frame == SILENCE
        is_ours = is_silent if fall >= SILENT_FROM_FALL else tops == ours and not is_silent
        wanted = "the frame of silence" if fall >= SILENT_FROM_FALL else ours
        measured = f"{'silence with ' * is_silent}block maxima {tops}"
        if before is not None:
            last = tuple(block.xmaxc for block in before.blocks)
            is_held = all(a <= b for a, b in zip(tops, last))
            self.findings.judge("noise.mutes", is_held, place, measured, f"<= {last}")
            if not is_held:
                return
        self.findings.judge("noise.fall", is_ours, place, measured, wanted)
