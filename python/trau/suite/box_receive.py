"""Follows what a box made of an uplink, period by period, and judges it: frames that came, lost
ones, noise, and where the call is quiet (docs/CONFORMANCE.md, "Judge a box")."""

from typing import Dict, List, NamedTuple, Optional, Sequence, Tuple

from trau.rules.g711 import Law
from trau.rules.parameters import SILENCE, Block, Parameters, parameters_of_bits
from trau.rules.profile import MISSES_TO_HUNT, MUTING_STEP, SILENT_FROM_LOST

from trau.suite.box_decoder import HOME, STANDARD, decode
from trau.suite.box_findings import Findings, Place, place_of
from trau.suite.box_kinds import KindJudge, Taken
from trau.suite.box_laws import agreeing
from trau.suite.box_noise import NoiseJudge
from trau.suite.box_search import GRIDS, BlockSpace, Explained, known_pulses
from trau.suite.box_track import StateTrack, Wrong, is_loud
from trau.suite.box_unexplained import PeriodCounts, is_flat
from trau.suite.box_uplink import Hears, Situation, UpPeriod

ANY_MAXIMUM = tuple(range(64))
FRAMES_TO_DIFFER = 3
FEW_OCTETS = 4  # of a frame that differ as by errors of a line, not by another decoder
NEARLY = 0.97  # of the octets of frames that hardly differ
MOST_OF_SILENCE = 64  # the peak of what silence decodes to, with what the filters still hold
DECODER = (
    "decoder.pulses",
    "decoder.lag-gain",
    "decoder.ratios",
    "decoder.interpolation",
    "decoder.reflection",
    "decoder.synthesis",
    "decoder.postprocessing",
)


class HeardPeriod(NamedTuple):
    """A period of the A side: its place on the line, what came, what the receiver knew, and its
    octets."""

    place: Place
    period: UpPeriod
    situation: Situation
    octets: bytes

    def own(self) -> Optional[Parameters]:
        """The parameters of what is at the period's place on the uplink."""
        data = self.period.data()
        return parameters_of_bits(data) if data else None


def maxima(parameters: Parameters) -> Tuple[int, ...]:
    """The coded block maxima."""
    return tuple(block.xmaxc for block in parameters.blocks)


def grids(parameters: Parameters) -> Tuple[int, ...]:
    """The grid positions."""
    return tuple(block.mc for block in parameters.blocks)


def space_of(block: Block, tops: Sequence[int], positions: Sequence[int]) -> BlockSpace:
    """A block that is known but for its maximum and its grid position."""
    return BlockSpace(
        (block.nc,), (block.bc,), tuple(positions), tuple(tops), known_pulses(block.xmc)
    )


class ReceiveJudge:
    """Judges the periods of a call, from the first on."""

    def __init__(self, track: StateTrack, findings: Findings, law: Law) -> None:
        self.track, self.findings, self.idle = track, findings, law.idle()
        self.counts, self.kinds = PeriodCounts(law), KindJudge(findings)
        self.noise = NoiseJudge(track, findings)
        self.before: Optional[Parameters] = None  # what the box decoded in the period before
        self.is_pure = False  # since the last search two frames that came were found as they are
        self.wrong: List[Wrong] = []
        self.pending: List[Tuple[float, Wrong]] = []  # wrong, if the state isn't known soon
        self.is_begun = False
        self.since_anew = MISSES_TO_HUNT  # periods since frames came at another place
        self.mistaken: Optional[Situation] = None  # after a frame that it shouldn't have decoded
        self.fall_of: Dict[int, int] = {}  # how far the box mutes the n-th lost frame

    def run(self, periods: Sequence[HeardPeriod]) -> None:
        """Judges all periods."""
        for each in periods:
            if each.situation.hears is not Hears.GOOD:
                self.end_of_run()
            self.period(each)
            self.noise.heard(each.situation)
        self.end_of_run()

    def period(self, heard: HeardPeriod) -> None:
        """Judges a period by what the box has for the last speech: a frame that it decoded, though
        it shouldn't have, counts as good for what follows."""
        judges = {
            Hears.GOOD: self.good,
            Hears.LOST: self.lost,
            Hears.NOISE: self.in_noise,
            Hears.QUIET: self.quiet,
        }
        is_moved = self.is_begun and heard.period.is_anew
        self.since_anew = 0 if is_moved else self.since_anew + 1
        self.is_begun = True
        mistaken, self.mistaken = self.mistaken, None
        if heard.situation.hears is Hears.UNKNOWN:
            self.track.lose()
            self.before = None
        elif mistaken is None or heard.situation.since == 0:
            judges[heard.situation.hears](heard)
        else:
            situation = Situation(Hears.LOST, mistaken.anchor, mistaken.since + 1)
            self.mistaken = situation
            self.lost(heard._replace(situation=situation))

    def end_of_run(self) -> None:
        """At the end of good frames in a row: those that should have been explained weren't, unless
        they are few or hardly differ, as by roundings of what came before."""
        parts = [part for part, _ in self.pending]
        if len(parts) >= FRAMES_TO_DIFFER and sum(parts) < NEARLY * len(parts):
            self.wrong += [wrong for _, wrong in self.pending]
        self.pending = []

    def taken(self, found: Explained) -> None:
        """Goes on with what was found."""
        self.track.take(found)
        self.before = found.frames[0][0] if found.frames else None

    # Frames that came.

    def good(self, heard: HeardPeriod) -> None:
        """A good frame is decoded as it came."""
        parameters = heard.situation.anchor
        assert parameters is not None
        if not self.track.is_sure:
            self.acquire(heard, parameters)
            return
        found = self.track.exactly(parameters, heard.octets)
        if found.frames:
            self.findings.held("lost.as-it-came")
            self.counts.judged(Hears.GOOD)
            self.kinds.judge(heard.place, heard.period, Taken.SPEECH)
            self.hold_decoder(parameters)
            self.is_pure = True
            self.taken(found)
        else:
            self.not_as_it_came(heard, parameters)

    def hold_decoder(self, parameters: Parameters) -> None:
        """Counts a frame that was decoded as the standard says."""
        for rule in DECODER:
            self.findings.held(rule)
        if any(not 40 <= block.nc <= 120 for block in parameters.blocks):
            self.findings.held("decoder.lag")

    def acquire(self, heard: HeardPeriod, parameters: Parameters) -> None:
        """Looks whether the decoder's state has become known."""
        before = self.track.states[0]
        was_converged = self.track.is_converged()
        fits, samples = self.track.follow(parameters, heard.octets)
        self.before = parameters
        if fits and self.track.is_sure:
            self.findings.held("lost.as-it-came", 2)
            self.counts.judged(Hears.GOOD, with_last=True)
            self.kinds.judge(heard.place, heard.period, Taken.SPEECH)
            self.hold_decoder(parameters)
            self.is_pure = True
            self.pending = []
            return
        if is_flat(heard.octets) and is_loud(samples):
            self.counts.unexplained(heard.situation, heard.place, heard.octets)
            self.track.lose()
            return
        self.counts.passed(Hears.GOOD, heard.place)
        if not fits and was_converged:
            part = agreeing(self.track.ranges, samples, heard.octets) / len(samples)
            wrong = Wrong(heard.place.period, parameters, heard.octets, before, False)
            self.pending.append((part, wrong))

    def not_as_it_came(self, heard: HeardPeriod, parameters: Parameters) -> None:
        """A good frame that isn't decoded as it came: changed before it was decoded, replaced by
        the frame before, or decoded by other numbers."""
        if self.since_anew < MISSES_TO_HUNT:
            self.not_yet_found(heard, parameters)
            return
        found = self.changed(heard, parameters)
        if not found.frames:
            self.not_explained(heard, parameters)
            return
        self.counts.judged(Hears.GOOD)
        changed = found.frames[0][0]
        measured = f"block maxima {maxima(changed)} and grid positions {grids(changed)}"
        if changed == self.before:
            measured = "the frame before again"
        allowed = f"{maxima(parameters)} and {grids(parameters)}, as they came"
        self.findings.broken("lost.as-it-came", heard.place, measured, allowed)
        self.taken(found)

    def not_yet_found(self, heard: HeardPeriod, parameters: Parameters) -> None:
        """A good frame, soon after frames came at another place, that the box may not have found."""
        measured = "a frame at a new place isn't decoded"
        self.findings.judge("search.place", False, heard.place, measured, "decoded")
        self.counts.passed(Hears.GOOD, heard.place)
        self.track.lose(decode(STANDARD, self.track.states[0], parameters)[1])
        self.before, self.is_pure = None, False

    def changed(self, heard: HeardPeriod, parameters: Parameters) -> Explained:
        """What a good frame may have been changed to."""
        if self.before is not None:
            found = self.track.exactly(self.before, heard.octets)
            if found.frames:
                return found
        spaces = [space_of(block, ANY_MAXIMUM, GRIDS) for block in parameters.blocks]
        return self.track.searched(parameters.larc, spaces, heard.octets)

    def not_explained(self, heard: HeardPeriod, parameters: Parameters) -> None:
        """A good frame that no change explains: the line has no sound, or the decoder is another."""
        state = self.track.states[0]
        samples, after = decode(STANDARD, state, parameters)
        others = len(samples) - agreeing(self.track.ranges, samples, heard.octets)
        if others <= FEW_OCTETS:
            said = f"a good frame has other octets: {others}"
            self.counts.left_open(heard.situation, heard.place, said)
            self.track.states, self.before = [after], parameters
            return
        if is_flat(heard.octets) and is_loud(samples):
            self.counts.unexplained(heard.situation, heard.place, heard.octets)
        else:
            self.counts.passed(Hears.GOOD, heard.place)
            if self.is_pure and len(self.track.states) == 1:
                wrong = Wrong(heard.place.period, parameters, heard.octets, state, True)
                self.wrong.append(wrong)
        self.track.lose(after)
        self.before, self.is_pure = None, False

    # Lost frames.

    def lost(self, heard: HeardPeriod) -> None:
        """A lost frame is the good one again, more and more muted, and at last silence."""
        good, n = heard.situation.anchor, heard.situation.since
        assert good is not None
        if not self.track.is_sure:
            self.lost_unsure(heard, good, n)
            return
        self.is_pure = self.is_pure and n == 1
        found = self.substitute(heard, good, n)
        if not found.frames and self.is_own(heard):
            return
        if not found.frames:
            self.counts.unexplained(heard.situation, heard.place, heard.octets)
            self.peak_of_silence(heard, n)
            self.track.lose(decode(STANDARD, self.track.states[0], good)[1])
            self.before = None
            return
        self.counts.judged(Hears.LOST)
        self.kinds.judge(heard.place, heard.period, Taken.LOST)
        self.judge_lost(heard, good, n, [parameters for parameters, _ in found.frames])
        self.taken(found)

    def lost_unsure(self, heard: HeardPeriod, good: Parameters, n: int) -> None:
        """A lost frame while the decoder's state isn't known."""
        self.counts.passed(Hears.LOST, heard.place)
        self.peak_of_silence(heard, n)
        self.track.lose(decode(STANDARD, self.track.states[0], good)[1])
        self.before = None

    def is_own(self, heard: HeardPeriod) -> bool:
        """Whether a box decoded what it shouldn't have: the frame that is at this period's place."""
        own = heard.own()
        found = self.track.exactly(own, heard.octets) if own else Explained([], True)
        if found.frames:
            self.counts.judged(heard.situation.hears)
            self.kinds.judge(heard.place, heard.period, Taken.SPEECH)
            self.mistaken = Situation(Hears.GOOD, own)
            self.taken(found)
        return bool(found.frames)

    def peak_of_silence(self, heard: HeardPeriod, n: int) -> None:
        """If the frame isn't known: silence is soft, one frame after it began."""
        if n > SILENT_FROM_LOST:
            ranges = [self.track.ranges[octet] for octet in heard.octets]
            least = max(max(0, first, -last) for first, last in ranges)
            allowed = f"silence, at most {MOST_OF_SILENCE}"
            is_silent = least <= MOST_OF_SILENCE
            self.findings.judge(
                "lost.silent", is_silent, heard.place, f"a peak of {least}", allowed
            )

    def substitute(self, heard: HeardPeriod, good: Parameters, n: int) -> Explained:
        """What takes the place of the n-th lost frame: the most likely frames first."""
        fall = self.fall_of.get(n, MUTING_STEP * (n - 1))
        likely = [max(0, top - fall) for top in maxima(good)]
        tries: List[Sequence[Sequence[int]]] = [[(top,) for top in likely], [ANY_MAXIMUM] * 4]
        if n == 1:
            found = self.track.exactly(good, heard.octets)
            if found.frames:
                return found
        if n >= SILENT_FROM_LOST:
            found = self.track.exactly(SILENCE, heard.octets)
            if found.frames:
                return found
        for tops in tries:
            spaces = [space_of(block, top, GRIDS) for block, top in zip(good.blocks, tops)]
            found = self.track.searched(good.larc, spaces, heard.octets)
            if found.frames:
                return found
        return self.track.exactly(SILENCE, heard.octets)

    def judge_lost(
        self, heard: HeardPeriod, good: Parameters, n: int, frames: Sequence[Parameters]
    ) -> None:
        """Judges what took the place of a lost frame; if several frames may have, the one that
        keeps most."""
        tops = [max(0, top - MUTING_STEP * (n - 1)) for top in maxima(good)]
        frame = min(frames, key=lambda one: sum(a != b for a, b in zip(maxima(one), tops)))
        if frame != SILENCE:
            falls = [a - b for a, b in zip(maxima(good), maxima(frame)) if b]
            if falls and len(set(falls)) == 1:
                self.fall_of[n] = falls[0]
        self.judge_silence(heard, n, frame)
        if n == 1:
            measured = f"block maxima {maxima(frame)}, grid positions {grids(frame)}"
            allowed = f"{maxima(good)}, {grids(good)}"
            self.findings.judge("lost.repeated", frame == good, heard.place, measured, allowed)
        is_louder = self.is_louder(heard, frame)
        if 1 < n < SILENT_FROM_LOST and frame != SILENCE and not is_louder:
            is_ours = list(maxima(frame)) == tops
            self.findings.judge(
                "lost.muted", is_ours, heard.place, f"block maxima {maxima(frame)}", tuple(tops)
            )
            self.findings.drawn("lost.draws", len(frame.blocks))

    def is_louder(self, heard: HeardPeriod, frame: Parameters) -> bool:
        """Whether what took the place of a lost frame is louder than the frame before."""
        if self.before is None:
            return False
        is_louder = any(a > b for a, b in zip(maxima(frame), maxima(self.before)))
        measured, allowed = f"block maxima {maxima(frame)}", f"at most {maxima(self.before)}"
        self.findings.judge("lost.never-louder", not is_louder, heard.place, measured, allowed)
        return is_louder

    def judge_silence(self, heard: HeardPeriod, n: int, frame: Parameters) -> None:
        """From 320 ms on there is silence."""
        if n >= SILENT_FROM_LOST:
            measured = f"block maxima {maxima(frame)}"
            is_silent = not any(maxima(frame))
            self.findings.judge("lost.silent", is_silent, heard.place, measured, 0)
            if is_silent:
                measured += f", LARc {frame.larc}"
                self.findings.judge(
                    "lost.frame-of-silence", frame == SILENCE, heard.place, measured, "that frame"
                )
        elif frame == SILENCE:
            measured = f"silence in the lost frame {n}"
            self.findings.broken("lost.frame-of-silence", heard.place, measured, SILENT_FROM_LOST)

    # Noise, and where the call is quiet.

    def in_noise(self, heard: HeardPeriod) -> None:
        """Comfort noise."""
        self.is_pure = False
        if not self.track.is_sure:
            self.noise.skip(heard.situation)
            self.counts.passed(Hears.NOISE, heard.place)
            self.track.lose()
            self.before = None
            return
        found = self.noise.search(heard.situation, heard.octets)
        if not found.frames and self.is_own(heard):
            self.noise.skip(heard.situation)
            return
        found = found if found.frames else self.noise.search_further(heard.situation, heard.octets)
        if found.frames:
            self.counts.judged(Hears.NOISE)
            is_new = heard.situation.since == 0
            self.kinds.judge(heard.place, heard.period, Taken.DESCRIPTOR if is_new else Taken.LOST)
            self.noise.judge(heard.place, heard.situation, found, self.before)
        else:
            self.counts.unexplained(heard.situation, heard.place, heard.octets)
            self.noise.skip(heard.situation)
        self.taken(found)

    def quiet(self, heard: HeardPeriod) -> None:
        """Idle octets, and after them a decoder in its initial state."""
        idle = bytes([self.idle]) * len(heard.octets)
        other = next((octet for octet in heard.octets if octet != self.idle), self.idle)
        measured, allowed = f"octet {other:#04x}", f"{self.idle:#04x} alone"
        self.findings.judge("lost.quiet", heard.octets == idle, heard.place, measured, allowed)
        self.track.lose(HOME)
        self.before, self.is_pure = None, False


def heard_periods(
    periods: Sequence[UpPeriod], known: Sequence[Situation], out: bytes, first: int
) -> List[HeardPeriod]:
    """The periods of the A side that a recording has; `first` is the octet at which the first
    period of the uplink begins there, which may be before the recording's."""
    found = []
    for k, situation in enumerate(known):
        start = first + 160 * k
        octets = out[max(0, start) : max(0, start + 160)]
        if start >= 0 and len(octets) == 160:
            place = place_of(periods[k].number())
            found.append(HeardPeriod(place, periods[k], situation, octets))
    return found
