"""Counts the periods of a recording that were judged, those that weren't, and those whose octets no
rule explains. A verdict is sure only if nothing is left unexplained and most was judged."""

import math
from dataclasses import dataclass, field
from typing import Dict, List, NamedTuple, Sequence, Tuple

from trau.rules.g711 import Law, expand_all

from trau.suite.box_findings import Findings, Place
from trau.suite.box_uplink import Hears, Situation

LEAST_JUDGED = 0.5  # of the periods of a kind
FEW_PERIODS = 3  # of a kind, which don't count
NAMES = {Hears.GOOD: "good frames", Hears.LOST: "lost frames", Hears.NOISE: "comfort noise"}
GONE = -60.0  # dB, below which there is no sound


def is_flat(octets: Sequence[int]) -> bool:
    """Whether all octets are the same: a line without sound."""
    return len(set(octets)) == 1


def period_said(situation: Situation) -> str:
    """What a receiver should have made sound of in a period."""
    since = situation.since
    if situation.hears is Hears.LOST:
        return f"lost frame {since} after a good one"
    if situation.hears is Hears.NOISE:
        return f"noise {since} periods after a silence descriptor"
    return "a good frame"


def sound_said(octets: Sequence[int], law: Law) -> str:
    """What a line has in a period."""
    if is_flat(octets):
        return f"{len(octets)} octets {octets[0]:#04x}"
    peak = max(abs(sample) for sample in expand_all(law, bytes(octets)))
    return f"sound with a peak of {peak}"


@dataclass
class KindCount:
    """The periods of a kind: how many were judged; where the others are; and those of them that
    nothing explains, with what they have."""

    judged: int = 0
    missed: List[Place] = field(default_factory=list)
    unexplained: List[Tuple[Place, str]] = field(default_factory=list)

    def seen(self) -> int:
        """How many there are."""
        return self.judged + len(self.missed)

    def is_mostly_judged(self) -> bool:
        """Whether so few weren't judged that it doesn't matter."""
        few = len(self.missed) <= FEW_PERIODS
        return few or self.judged >= LEAST_JUDGED * self.seen()


class PeriodCounts:
    """The counts by what a receiver should hear."""

    def __init__(self, law: Law) -> None:
        self.law = law
        self.counts: Dict[Hears, KindCount] = {hears: KindCount() for hears in NAMES}

    def judged(self, hears: Hears, with_last: bool = False) -> None:
        """Counts a period that was judged; with it the last one that hadn't been, if it says so."""
        count = self.counts[hears]
        count.judged += 1
        if with_last and count.missed:
            count.missed.pop()
            count.judged += 1

    def passed(self, hears: Hears, place: Place) -> None:
        """Counts a period that couldn't be judged, as the decoder's state wasn't known."""
        self.counts[hears].missed.append(place)

    def unexplained(self, situation: Situation, place: Place, octets: Sequence[int]) -> None:
        """Counts a period that nothing explains."""
        became = f"{period_said(situation)} became {sound_said(octets, self.law)}"
        self.left_open(situation, place, became)

    def left_open(self, situation: Situation, place: Place, said: str) -> None:
        """Counts a period of which nothing explains what is said."""
        self.passed(situation.hears, place)
        self.counts[situation.hears].unexplained.append((place, said))

    def conclude(self, findings: Findings) -> None:
        """Says what isn't sure, a sentence for each kind of period."""
        for hears, count in self.counts.items():
            left = f"{len(count.missed)} of {count.seen()} periods of {NAMES[hears]} aren't judged"
            if count.unexplained:
                place, said = count.unexplained[0]
                findings.not_sure(place, f"{said}, which no rule explains; {left}")
            elif not count.is_mostly_judged():
                findings.not_sure(count.missed[0], f"the decoder's state isn't known; {left}")


class SoundLikeness(NamedTuple):
    """How like what a decoder makes of frames the sound of a line is: by how many dB it is louder,
    and by how many dB softer what is beside it."""

    gain: float
    margin: float

    def said(self) -> str:
        """In words."""
        return (
            f"the sound has that of the frames at {self.gain:+.1f} dB, and beside it something else"
            f" at {self.gain - self.margin:+.0f} dB"
        )


def likeness_of(law: Law, pairs: Sequence[Tuple[List[int], bytes]]) -> SoundLikeness:
    """The likeness of the octets of frames to their samples."""
    products = own = heard = 0
    for samples, octets in pairs:
        line = expand_all(law, octets)
        products += sum(a * b for a, b in zip(samples, line))
        own += sum(a * a for a in samples)
        heard += sum(b * b for b in line)
    if products <= 0 or own == 0:
        return SoundLikeness(GONE, 0.0)
    like = products * products / own
    differs = max(heard - like, like / 10**6)
    return SoundLikeness(20 * math.log10(products / own), 10 * math.log10(like / differs))
