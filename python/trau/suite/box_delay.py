"""Finds where one line has what came of another: the octet at which a call's first period begins,
the bit in an octet, and the law. A guess that isn't sure is refused."""

from collections import Counter
from itertools import accumulate
from typing import Dict, Iterator, List, NamedTuple, Optional, Sequence, Tuple

from trau.rules.frame import Bits, octets_of
from trau.rules.g711 import Law, expand_all
from trau.rules.parameters import Parameters

from trau.suite.box_decoder import HOME, STANDARD, decode
from trau.suite.box_laws import CONVENTIONS, Convention, intervals

SETTLED = 4  # frames after which a decoder's first state hardly shows
LOUD = 500
CHUNK = 64  # samples at a frame's end that are sought as they are
MOST_CHUNKS = 40
LEAST_VOTES = 3
CLEAR = 3  # times as many votes as any other place
MOST_WINDOWS = 8
WINDOW = 480  # samples that are correlated
LEAST_LIKENESS = 0.5
NEAR = 20  # samples
AS_GOOD = 0.99  # of the square of the likeness, at another place
FIELD = 4  # octets of a sum in a product of long numbers
HALF = 128


class NotSure(Exception):
    """A delay that isn't sure; the text says why."""


class LoudStretch(NamedTuple):
    """Samples that should be found on the other line: their place on their own, in samples."""

    place: int
    samples: List[int]
    peak: int


class LineAlignment(NamedTuple):
    """Where a line has another: the octet of its first sample, the bit at which octets begin, the
    law, and how many stretches of how many were found there."""

    first: int
    bit: int
    law: Law
    votes: int
    of: int
    is_exact: bool


class JudgedSide(NamedTuple):
    """What was found of a side: how the lines lie, and how many frames there were."""

    alignment: LineAlignment
    place: int  # of the first frame, a bit of the line of frames
    frames: int

    def milliseconds(self) -> float:
        """From the first bit of a frame of the one line to its first octet on the other, if both
        begin at one moment."""
        return (self.alignment.first + self.alignment.bit / 8) / 8


def peak_of(samples: Sequence[int]) -> int:
    """The greatest magnitude."""
    return max(abs(sample) for sample in samples)


def frames_of_runs(frames: Sequence[Optional[Parameters]]) -> Iterator[Tuple[int, int, List[int]]]:
    """The samples of frames that came one after the other, with their number and how many came just
    before."""
    state, before = HOME, 0
    for k, frame in enumerate(frames):
        if frame is None:
            state, before = HOME, 0
            continue
        samples, state = decode(STANDARD, state, frame)
        yield k, before, samples
        before += 1


def stretches_of(
    frames: Sequence[Optional[Parameters]], starts: Sequence[int]
) -> List[LoudStretch]:
    """The loud frames in settled runs, with the place of each on its line, in samples."""
    found = [
        LoudStretch(starts[k], samples, peak_of(samples))
        for k, before, samples in frames_of_runs(frames)
        if before >= SETTLED
    ]
    return [each for each in found if each.peak >= LOUD]


def line_at(bits: Bits, bit: int) -> bytes:
    """The octets of a line that begin at this bit."""
    end = bit + (len(bits) - bit) // 8 * 8
    return octets_of(bits[bit:end])


def spread(items: Sequence[LoudStretch], most: int) -> List[LoudStretch]:
    """At most so many of these, from all over the recording."""
    step = max(1, len(items) // most)
    return list(items[::step][:most])


def places_of(octets: bytes, chunk: bytes) -> List[int]:
    """The places of a chunk; none if there are more than a few."""
    found: List[int] = []
    at = octets.find(chunk)
    while at >= 0 and len(found) < 4:
        found.append(at)
        at = octets.find(chunk, at + 1)
    return found if len(found) < 4 else []


def coded(law: Law, convention: Convention, samples: Sequence[int]) -> bytes:
    """Samples as octets of a law, by a convention."""
    table = tables_of(law, convention)
    return bytes(table[sample // 4] for sample in samples)


TABLES: Dict[Tuple[Law, Convention], Dict[int, int]] = {}


def tables_of(law: Law, convention: Convention) -> Dict[int, int]:
    """The octet of each sample by a quarter of it: decoded samples are multiples of 8."""
    key = law, convention
    if key not in TABLES:
        TABLES[key] = made_table(law, convention)
    return TABLES[key]


def made_table(law: Law, convention: Convention) -> Dict[int, int]:
    """The same, made from the intervals."""
    table: Dict[int, int] = {}
    for octet, (first, last) in enumerate(intervals(law)):
        move = convention.move(last < 0)
        for sample in range(first + move, last + move + 1):
            if sample % 4 == 0:
                table[sample // 4] = octet
    for sample in (-32768, 0):
        table.setdefault(sample // 4, table.get(sample // 4 + 1, 0))
    return table


def winner(votes: "Counter[int]") -> Optional[Tuple[int, int]]:
    """The place with clearly the most votes, and how many these are."""
    ranked = votes.most_common(2)
    if not ranked or ranked[0][1] < LEAST_VOTES:
        return None
    second = ranked[1][1] if len(ranked) > 1 else 0
    return ranked[0] if ranked[0][1] >= CLEAR * second else None


def found_exactly(
    stretches: Sequence[LoudStretch], bits: Bits, laws: Sequence[Law]
) -> Optional[LineAlignment]:
    """Where the stretches are found as they are."""
    chosen = spread(stretches, MOST_CHUNKS)
    for bit in range(8):
        octets = line_at(bits, bit)
        for law in laws:
            for convention in CONVENTIONS:
                votes: "Counter[int]" = Counter()
                for each in chosen:
                    chunk = coded(law, convention, each.samples[-CHUNK:])
                    start = each.place + len(each.samples) - CHUNK
                    votes.update(at - start for at in places_of(octets, chunk))
                best = winner(votes)
                if best:
                    return LineAlignment(best[0], bit, law, best[1], len(chosen), True)
    return None


def summed_products(pattern: Sequence[int], line: Sequence[int]) -> List[int]:
    """The sum of the products of a pattern and a line at each place, both from -128 to 127: one
    product of two long numbers, whose digits are shifted to be positive."""

    def number(values: Sequence[int]) -> int:
        padded = b"".join(bytes((value + HALF, 0, 0, 0)) for value in values)
        return int.from_bytes(padded, "little")

    size, count = len(pattern), len(line) - len(pattern) + 1
    if count <= 0:
        return []
    product = number(pattern[::-1]) * number(line)
    octets = product.to_bytes(FIELD * (len(line) + size + 1), "little")
    sums = memoryview(octets).cast("I")[size - 1 : size - 1 + count]
    ahead = [0, *accumulate(line)]
    whole = sum(pattern)
    return [
        value - HALF * (ahead[k + size] - ahead[k]) - HALF * whole - HALF * HALF * size
        for k, value in enumerate(sums)
    ]


def likenesses(pattern: Sequence[int], line: Sequence[int]) -> List[float]:
    """How like a line is a pattern at each place: 1 for the same sound, 0 for none or the
    opposite."""
    top = peak_of(pattern) or 1
    small = [value * 127 // top for value in pattern]
    squares = [0, *accumulate(value * value for value in line)]
    own = sum(value * value for value in small) or 1
    size = len(small)
    return [
        value * value / (own * max(1, squares[k + size] - squares[k])) if value > 0 else 0.0
        for k, value in enumerate(summed_products(small, line))
    ]


def likest(pattern: Sequence[int], line: Sequence[int]) -> Tuple[int, float]:
    """The place at which a line is most like a pattern, and how like; 0 if another place is as
    good."""
    found = likenesses(pattern, line)
    if not found:
        return 0, 0.0
    best = max(found)
    place = found.index(best)
    others = found[: max(0, place - NEAR)] + found[place + NEAR + 1 :]
    is_alone = max(others, default=0.0) < AS_GOOD * best
    return place, best**0.5 if is_alone else 0.0


def windows_of(stretches: Sequence[LoudStretch]) -> List[LoudStretch]:
    """Stretches that follow one another, put together to windows."""
    found: List[LoudStretch] = []
    last: Optional[LoudStretch] = None
    for each in stretches:
        is_next = last is not None and last.place + len(last.samples) == each.place
        if last is not None and is_next and len(last.samples) < WINDOW:
            last = LoudStretch(last.place, last.samples + each.samples, max(last.peak, each.peak))
        else:
            last = each
        if len(last.samples) >= WINDOW:
            found.append(last)
            last = None
    return found


def votes_by_likeness(windows: Sequence[LoudStretch], line: Sequence[int]) -> "Counter[int]":
    """The places at which windows are found. If none of every second one is, the others aren't
    tried: most would have to be."""
    votes: "Counter[int]" = Counter()
    for chosen in (windows[::2], windows[1::2]):
        for each in chosen:
            place, likeness = likest(each.samples, line)
            if likeness >= LEAST_LIKENESS:
                votes[place - each.place] += 1
        if not votes:
            break
    return votes


def found_by_likeness(
    stretches: Sequence[LoudStretch], bits: Bits, laws: Sequence[Law]
) -> Optional[LineAlignment]:
    """Where the stretches are most like the line, if most of them agree to the sample."""
    chosen = spread(windows_of(stretches), MOST_WINDOWS)
    if len(chosen) < LEAST_VOTES:
        return None
    for bit in range(8):
        for law in laws:
            line = [sample >> 8 for sample in expand_all(law, line_at(bits, bit))]
            best = winner(votes_by_likeness(chosen, line))
            if best and 2 * best[1] > len(chosen):
                return LineAlignment(best[0], bit, law, best[1], len(chosen), False)
    return None


def alignment_of(
    stretches: Sequence[LoudStretch], bits: Bits, laws: Sequence[Law]
) -> LineAlignment:
    """Where a line has the stretches; refused if that isn't sure."""
    if not stretches:
        raise NotSure("there are no five good, loud speech frames in a row")
    found = found_exactly(stretches, bits, list(Law))
    if found and found.law not in laws:
        raise NotSure(f"the line has {found.law.value}, and not the law that was said")
    found = found or found_by_likeness(stretches, bits, laws)
    if found is None:
        raise NotSure("the delay isn't sure: no place has clearly the most of the speech")
    return found
