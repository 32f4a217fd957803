"""Which slot of A-law or mu-law carries the sound of an uplink: what a transcoder made of it, in
the same recording of a line.

The uplink is decoded by the C library. Where the transcoder keeps to the bit, stretches of 40
octets of the decoded sound are in its slot, all at one delay. Else the signs of the samples are
compared, at each delay up to 100 ms, in three parts of the call, two of which must name the same
slot and delay. A stretch alone isn't enough, as calls may have the same words. Loud good speech
alone is compared: comfort noise, and what stands for lost frames, differ from transcoder to
transcoder.
"""

from dataclasses import dataclass
from typing import Dict, List, NamedTuple, Optional, Sequence, Tuple

from trau.rules.profile import PCM_OCTETS

MOST_DELAY = 800  # octets, 100 ms
GOOD_BEFORE = 3  # periods of good speech that precede one that is compared
# Equal octets
TRIES = 8
EQUAL_OCTETS, EQUAL_FROM = 40, 60  # of the period, those that are sought
LEAST_DISTINCT = 8
LEAST_APART = 5  # periods from one try to the next
LEAST_EQUAL = 3  # tries that are found at one delay
# Signs
PARTS, LEAST_PARTS = 3, 2
LEAST_PART = 10  # periods of a part of the call
STRETCH = 25  # periods whose signs are compared
FEW = 5  # periods of a first look at each delay
LEAST_FEW = 0.70  # the share of equal signs in the first look
LOOKED_AGAIN = 8  # delays
LEAST_SHARE, LEAST_LEAD = 0.80, 0.08
MOST_CONSTANT = 0.9  # of a slot's octets
SIGNS = bytes(0x30 + (octet >> 7) for octet in range(256))  # a digit of base 2 of each octet

EQUAL, ALIKE = "equal octets", "signs"


class Decoded(NamedTuple):
    """An uplink decoded to the law of a slot: its octets from the slot's octet `start` on, how loud
    each period is, and which periods are good speech after good speech."""

    start: int
    octets: bytes
    loudness: Sequence[int]
    good: Sequence[bool]


class SlotSound(NamedTuple):
    """The octets of a slot that may carry sound, from one of them on."""

    start: int
    octets: bytes


class Match(NamedTuple):
    """The slot in which a decoded uplink was found, the delay in octets, and by what."""

    slot: int
    delay: int
    how: str


@dataclass(frozen=True)
class Likeness:
    """How much a slot at a delay is like the decoded uplink: the share of equal signs."""

    share: float
    slot: int
    delay: int


def loudest(decoded: Decoded, periods: int, first: int, end: int) -> List[int]:
    """The periods from which on so many are good speech, within these; the loudest first."""
    found = []
    for at in range(first, end - periods + 1):
        if all(decoded.good[at : at + periods]):
            found.append((sum(decoded.loudness[at : at + periods]), at))
    return [at for _, at in sorted(found, reverse=True)]


def apart(periods: Sequence[int]) -> List[int]:
    """The first of these periods that are apart from one another."""
    found: List[int] = []
    for at in periods:
        if all(abs(at - other) >= LEAST_APART for other in found):
            found.append(at)
        if len(found) == TRIES:
            break
    return found


def equal_match(decoded: Decoded, slots: Dict[int, SlotSound]) -> Optional[Match]:
    """The slot that has stretches of the decoded sound, all at one delay; none where two slots
    have."""
    found: Dict[Tuple[int, int], int] = {}
    for period in apart(loudest(decoded, 1, 0, len(decoded.good))):
        at = PCM_OCTETS * period + EQUAL_FROM
        piece = decoded.octets[at : at + EQUAL_OCTETS]
        if len(set(piece)) < LEAST_DISTINCT:
            continue
        for slot, sound in slots.items():
            begin = decoded.start + at - sound.start
            place = sound.octets.find(piece, max(0, begin), begin + MOST_DELAY + EQUAL_OCTETS)
            if place >= 0:
                key = slot, place - begin
                found[key] = found.get(key, 0) + 1
    sure = [key for key, tries in found.items() if tries >= LEAST_EQUAL]
    return Match(*sure[0], EQUAL) if len(sure) == 1 else None


def signs(octets: bytes) -> int:
    """The signs of samples as one number, the first one the highest bit."""
    return int(octets.translate(SIGNS), 2)


def count_ones(value: int) -> int:
    """How many bits are 1."""
    return bin(value).count("1")


def delays_at_first_look(mine: int, theirs: int, size: int, delays: int) -> List[int]:
    """The delays at which most of so many signs are equal, the best first. Their signs are `delays`
    more."""
    full, found = (1 << size) - 1, []
    for delay in range(delays + 1):
        differ = count_ones(theirs >> delays - delay & full ^ mine)
        if differ <= size * (1 - LEAST_FEW):
            found.append((differ, delay))
    return [delay for _, delay in sorted(found)[:LOOKED_AGAIN]]


def likeness(decoded: Decoded, period: int, few: int, slot: int, sound: SlotSound) -> Likeness:
    """How much a slot is like a stretch of the decoded sound, at the best delay; `few` is the
    loudest period in the stretch."""
    size, at = PCM_OCTETS * STRETCH, PCM_OCTETS * period
    begin = decoded.start + at - sound.start
    theirs = sound.octets[max(0, begin) : begin + size + MOST_DELAY]
    delays = len(theirs) - size
    if begin < 0 or delays < 0 or theirs.count(theirs[:1]) > MOST_CONSTANT * len(theirs):
        return Likeness(0.0, slot, 0)
    skipped, part = PCM_OCTETS * (few - period), PCM_OCTETS * FEW
    look = decoded.octets[at + skipped : at + skipped + part]
    window = theirs[skipped : skipped + part + delays]
    mine, all_theirs, full = signs(decoded.octets[at : at + size]), signs(theirs), (1 << size) - 1
    best = Likeness(0.0, slot, 0)
    for delay in delays_at_first_look(signs(look), signs(window), part, delays):
        equal = 1 - count_ones(all_theirs >> delays - delay & full ^ mine) / size
        if equal > best.share:
            best = Likeness(equal, slot, delay)
    return best


def part_match(
    decoded: Decoded, slots: Dict[int, SlotSound], first: int, end: int
) -> Optional[Tuple[int, int]]:
    """The slot and the delay that a part of the call names, if one is plainly better than each
    other."""
    places = loudest(decoded, STRETCH, first, end)
    if not places:
        return None
    few = loudest(decoded, FEW, places[0], places[0] + STRETCH)[0]
    found = [likeness(decoded, places[0], few, slot, sound) for slot, sound in slots.items()]
    found.sort(key=lambda each: each.share, reverse=True)
    second = found[1].share if len(found) > 1 else 0.0
    if found and found[0].share >= LEAST_SHARE and found[0].share - second >= LEAST_LEAD:
        return found[0].slot, found[0].delay
    return None


def alike_match(decoded: Decoded, slots: Dict[int, SlotSound]) -> Optional[Match]:
    """The slot and the delay that parts of the call name."""
    size = len(decoded.good) // PARTS
    if size < LEAST_PART:
        return None
    named = [part_match(decoded, slots, size * at, size * (at + 1)) for at in range(PARTS)]
    for each in named:
        if each and named.count(each) >= LEAST_PARTS:
            return Match(*each, ALIKE)
    return None


def match_of(decoded: Decoded, slots: Dict[int, SlotSound]) -> Optional[Match]:
    """The slot that carries the sound of an uplink, if that is sure."""
    return (equal_match(decoded, slots) or alike_match(decoded, slots)) if slots else None
