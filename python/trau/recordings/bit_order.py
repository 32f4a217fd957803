"""The order of bits in the octets of a slot, by the frames in its channels of 16 kbit/s.

A slot can be read in four ways: with the bits of each octet in either order, and with its channels'
pairs from an even or an odd bit on. (By an even number of bits only the channels are numbered anew,
which no frame shows.) In the wrong order a frame's sync bits match too, one bit on. So each way is
read, and where several have about as many frames, those speak whose contents contradict themselves
least:

1. The bit before a frame is 1: the last time bit of the frame before, or the spare bit C21. In the
   wrong order it is a sync zero.
2. The spare bits are 1.
3. TAF isn't 1 in good speech. In the wrong order it is D1.
4. The lags of good speech are 40 to 120.
5. The log area ratios of good speech move less from a frame to the next than to any other.

Each rule speaks only where the two best ways are plainly apart. Where none does, the order isn't
known, and the ways are named.
"""

from dataclasses import dataclass, field
from typing import Dict, List, NamedTuple, Optional, Sequence, Tuple

from trau.rules import hunt
from trau.rules.frame import Bits, bits_of, control_of, data_of
from trau.rules.parameters import Parameters, parameters_of_bits
from trau.rules.profile import CHANNELS, DOWN_SPEECH, FRAME_BITS, UP_SPEECH
from trau.rules.search import FRAME_OF_DOWNLINK
from trau.rules.slots import channel_octets, octets_from, octets_turned
from trau.runs import frame_kinds

KNOWN_CODES = {*frame_kinds.UP, *frame_kinds.DOWN, *frame_kinds.OTHERS}
LEAST_ROW = 3
RIVAL_SHARE = 0.5  # of the most frames, from which on another way counts
LEAST_LAG, MOST_LAG = 40, 120
LAR_WEIGHTS = (1, 1, 2, 2, 4, 4, 8, 8)  # a step of each coded log area ratio, beside the finest
LEAST_TO_STRAY = 10  # frames of good speech from which on their ratios are compared


class BitWay(NamedTuple):
    """A way to read a slot: with its bits in the other order or not, and from an even (0) or an odd
    bit (1) on."""

    turned: bool
    bit: int

    def read(self, octets: bytes) -> bytes:
        """The octets of a slot, read in this way."""
        return octets_from(octets_turned(octets) if self.turned else octets, self.bit)


class BitOrder(NamedTuple):
    """What the frames of a slot say: the ways in which it may be read, one where they decide, none
    where there are no frames; and the rule that decided, "nothing" or "undecided"."""

    ways: Tuple[BitWay, ...]
    rule: str


class PrecededFrame(NamedTuple):
    """A frame of a row, and the bit before it."""

    before: Bits
    frame: Bits


class BitOrderRule(NamedTuple):
    """A rule: its word; up to which share of contradictions a way is believed; and how much less
    that has to be than in the next."""

    word: str
    most: float
    lead: float


COUNT, NOTHING, UNDECIDED = "count", "nothing", "undecided"
BEFORE, SPARE, TAF, LAG, RATIOS = "before", "spare", "taf", "lag", "ratios"
RULES = (
    BitOrderRule(BEFORE, 0.25, 0.5),
    BitOrderRule(SPARE, 0.1, 0.1),
    BitOrderRule(TAF, 0.15, 0.15),
    BitOrderRule(LAG, 0.03, 0.06),
    BitOrderRule(RATIOS, 0.85, 0.12),
)
WAYS = [BitWay(turned, bit) for turned in (False, True) for bit in (0, 1)]


def share(part: float, whole: float) -> float:
    """A part of a whole, 0 of nothing."""
    return part / whole if whole else 0.0


@dataclass
class Evidence:
    """What contradicts itself in the frames of a way, counted."""

    frames: int = 0
    before: int = 0  # frames after a 0
    spare: int = 0  # spare bits that are 0
    good: int = 0  # frames of good speech
    taf: int = 0  # of them with TAF 1
    lags: int = 0  # lags outside of 40 to 120, four to a frame
    moves: float = 0.0  # of log area ratios from a frame to the next
    strays: float = 0.0  # from a frame to one far from it
    ratios: List[Tuple[int, ...]] = field(default_factory=list)  # of the channel that is read

    def take(self, found: PrecededFrame) -> None:
        """One more frame of the channel."""
        control = control_of(found.frame)
        is_up, is_down = control.startswith(UP_SPEECH), control.startswith(DOWN_SPEECH)
        self.frames += 1
        self.before += found.before == "0"
        if is_up:
            self.spare += (control[15] + control[17:21]).count("0")
        elif is_down:
            self.spare += control[11:15].count("0") + control[16:21].count("0")
        if is_up and control[11:14] == "000" or is_down and control[15] == "1":
            self.take_speech(is_up and control[14] == "1", parameters_of_bits(data_of(found.frame)))

    def take_speech(self, taf: bool, parameters: Parameters) -> None:
        """A frame of good speech."""
        self.good += 1
        self.taf += taf
        self.lags += sum(not LEAST_LAG <= block.nc <= MOST_LAG for block in parameters.blocks)
        self.ratios.append(parameters.larc)

    def end_channel(self) -> None:
        """Compares the log area ratios of the channel's speech."""
        ratios, half = self.ratios, len(self.ratios) // 2
        self.moves += total_distance(ratios, ratios[1:])
        if len(ratios) >= LEAST_TO_STRAY:
            self.strays += total_distance(ratios, ratios[half:] + ratios[:half])
        self.ratios = []

    def shares(self) -> Dict[str, float]:
        """By rule, which share contradicts itself."""
        return {
            BEFORE: share(self.before, self.frames),
            SPARE: share(self.spare, 5 * self.frames),
            TAF: share(self.taf, self.good),
            LAG: share(self.lags, 4 * self.good),
            RATIOS: share(self.moves, self.strays),
        }


def total_distance(some: Sequence[Sequence[int]], others: Sequence[Sequence[int]]) -> float:
    """How far coded log area ratios are apart, pair by pair."""
    return sum(
        abs(one - other) * weight
        for pair in zip(some, others)
        for one, other, weight in zip(*pair, LAR_WEIGHTS)
    )


def in_rows(bits: Bits) -> List[PrecededFrame]:
    """The frames of known kinds in a channel that follow one another, three or more, with at most a
    frame between."""
    rows: List[PrecededFrame] = []
    row: List[PrecededFrame] = []
    end: Optional[int] = None
    for found in FRAME_OF_DOWNLINK.finditer(bits):
        if end is not None and found.start() - end > FRAME_BITS:
            rows += row if len(row) >= LEAST_ROW else []
            row = []
        end = found.end()
        if frame_kinds.code_of(found.group()) in KNOWN_CODES:
            row.append(PrecededFrame(bits[found.start() - 1 : found.start()], found.group()))
    return rows + (row if len(row) >= LEAST_ROW else [])


def evidence_of(slot: bytes) -> Evidence:
    """The evidence in a slot that was read in one way."""
    evidence = Evidence()
    found = hunt.marks(hunt.hits(slot, 1), len(slot))
    for channel in range(CHANNELS) if found else ():
        of_channel = int.from_bytes(bytes([0xC0 >> 2 * channel]) * len(slot), "big")
        if bin(found & of_channel).count("1") >= LEAST_ROW:
            for each in in_rows(bits_of(channel_octets(slot, channel))):
                evidence.take(each)
            evidence.end_channel()
    return evidence


def decide(slot: bytes) -> BitOrder:
    """In which ways the octets of a slot may be read; one of them where its frames decide."""
    found = {way: evidence_of(way.read(slot)) for way in WAYS}
    most = max(evidence.frames for evidence in found.values())
    if not most:
        return BitOrder((), NOTHING)
    rivals = tuple(way for way in WAYS if found[way].frames >= RIVAL_SHARE * most)
    if len(rivals) == 1:
        return BitOrder(rivals, COUNT)
    shares = {way: found[way].shares() for way in rivals}
    for rule in RULES:
        best, second = sorted(rivals, key=lambda way: shares[way][rule.word])[:2]
        least = shares[best][rule.word]
        if least <= rule.most and shares[second][rule.word] - least >= rule.lead:
            return BitOrder((best,), rule.word)
    return BitOrder(rivals, UNDECIDED)
