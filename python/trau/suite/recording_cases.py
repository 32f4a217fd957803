"""Lines to play to a unit, whose recording then shows each rule that a recording can show: loud
speech with losses of several lengths, descriptors with wrong bits, noise that approaches and falls,
misses, a line that moves, requests for shifts; and from the exchange speech and pauses."""

from typing import Dict, List

from trau.recordings.code_word import CODE_WORD_BITS
from trau.rules.frame import Bits, FrameKind, UpFrame, octets_of, write_up
from trau.rules.g711 import Law, compress_all
from trau.rules.parameters import Block, Parameters, bits_of_parameters
from trau.rules.profile import FRAME_BITS

from trau.suite import sounds
from trau.suite.cases import Case, case
from trau.suite.codec_cases import voice_octets
from trau.suite.operations import DESCRIPTOR, GOOD, IDLE, LOST, LOST_DUE, SAMPLES, words_of
from trau.suite.random_source import NamedSource
from trau.suite.reference import encoded

# Digits beside those of operations.
INVALID, MISSED, GAP, ANY_LAG = "5", "6", "7", "8"
ROW = GOOD * 12  # after which a decoder's state is known again
DIGITS = (
    (GOOD * 40 + LOST + ROW + LOST * 2 + ROW + LOST * 21 + ROW)
    + (MISSED + ROW + MISSED * 2 + ROW + MISSED * 3 + GAP + ROW + ANY_LAG * 4 + ROW)
    + (DESCRIPTOR + LOST * 11 + INVALID + LOST * 3 + DESCRIPTOR + LOST * 9 + ROW)
    + (DESCRIPTOR + (LOST * 11 + LOST_DUE) * 2 + LOST * 19 + ROW + IDLE * 3 + GOOD * 20)
)
FIELDS = {20: 5, 40: 63, 60: 62}  # requests for shifts, by periods
KINDS = {
    DESCRIPTOR: FrameKind.VALID_SID,
    INVALID: FrameKind.INVALID_SID,
    LOST: FrameKind.UNUSABLE,
    LOST_DUE: FrameKind.UNUSABLE,
    IDLE: FrameKind.IDLE,
}
LAGS_OUTSIDE = (0, 39, 121, 127)
WRONG_BITS = 5  # of the code word of an invalid descriptor
FIRST_BIT = (
    100  # of the first frame: so each ends in the midst of a period, before the gap and after
)
GAP_BITS = 5  # by which the line moves
PARTS = (60, 12, 30, 20, 26, 40, 80)  # frames of the line from the exchange: speech and pauses
LOUD, SOFT = 6000, 30
MISSED_SYNC = 304  # the sync bit that is wrong in a frame that is missed


def other_bits(data: Bits) -> Bits:
    """A descriptor whose lowest bits of pulses, outside of the code word, are 1."""
    pulses = {place - 2 for place in CODE_WORD_BITS if place - 2 not in CODE_WORD_BITS}
    free = {place for place in pulses if place + 1 in CODE_WORD_BITS}
    return "".join("1" if k in free else bit for k, bit in enumerate(data))


def wrong_bits(data: Bits, count: int) -> Bits:
    """A frame with so many wrong bits of the code word."""
    places = CODE_WORD_BITS[:count]
    return "".join("1" if k in places else bit for k, bit in enumerate(data))


class FrameData:
    """The data of the frames of an uplink, one after the other."""

    def __init__(self, name: str, digits: str) -> None:
        self.source = NamedSource(name)
        self.voice = iter(encoded(voice_octets(name, len(digits))))
        self.descriptors = 0

    def descriptor(self) -> Parameters:
        """A descriptor of loud noise."""
        peak = self.source.within(2000, 5000)
        noise = sounds.noise(self.source, SAMPLES * 3, peak)
        first, second = self.source.within(-3000, 3000), self.source.within(0, 2500)
        frame = encoded(words_of(sounds.resonated(noise, first, second)))[-1]
        block = Block(0, 0, 0, frame.blocks[0].xmaxc, (0,) * 13)
        return Parameters(frame.larc, (block,) * 4)

    def next(self, digit: str) -> Bits:
        """The data of the next frame."""
        speech = next(self.voice)
        if digit in (DESCRIPTOR, INVALID):
            self.descriptors += 1
            data = bits_of_parameters(self.descriptor())
            if digit == INVALID:
                return wrong_bits(data, WRONG_BITS)
            return other_bits(data) if self.descriptors % 2 else wrong_bits(data, 1)
        if digit == ANY_LAG:
            block = speech.blocks[0]._replace(nc=self.source.choice(LAGS_OUTSIDE), bc=3)
            speech = speech._replace(blocks=(block, *speech.blocks[1:]))
        return bits_of_parameters(speech)


def bits_of_period(digit: str, data: Bits, field: int) -> Bits:
    """The bits of a period of an uplink."""
    if digit == GAP:
        return "1" * GAP_BITS
    kind = KINDS.get(digit, FrameKind.SPEECH)
    frame = write_up(UpFrame(kind, digit == LOST_DUE, True, field, data))
    return frame[:MISSED_SYNC] + "0" + frame[MISSED_SYNC + 1 :] if digit == MISSED else frame


def recorded_uplink(name: str) -> bytes:
    """The uplink."""
    data = FrameData(name, DIGITS)
    parts = [
        bits_of_period(digit, data.next(digit), FIELDS.get(k, 0)) for k, digit in enumerate(DIGITS)
    ]
    bits = "1" * FIRST_BIT + "".join(parts)
    return octets_of(bits + "1" * (-len(bits) % FRAME_BITS))


def recorded_exchange(law: Law, name: str, periods: int) -> bytes:
    """The line from the exchange."""
    source, samples = NamedSource(name), []
    for place, length in enumerate(PARTS):
        is_pause = place % 2 == 1
        count = SAMPLES * length
        samples += (
            sounds.noise(source, count, SOFT) if is_pause else sounds.voice(source, length, LOUD)
        )
    return compress_all(law, samples[: SAMPLES * periods])


def cases() -> List[Case]:
    """The two incoming lines, for each law."""
    from trau.suite.call_cases import both

    found: List[Case] = []
    rules: Dict[Law, str] = {law: f"{law}.compress lost.muted noise.approach" for law in Law}
    for law in Law:
        name = f"recording {law}"
        up = recorded_uplink(name)
        periods = 8 * len(up) // FRAME_BITS
        given = both(up, recorded_exchange(law, name, periods))
        found.append(case(f"call-{law}", "recording", rules[law], given))
    return found
