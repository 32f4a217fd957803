"""What each period of an uplink yields, by columns of octets. It is the search of `core.search`,
which goes bit by bit; a period takes an octet here, and an hour of a line some hundredths of a
second."""

import re
from typing import Iterator, List, NamedTuple, Optional, Tuple

from trau.rules.frame import FrameKind, shift_of
from trau.rules.profile import FRAME_BITS, FRAME_OCTETS, MISSES_TO_HUNT, UP_IDLE, UP_SPEECH
from trau.rules.search import period_of
from trau.runs.octet_columns import FIRST_BITS, LAST_BITS, FrameColumns, joined, number, table

FRAME_KINDS = tuple(FrameKind)
SPEECH, VALID_SID, INVALID_SID, UNUSABLE, IDLE, OTHER, MISSED, NONE = range(
    len(FRAME_KINDS)
)  # codes: the places of the kinds in their order

# The frame's octets 2 and 3 are a sync bit, C1 to C5 (what it is), C6 to C11 (the alignment field),
# C12 (BFI), C13 and C14 (SID), C15 (TAF).
IS_IDLE, IS_OTHER, IS_MISSED = 0x10, 0x20, 0x40
PATTERNS = {int(UP_SPEECH, 2): 0, int(UP_IDLE, 2): IS_IDLE}
PATTERN = table(lambda octet: PATTERNS.get(octet >> 2 & 31, IS_OTHER))
FIELD_FRONT = table(lambda octet: (octet & 3) << 4)
FIELD_BACK = table(lambda octet: octet >> 4)


def speech_code(octet: int) -> int:
    """The code of a speech frame by its octet 3."""
    bad, silence = octet & 8, octet >> 1 & 3
    if silence == 0:
        return UNUSABLE if bad else SPEECH
    return VALID_SID if silence == 2 and not bad else INVALID_SID


def code_of_marks(marks: int) -> int:
    """The code of a frame by what its octets say, and whether it was missed."""
    if marks & IS_MISSED:
        return MISSED
    if marks & IS_OTHER:
        return OTHER
    return IDLE if marks & IS_IDLE else marks & 3


CLASS = table(speech_code)
CODE = table(code_of_marks)
ZERO_IS_MISSED = table(lambda octet: 0 if octet else IS_MISSED)
OTHERWISE_MISSED = table(lambda octet: IS_MISSED if octet else 0)


NO_FIELD = 0x40
WITHOUT_FIELD = table(lambda code: NO_FIELD if code in (OTHER, MISSED) else 0)
ASKING = table(lambda field: field if field < NO_FIELD and shift_of(field) else 0)


def missed(frames: FrameColumns) -> bytes:
    """Which frames are missed, by their 35 sync bits: IS_MISSED or 0 of each."""
    ones = number(frames.raw(2))
    for at in range(4, FRAME_OCTETS, 2):
        ones &= number(frames.raw(at))
    ones &= number(bytes([0x80 >> frames.bit]) * frames.count)
    zeros = joined(
        frames.raw(0).translate(LAST_BITS[frames.bit]),
        frames.raw(1),
        frames.raw(2).translate(FIRST_BITS[frames.bit]),
    )
    return joined(
        ones.to_bytes(frames.count, "big").translate(ZERO_IS_MISSED),
        zeros.translate(OTHERWISE_MISSED),
    )


def read(frames: FrameColumns) -> Tuple[bytes, bytes]:
    """The code of each frame, and the alignment field of each that asks for a shift, 0 of the
    others."""
    front, back = frames.column(2), frames.column(3)
    codes = joined(front.translate(PATTERN), back.translate(CLASS), missed(frames)).translate(CODE)
    fields = joined(
        front.translate(FIELD_FRONT), back.translate(FIELD_BACK), codes.translate(WITHOUT_FIELD)
    )
    return codes, fields.translate(ASKING)


# The hunt for a frame at any bit. Sixteen zeros and a one have a zero octet, and after it one that
# isn't zero.


def octets_with(wanted: Iterator[int]) -> bytes:
    """A pattern of one of these octets."""
    return b"[" + b"".join(b"\\x%02x" % octet for octet in wanted) + b"]"


def frame_at_bit(bit: int) -> bytes:
    """The pattern of a frame that begins at this bit of an octet."""
    one = 0x80 >> bit
    front = octets_with(octet for octet in range(256) if not octet & 0xFF >> bit)
    back = octets_with(octet for octet in range(256) if octet & one and not octet & ~(0xFF >> bit))
    later = octets_with(octet for octet in range(256) if octet & one)
    return front + rb"\x00" + back + b"." + b"(?:" + later + b".){18}" + (b"." if bit else b"")


FRAMES_AT_BITS = [re.compile(frame_at_bit(bit), re.DOTALL) for bit in range(8)]
FRAME_ANYWHERE = re.compile(
    rb"(?=.\x00[^\x00])(?:" + b"|".join(b"(" + frame_at_bit(bit) + b")" for bit in range(8)) + b")",
    re.DOTALL,
)


def hunt(octets: bytes, place: int) -> Optional[int]:
    """The first bit, from a place on, at which a frame stands, or None."""
    first, start = divmod(place, 8)
    for bit in range(start, 8):
        if FRAMES_AT_BITS[bit].match(octets, first):
            return 8 * first + bit
    found = FRAME_ANYWHERE.search(octets, first + 1)
    # Each bit of an octet has a group of the pattern.
    return 8 * found.start() + (found.lastindex or 1) - 1 if found else None


# The search

LEAST_AHEAD, MOST_AHEAD = (
    64,
    16384,
)  # frames that are read together; few if the search keeps losing its frames


class Track(NamedTuple):
    """Frames in a row, found or missed, each 320 bits after the one before."""

    place: int
    codes: bytes
    fields: bytes

    def period(self) -> int:
        """The period that holds the last bit of the first one."""
        return period_of(self.place)


def tracks(octets: bytes) -> Iterator[Track]:
    """The frames of an uplink as the search yields them."""
    place, ahead = hunt(octets, 0), LEAST_AHEAD
    while place is not None:
        left = (8 * len(octets) - place) // FRAME_BITS
        if left == 0:
            return
        codes, fields = read(FrameColumns(octets, place, min(left, ahead)))
        lost = codes.find(bytes([MISSED]) * MISSES_TO_HUNT)
        if lost >= 0:
            codes = codes[: lost + MISSES_TO_HUNT]
        elif len(codes) < left:
            codes = codes.rstrip(bytes([MISSED]))  # these may be the first of three
        yield Track(place, codes, fields[: len(codes)])
        place += FRAME_BITS * len(codes)
        ahead = min(2 * ahead, MOST_AHEAD)
        if lost >= 0:
            place, ahead = hunt(octets, place), LEAST_AHEAD


class Asking(NamedTuple):
    """A period whose frame asks for a shift of the downlink's timing, by so many octets of the Pcm
    line."""

    period: int
    octets: int


class Searched(NamedTuple):
    """What an uplink gives: the code of each whole period's kind, and the periods that ask for
    shifts."""

    kinds: bytes
    asking: List[Asking]


def searched(octets: bytes) -> Searched:
    """Searches an uplink over its whole periods of 40 octets."""
    periods = len(octets) // FRAME_OCTETS
    kinds, asked = bytearray([NONE]) * periods, bytearray(periods)
    for track in tracks(octets[: periods * FRAME_OCTETS]):
        here = slice(track.period(), track.period() + len(track.codes))
        kinds[here], asked[here] = track.codes, track.fields
    asking = [
        Asking(found.start(), shift_of(asked[found.start()]))
        for found in re.finditer(rb"[^\x00]", asked)
    ]
    return Searched(bytes(kinds), asking)


# What came before a period

USED = re.compile(
    rb"(?:^|[\x00\x01\x04])[^\x00\x01\x04]+"
)  # unusable frames, after a usable one if any


def by_what_came_before(kinds: bytes, good: bytes, pause: bytes, quiet: bytes) -> bytes:
    """The periods' codes, where each frame that isn't good, a descriptor or idle is changed by a
    table: that for frames behind a good one, behind a descriptor, or behind an idle one and before
    the first."""
    after = {SPEECH: good, VALID_SID: pause, IDLE: quiet}

    def changed(found: re.Match) -> bytes:
        codes = found.group()
        if codes[0] in after:
            return codes[:1] + codes[1:].translate(after[codes[0]])
        return codes.translate(quiet)

    return USED.sub(changed, kinds)
