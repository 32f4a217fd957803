"""The frames in excerpts of a recording: whether it is a line of them, of which kinds, and where the
first one begins."""

from __future__ import annotations

from collections import Counter
from fractions import Fraction
from typing import Iterable, Mapping, NamedTuple, Optional, Sequence, Tuple

from trau.recordings.excerpts import Excerpt, Excerpts
from trau.recordings.file_descriptions import FileKind
from trau.rules.frame import bits_of
from trau.rules.profile import FRAME_BITS
from trau.rules.search import FRAME_OF_DOWNLINK
from trau.runs import frame_kinds


class FoundFrames(NamedTuple):
    """The frames that were found in bits: those of an uplink and those of a downlink, those of
    other kinds by C1 to C5, the bit at which the first one begins, and the part of the bits from
    there to the end of the last one that frames cover; whether it is certain that none comes
    before it, and whether the whole recording was looked at."""

    up: int
    down: int
    others: Mapping[str, int]
    first: int
    covered: float
    is_first: bool = True
    in_all: bool = True

    def total(self) -> int:
        """How many they are."""
        return self.up + self.down + sum(self.others.values())


# Sync bits and code words come by chance too, as in programs and in loud square waves, but those of
# speech hardly in a row.
LEAST_ROW = 3
# In a channel, which has two of the eight bits of an octet, the signs and segments of idle sound
# look like a frame at times.
LEAST_COVERED = 0.5
WAYS = ("up", "down")
ZEROS, ONES_APART, LAST_ONE = 16, 16, 304  # of the sync bits: f[0] to f[15]; f[16], f[32] to f[304]


def may_have_frames(octets: bytes) -> bool:
    """Whether all sync bits of a frame are anywhere in these octets, at any bit."""
    ones = int.from_bytes(octets, "big")
    zeros = ones ^ (1 << 8 * len(octets)) - 1
    for doubled in (1, 2, 4, 8, 3):  # 2, 4, 8, 16 and 19 ones
        ones &= ones >> doubled * ONES_APART
    for doubled in (1, 2, 4, 8):
        zeros &= zeros >> doubled
    return bool(ones & zeros >> LAST_ONE - (ZEROS - 1))


def frames_of(octets: bytes) -> Optional[FoundFrames]:
    """The frames of a line. Sync bits alone may come by chance, so most frames must have known code
    words. Some of full rate speech must follow one another, or the frames must be most of what is
    there. Those in a row are of one way, or of one other kind, and each begins where the one before
    ended, or after a shift of the timing."""
    if not may_have_frames(octets):
        return None
    bits = bits_of(octets)
    counts: Counter = Counter()
    most_in_row: Counter = Counter()
    first: Optional[int] = None
    way, end, row = "", 0, 0
    for found in FRAME_OF_DOWNLINK.finditer(bits):
        before, code = way, frame_kinds.code_of(found.group())
        way = "up" if code in frame_kinds.UP else "down" if code in frame_kinds.DOWN else code
        row = row + 1 if way == before and found.start() - end < FRAME_BITS else 1
        end = found.end()
        counts[way] += 1
        most_in_row[way] = max(most_in_row[way], row)
        if first is None and way in (*WAYS, *frame_kinds.OTHERS):
            first = found.start()
    others = {code: count for code, count in counts.items() if code in frame_kinds.OTHERS}
    known = counts["up"] + counts["down"] + sum(others.values())
    if first is None or 2 * known < sum(counts.values()):
        return None
    covered = known * FRAME_BITS / (end - first)
    are_few = known * FRAME_BITS < LEAST_COVERED * len(bits)
    are_few = are_few and max(most_in_row.values()) < LEAST_ROW
    if max(most_in_row["up"], most_in_row["down"]) < LEAST_ROW and (
        are_few or covered < LEAST_COVERED
    ):
        return None
    return FoundFrames(counts["up"], counts["down"], others, first, covered)


def joined(
    each: Sequence[Tuple[Excerpt, FoundFrames]], of: Excerpts, bits: Fraction
) -> Optional[FoundFrames]:
    """The frames of those excerpts of a recording that have some. A line of them has so many bits
    of each octet of the recording."""
    if not each:
        return None
    others: Counter = Counter()
    for _, frames in each:
        others.update(frames.others)
    part, first = each[0]
    return FoundFrames(
        sum(frames.up for _, frames in each),
        sum(frames.down for _, frames in each),
        others,
        int(part.place * bits) + first.first,
        min(frames.covered for _, frames in each),
        of.are_all(part.place),
        of.are_all(of.size),
    )


def frames_of_line(of: Excerpts, parts: Iterable[Excerpt]) -> Optional[FoundFrames]:
    """The frames of a line by excerpts of it. `parts` are these, or the same in another order of
    bits."""
    found = ((part, frames_of(part.octets)) for part in parts)
    return joined([(part, frames) for part, frames in found if frames], of, Fraction(8))


def others_said(frames: FoundFrames) -> str:
    """The frames of a line of speech that aren't full rate, in words; one or two may be there by
    chance."""
    counts = Counter({code: count for code, count in frames.others.items() if count >= LEAST_ROW})
    kinds = " and ".join(
        f"{count} are {frame_kinds.said_of(code)}" for code, count in counts.most_common()
    )
    where = "" if frames.in_all else " where it was looked at"
    return (
        f"; of the {frames.total()} frames{where} {kinds}, which trau doesn't decode"
        if kinds
        else ""
    )


def line_said(frames: FoundFrames) -> Tuple[FileKind, str]:
    """The kind of a line of frames, and the same in words."""
    place = f"{'its first' if frames.is_first else 'a'} frame at bit {frames.first}"
    if not frames.up + frames.down:
        code = max(frames.others, key=frames.others.__getitem__)
        return (
            FileKind.OTHER_FRAMES,
            f"a line of {frame_kinds.said_of(code)}, which trau doesn't decode, {place}",
        )
    kind = FileKind.UPLINK if frames.up >= frames.down else FileKind.DOWNLINK
    return kind, f"{kind.value}, {place}{others_said(frames)}"
