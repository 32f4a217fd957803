"""Excerpts of a recording: octets at several places, by which its kind is known. They are the head,
what follows an idle start, and places over the whole recording.

Which they are depends on the content alone, and not on how it is read, so that all commands see the
same of a recording.
"""

import mmap
from typing import Callable, Dict, Iterable, Iterator, List, NamedTuple, Tuple, Union

EXCERPT_OCTETS = 1 << 16  # a quarter of a second of an E1 line
MOST_PLACES = 8  # beside the end of an idle start
# An idle recording repeats itself: a line of 32 slots with the signal after 64 octets, with the
# multiframe of a checksum after 512.
IDLE_PERIOD = 512


class Excerpt(NamedTuple):
    """Octets of a recording, and where they begin in it: at a multiple of IDLE_PERIOD."""

    place: int
    octets: bytes


class Excerpts(NamedTuple):
    """A recording's size in octets, how many of them at its start repeat themselves, and excerpts
    in their order, of which the first is the head."""

    size: int
    idle: int
    parts: Tuple[Excerpt, ...]

    def head(self) -> bytes:
        """The first octets."""
        return self.parts[0].octets[:EXCERPT_OCTETS] if self.parts else b""

    def pieces(self, octets: int) -> Iterator[bytes]:
        """So many octets of each half of an excerpt, those after an idle start first."""
        busy = [part.octets for part in self.parts if part.place >= self.idle]
        start = [part.octets for part in self.parts if part.place < self.idle]
        for part in busy + start:
            for place in range(0, len(part), EXCERPT_OCTETS // 2):
                yield part[place : place + octets]

    def are_all(self, size: int) -> bool:
        """Whether they have so many octets of the recording's start, or these only repeat
        themselves."""
        seen = self.idle
        for part in self.parts:
            if part.place > seen:
                break
            seen = max(seen, part.place + len(part.octets))
        return seen >= size


def found(size: int, idle: int, parts: Iterable[Excerpt]) -> Excerpts:
    """Excerpts in their order, those that follow one another as one, but for an idle start."""
    ordered: List[Excerpt] = []
    end = 0
    for place, octets in sorted(part for part in parts if part.octets):
        if place < idle < size:
            octets = octets[: idle - place]
        octets = octets[max(0, end - place) :]
        place = max(place, end)
        if ordered and place == end != idle:
            before = ordered.pop()
            place, octets = before.place, before.octets + octets
        if octets:
            ordered.append(Excerpt(place, octets))
        end = place + len(octets)
    return Excerpts(size, idle, tuple(ordered))


def repeated(head: bytes, octets: int) -> bytes:
    """So many octets that repeat the first ones of a recording."""
    return (head[:IDLE_PERIOD] * (octets // IDLE_PERIOD + 1))[:octets]


def idle_within(block: bytes, pattern: bytes) -> int:
    """How many octets of a block repeat the pattern, in whole periods, if not all do."""
    if block == pattern[: len(block)]:
        return len(block)
    places = range(0, len(block), IDLE_PERIOD)
    return next(
        place
        for place in places
        if block[place : place + IDLE_PERIOD] != pattern[: min(IDLE_PERIOD, len(block) - place)]
    )


def excerpts_at(size: int, read: Callable[[int, int], bytes]) -> Excerpts:
    """The excerpts of a recording of so many octets, of which `read` gives so many from a place
    on."""
    stride = EXCERPT_OCTETS
    while -(-size // stride) > MOST_PLACES:
        stride *= 2
    parts = {place: read(place, EXCERPT_OCTETS) for place in range(0, size, stride)}
    pattern = repeated(parts.get(0, b""), EXCERPT_OCTETS)
    idle = 0
    while idle < size:
        block = read(idle, EXCERPT_OCTETS)
        same = idle_within(block, pattern)
        idle += same
        if same < len(block) or not block:
            break
    idle = idle if idle > IDLE_PERIOD or idle == size else 0  # the first period repeats itself
    if 0 < idle < size:
        parts[idle] = read(idle, EXCERPT_OCTETS)
    return found(size, idle, (Excerpt(*each) for each in parts.items()))


def excerpts_of(content: Union[bytes, mmap.mmap]) -> Excerpts:
    """The excerpts of a recording that is in memory."""
    return excerpts_at(len(content), lambda place, count: content[place : place + count])


def in_blocks(blocks: Iterable[bytes]) -> Iterator[bytes]:
    """The octets of blocks, in blocks of the size of an excerpt."""
    rest = bytearray()
    for block in blocks:
        rest += block
        place = 0
        for place in range(0, len(rest) - EXCERPT_OCTETS + 1, EXCERPT_OCTETS):
            yield bytes(rest[place : place + EXCERPT_OCTETS])
        del rest[: len(rest) // EXCERPT_OCTETS * EXCERPT_OCTETS]
    if rest:
        yield bytes(rest)


def excerpts_of_blocks(blocks: Iterable[bytes]) -> Excerpts:
    """The excerpts of a recording that comes in blocks, however long it is."""
    size, idle, is_idle, stride = 0, 0, True, EXCERPT_OCTETS
    parts: Dict[int, bytes] = {}
    pattern, after = b"", bytearray()
    for block in in_blocks(blocks):
        pattern = pattern or repeated(block, EXCERPT_OCTETS)
        if is_idle:
            same = idle_within(block, pattern)
            idle, is_idle = idle + same, same == len(block)
            after += block[same:]
        elif len(after) < EXCERPT_OCTETS:
            after += block[: EXCERPT_OCTETS - len(after)]
        if size % stride == 0:
            parts[size] = block
        if len(parts) > MOST_PLACES:
            stride *= 2
            parts = {place: octets for place, octets in parts.items() if place % stride == 0}
        size += len(block)
    idle = idle if idle > IDLE_PERIOD or idle == size else 0  # the first period repeats itself
    if 0 < idle < size:
        parts[idle] = bytes(after[:EXCERPT_OCTETS])
    return found(size, idle, (Excerpt(*each) for each in parts.items()))
