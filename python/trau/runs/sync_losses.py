"""Where and why the search for frames lost an uplink: which of the 35 sync bits broke, what the
search did, and where the next match is."""

from dataclasses import dataclass, field
from pathlib import Path
from typing import Iterator, List, NamedTuple, Optional, Sequence

from trau.command_line.words import Refusal
from trau.rules.frame import bits_of
from trau.rules.profile import FRAME_BITS, FRAME_OCTETS, MISSES_TO_HUNT
from trau.rules.search import FRAME, Yield, end_of_text, search


SYNC_ZEROS = tuple(range(16))
SYNC_ONES = tuple(range(16, FRAME_BITS, 16))


def broken_bits(bits: str, place: int) -> List[int]:
    """The places, from 0 to 319 in a frame that begins here, of the sync bits that don't match."""
    frame = bits[place : place + FRAME_BITS]
    return [at for at in SYNC_ZEROS if frame[at] != "0"] + [
        at for at in SYNC_ONES if frame[at] != "1"
    ]


class Miss(NamedTuple):
    """A frame that was due at a place, and the sync bits that broke there."""

    place: int
    broken: List[int]


@dataclass
class Loss:
    """Misses in a row after a frame, the next frame that the search found, and the next match at
    any bit."""

    misses: List[Miss] = field(default_factory=list)
    found: Optional[int] = None
    match: Optional[int] = None

    def due(self) -> int:
        """Where the first missed frame was due."""
        return self.misses[0].place

    def unlocked(self) -> Optional[int]:
        """The bit from which the search hunted, or None if it stayed locked."""
        if len(self.misses) < MISSES_TO_HUNT:
            return None
        return self.misses[-1].place + FRAME_BITS

    def slip(self) -> Optional[int]:
        """The distance in bits, -159 to 160, of the next match from the places where frames were
        due; None without a match."""
        if self.match is None:
            return None
        offset = (self.match - self.due()) % FRAME_BITS
        return offset if offset <= FRAME_BITS // 2 else offset - FRAME_BITS


def losses_of(bits: str, yields: Sequence[Yield]) -> Iterator[Loss]:
    """The losses of an uplink, in their order."""
    loss = Loss()
    for each in yields:
        if each.frame is None:
            loss.misses.append(Miss(each.place, broken_bits(bits, each.place)))
        elif loss.misses:
            loss.found = each.place
            yield matched(bits, loss)
            loss = Loss()
    if loss.misses:
        yield matched(bits, loss)


def matched(bits: str, loss: Loss) -> Loss:
    """The loss with the next match at any bit after the frame before it."""
    # A match may begin inside the frame before, where bits were left out.
    match = FRAME.search(bits, max(0, loss.due() - FRAME_BITS + 1))
    return Loss(loss.misses, loss.found, match.start() if match else None)


class SearchedUplink(NamedTuple):
    """An uplink as it was searched."""

    periods: int
    frames: int
    misses: int
    first: Optional[int]
    losses: List[Loss]


def trace_of(name: Path, octets: bytes, frames_text: Optional[bytes]) -> SearchedUplink:
    """Searches an uplink. If the output of `trau frames` is given, refuses one that differs."""
    periods = len(octets) // FRAME_OCTETS
    bits = bits_of(octets[: periods * FRAME_OCTETS])
    yields = list(search(bits))
    if frames_text is not None:
        wanted = "".join(each.line() for each in yields) + end_of_text(len(yields), len(octets))
        if frames_text != wanted.encode():
            raise Refusal(
                f"{name}: the command `frames` printed other frames: it is of another line"
            )
    losses = list(losses_of(bits, yields))
    misses = sum(len(loss.misses) for loss in losses)
    return SearchedUplink(
        periods, len(yields) - misses, misses, yields[0].place if yields else None, losses
    )
