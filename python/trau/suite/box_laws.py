"""Which samples an octet of a law may stand for, if a box has coded it: the bounds between two
intervals, and samples below 0, are the box's own choice (ITU-T G.711)."""

from functools import lru_cache
from typing import Dict, List, NamedTuple, Optional, Sequence, Tuple

from trau.rules.g711 import Law, octets_by_sample

LEAST, MOST = -32768, 32767
Ranges = Sequence[Tuple[int, int]]  # the least and the greatest sample of each octet


class Convention(NamedTuple):
    """How a box codes: whether a sample from 0 on that lies on a bound has the upper interval, and
    by how much the magnitude of x below 0 is more than -1 - x."""

    has_upper: bool
    more_below: int

    def move(self, is_below: bool) -> int:
        """By how much the samples of an octet are higher than by this project's convention."""
        return self.more_below if is_below else int(not self.has_upper)


CONVENTIONS = tuple(
    Convention(has_upper, more_below) for more_below in (0, 1, -1) for has_upper in (True, False)
)


@lru_cache(maxsize=None)
def intervals(law: Law) -> List[Tuple[int, int]]:
    """The least and the greatest sample that this project codes as each octet."""
    found: Dict[int, Tuple[int, int]] = {}
    octets = octets_by_sample(law)
    for sample in range(LEAST, MOST + 1):
        octet = octets[sample & 0xFFFF]
        first, last = found.get(octet, (sample, sample))
        found[octet] = (min(first, sample), max(last, sample))
    return [found.get(octet, (0, 0)) for octet in range(256)]


@lru_cache(maxsize=None)
def ranges_of(law: Law, convention: Optional[Convention]) -> List[Tuple[int, int]]:
    """The least and the greatest sample of each octet by a convention; by None, by any of them."""

    def moved(first: int, last: int) -> Tuple[int, int]:
        if convention is None:
            return first - 1, last + 1
        move = convention.move(last < 0)
        return first + move if first else 0, last + move

    return [moved(*each) for each in intervals(law)]


def accepts(ranges: Ranges, samples: Sequence[int], octets: Sequence[int]) -> bool:
    """Whether all samples may have these octets."""
    for sample, octet in zip(samples, octets):
        first, last = ranges[octet]
        if not first <= sample <= last:
            return False
    return True


def agreeing(ranges: Ranges, samples: Sequence[int], octets: Sequence[int]) -> int:
    """How many samples may have their octets."""
    count = 0
    for sample, octet in zip(samples, octets):
        first, last = ranges[octet]
        count += first <= sample <= last
    return count
