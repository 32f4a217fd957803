"""Holds the octets of the A side to the rules of its law (ITU-T G.711)."""

from collections import Counter
from typing import Counter as CounterType
from typing import Dict, List, Optional, Sequence, Tuple

from trau.rules.g711 import Law

from trau.suite.box_findings import Findings, Place
from trau.suite.box_laws import CONVENTIONS, Convention, accepts, agreeing, ranges_of

SAME_SAMPLE = 0.97  # of the octets of a sample that are one, where only the law differs
OFTEN = 0.25

Pairs = Sequence[Tuple[List[int], bytes]]  # the samples of frames, and their octets


def convention_of(law: Law, pairs: Pairs) -> Optional[Convention]:
    """The convention that explains all octets that some convention explains; None for none."""
    loose = ranges_of(law, None)
    fit = [pair for pair in pairs if accepts(loose, *pair)]
    for convention in CONVENTIONS:
        ranges = ranges_of(law, convention)
        if fit and all(accepts(ranges, *pair) for pair in fit):
            return convention
    return None


def judge_law(law: Law, pairs: Pairs, findings: Findings) -> None:
    """Holds samples from 0 on, those below, and those on bounds to the rules of the law."""
    loose = ranges_of(law, None)
    fit = [pair for pair in pairs if accepts(loose, *pair)]
    findings.held(f"{law.value}.compress", len(fit))
    convention = convention_of(law, pairs)
    if not fit:
        return
    start = Place(0, 0.0)
    upper = convention is None or convention.has_upper
    ours_below = convention is None or convention.more_below == 0
    findings.judge("law.bound", upper, start, "the lower interval's octet", "the upper one's")
    below = f"{law.value}.compress-below-0"
    more = 0 if convention is None else 1 - convention.more_below
    measured = f"the octet of -{more} - x" if more else "the octet of -x"
    findings.judge(below, ours_below, start, measured, "that of -1 - x")


def is_of_law(law: Law, pairs: Pairs) -> bool:
    """Whether a sample has the same octet wherever it is, mostly the law's own: so it is the law
    that differs."""
    octets: Dict[int, CounterType[int]] = {}
    loose = ranges_of(law, None)
    total = fits = 0
    for samples, line in pairs:
        fits += agreeing(loose, samples, line)
        total += len(samples)
        for sample, octet in zip(samples, line):
            octets.setdefault(sample, Counter())[octet] += 1
    often = [one for one in octets.values() if sum(one.values()) > 2]
    same = sum(one.most_common(1)[0][1] for one in often)
    count = sum(sum(one.values()) for one in often)
    return total > 0 and fits > OFTEN * total and same >= SAME_SAMPLE * max(1, count) and count > 0


def other_octet(law: Law, pairs: Pairs) -> Tuple[int, int, Tuple[int, int]]:
    """The first sample that the law gives another octet, its octet, and what that stands for."""
    loose = ranges_of(law, None)
    for samples, line in pairs:
        for sample, octet in zip(samples, line):
            first, last = loose[octet]
            if not first <= sample <= last:
                return sample, octet, (first + 1, last - 1)
    return 0, 0, (0, 0)
