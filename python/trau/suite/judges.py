"""How a rule is judged by what a peer answers. A rule without a judge of its own is kept if the
whole answer is the expected one."""

from typing import Callable, Dict, List, NamedTuple, Optional, Sequence

from trau.recordings.code_word import errors_of
from trau.rules.parameters import Parameters, data_of_gsm

from trau.suite.cases import Case
from trau.suite.operations import DESCRIPTOR, GOOD, LOST_DUE, OPERATIONS, units
from trau.suite.reference import parameters_of

SILENT_FROM = 17  # lost frames after which there is silence: more than 320 ms
FALL_FROM_DUE = 2
HANGOVER = 4  # frames
NOISE_LAGS = (40, 120, 40, 120)
LEAST_PULSE, MOST_PULSE = 1, 6


class AnsweredUnit(NamedTuple):
    """A unit of a case that produces frames: its digit, the frame that was given, and the frame
    that was answered."""

    digit: str
    given: bytes
    frame: bytes

    def parameters(self) -> Parameters:
        """The parameters of the answered frame."""
        return parameters_of(self.frame)

    def maxima(self) -> List[int]:
        """Its coded block maxima."""
        return [block.xmaxc for block in self.parameters().blocks]


Judge = Callable[[Sequence[AnsweredUnit]], Optional[int]]


def first(broken: Sequence[bool]) -> Optional[int]:
    """The first unit at which a rule is broken."""
    return broken.index(True) if True in broken else None


def since_good(answers: Sequence[AnsweredUnit]) -> List[int]:
    """For each period how many have passed since the last good frame; 0 before one, and in noise."""
    counts, count, is_lost = [], 0, False
    for each in answers:
        is_lost = each.digit == GOOD or is_lost and each.digit != DESCRIPTOR
        count = count + 1 if is_lost and each.digit != GOOD else 0
        counts.append(count)
    return counts


def as_it_came(answers: Sequence[AnsweredUnit]) -> Optional[int]:
    """Good frames are as they were given."""
    return first([each.digit == GOOD and each.frame != each.given for each in answers])


def silent(answers: Sequence[AnsweredUnit]) -> Optional[int]:
    """From 320 ms after the last frame on all block maxima are 0."""
    lost = since_good(answers)
    return first([n >= SILENT_FROM and any(each.maxima()) for n, each in zip(lost, answers)])


def rises(answers: Sequence[AnsweredUnit], counts: Sequence[int]) -> Optional[int]:
    """The first counted period in which a block maximum is above that of the period before."""
    pairs = zip(answers, answers[1:], counts[1:])
    return first(
        [False]
        + [
            n > 0 and any(b > a for a, b in zip(one.maxima(), other.maxima()))
            for one, other, n in pairs
        ]
    )


def never_louder(answers: Sequence[AnsweredUnit]) -> Optional[int]:
    """No block maximum rises while frames are lost."""
    return rises(answers, since_good(answers))


def noise_of(answers: Sequence[AnsweredUnit]) -> List[bool]:
    """For each period whether it has comfort noise that hasn't begun to fall."""
    found, is_noise, due = [], False, 0
    for each in answers:
        if each.digit == DESCRIPTOR:
            is_noise, due = True, 0
        due += each.digit == LOST_DUE
        is_noise = is_noise and each.digit in (DESCRIPTOR, "2", LOST_DUE)
        found.append(is_noise and due < FALL_FROM_DUE)
    return found


def of_noise(holds: Callable[[Parameters], bool]) -> Judge:
    """A judge of each frame of comfort noise."""

    def judge(answers: Sequence[AnsweredUnit]) -> Optional[int]:
        is_noise = noise_of(answers)
        return first([one and not holds(each.parameters()) for one, each in zip(is_noise, answers)])

    return judge


def mutes(answers: Sequence[AnsweredUnit]) -> Optional[int]:
    """No block maximum rises from the second descriptor on that was due and didn't come."""
    counts, due, falling = [], 0, 0
    for each in answers:
        due = 0 if each.digit in (GOOD, DESCRIPTOR) else due + (each.digit == LOST_DUE)
        falling = falling + 1 if due >= FALL_FROM_DUE else 0
        counts.append(falling)
    return rises(answers, counts)


def heard_values(parameters: Parameters) -> List[int]:
    """The ratios and block maxima."""
    return [*parameters.larc, *(block.xmaxc for block in parameters.blocks)]


def between(answers: Sequence[AnsweredUnit]) -> Optional[int]:
    """Ratios and block maxima lie between those of the noise a period before and the last
    descriptor's."""
    before: List[int] = []
    new: List[int] = []
    broken = []
    for is_noise, each in zip(noise_of(answers), answers):
        now = heard_values(each.parameters()) if is_noise else []
        if each.digit == DESCRIPTOR:
            new = heard_values(parameters_of(each.given))
        broken.append(any(not min(a, b) <= c <= max(a, b) for a, b, c in zip(before, new, now)))
        before = now
    return first(broken)


def descriptors(holds: Callable[[bytes], bool]) -> Judge:
    """A judge of each silence descriptor that is sent."""
    return lambda answers: first(
        [each.digit == DESCRIPTOR and not holds(each.frame) for each in answers]
    )


def has_one_maximum(frame: bytes) -> bool:
    """Whether the four block maxima are one."""
    return len({block.xmaxc for block in parameters_of(frame).blocks}) == 1


def hangover(answers: Sequence[AnsweredUnit]) -> Optional[int]:
    """At least four frames of silence go out as speech after the last one of sound."""
    is_sound = [any(each.given) for each in answers]
    last = len(is_sound) - 1 - is_sound[::-1].index(True)
    return first(
        [last < k <= last + HANGOVER and each.digit != GOOD for k, each in enumerate(answers)]
    )


JUDGES: Dict[str, Judge] = {
    "lost.as-it-came": as_it_came,
    "lost.silent": silent,
    "lost.never-louder": never_louder,
    "noise.lags": of_noise(lambda one: tuple(block.nc for block in one.blocks) == NOISE_LAGS),
    "noise.lag-gain": of_noise(lambda one: not any(block.bc for block in one.blocks)),
    "noise.pulses": of_noise(
        lambda one: all(
            LEAST_PULSE <= pulse <= MOST_PULSE for block in one.blocks for pulse in block.xmc
        )
    ),
    "noise.between": between,
    "noise.mutes": mutes,
    "send.code-word": descriptors(lambda frame: errors_of(data_of_gsm(frame)) == 0),
    "send.one-maximum": descriptors(has_one_maximum),
    "send.hangover": hangover,
}


def answered(case: Case, answer: bytes) -> List[AnsweredUnit]:
    """The units of a case of frames, with their digits: of what is given, or of what is sent."""
    of = OPERATIONS[case.operation]
    pairs = zip(units(case.given, of.unit), units(answer, of.answer))
    if case.operation.startswith("send"):
        return [AnsweredUnit(chr(out[0]), given[3:], out[1:]) for given, out in pairs]
    return [AnsweredUnit(chr(given[0]), given[1:], out) for given, out in pairs]


def first_difference(case: Case, expected: bytes, answer: bytes) -> Optional[int]:
    """The first unit of an answer that isn't as expected; of a text, the first line."""
    if expected == answer:
        return None
    size = OPERATIONS[case.operation].answer
    ours = units(expected, size) if size else expected.splitlines()
    theirs = units(answer, size) if size else answer.splitlines()
    differ = first([a != b for a, b in zip(ours, theirs)])
    return min(len(ours), len(theirs)) if differ is None else differ


def interval_left(expected: bytes, answer: bytes) -> Optional[int]:
    """The first sample of those from 0 on whose octet isn't that of its interval; on the bound of
    two intervals either octet will do."""
    before = expected[:1] + expected[:-1]
    return first([each not in pair for each, *pair in zip(answer, expected, before)])


def broken_at(case: Case, rule: str, expected: bytes, answer: bytes) -> Optional[int]:
    """The unit at which an answer breaks a rule first, or None."""
    if rule in ("alaw.compress", "mulaw.compress") and len(answer) == len(expected):
        return interval_left(expected, answer)
    if rule not in JUDGES or case.operation not in ("conceal", "send", "send-alaw"):
        return first_difference(case, expected, answer)
    if len(answer) != len(expected):
        return min(len(answer), len(expected)) // OPERATIONS[case.operation].answer
    return JUDGES[rule](answered(case, answer))
