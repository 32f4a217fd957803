"""What a recording says of each rule: how often it was held, where it was broken first and by what,
or which case of the suite would exercise it."""

import enum
from typing import Dict, List, NamedTuple, Optional, Sequence, Tuple

from trau.rules.profile import PERIODS_A_SECOND

from trau.suite.rule_list import Level, Rule


class Place(NamedTuple):
    """Where something was found: the number of the period on its line, and the seconds from the
    line's start."""

    period: int
    seconds: float

    def text(self) -> str:
        """In words."""
        return f"period {self.period} ({self.seconds:.2f} s)"


def place_of(period: int) -> Place:
    """The place of a period that is counted from the line's start."""
    return Place(period, period / PERIODS_A_SECOND)


class Breach(NamedTuple):
    """Where a rule was broken first, what was measured there and what the rule allows."""

    place: Place
    measured: str
    allowed: str


class Suspects(NamedTuple):
    """Rules of which one at least is broken, where that shows first, and what was measured."""

    rules: Tuple[str, ...]
    place: Place
    measured: str


class Unsure(NamedTuple):
    """Something that no rule explains, or that couldn't be judged: where it is first, and what."""

    place: Place
    said: str


class Standing(enum.Enum):
    """How a rule stands; the value is its word in texts. A rule of level `own` that the box doesn't
    keep is `other`: it isn't held against it."""

    HELD = "held"
    BROKEN = "broken"
    OTHER = "other"
    DRAWN = "drawn"
    NOT_EXERCISED = "not exercised"


class Findings:
    """What was found so far, by the rules' identifiers."""

    def __init__(self, rules: Sequence[Rule]) -> None:
        self.rules = {rule.identifier: rule for rule in rules}
        self.times: Dict[str, int] = {}
        self.breaches: Dict[str, List[Breach]] = {}
        self.draws: Dict[str, int] = {}
        self.notes: List[str] = []
        self.suspects: List[Suspects] = []
        self.unsure: List[Unsure] = []

    def add(self, other: "Findings") -> None:
        """Adds what was found elsewhere."""
        for rule, times in other.times.items():
            self.held(rule, times)
        for rule, breaches in other.breaches.items():
            self.breaches.setdefault(rule, []).extend(breaches)
        for rule, times in other.draws.items():
            self.drawn(rule, times)
        self.suspects += other.suspects
        self.unsure += other.unsure
        for note in other.notes:
            self.note(note)

    def forget(self, rules: Sequence[str]) -> None:
        """Leaves out what was found of rules."""
        for rule in rules:
            self.times.pop(rule, None)
            self.breaches.pop(rule, None)

    def held(self, rule: str, times: int = 1) -> None:
        """Counts places at which a rule was held."""
        assert rule in self.rules, rule
        self.times[rule] = self.times.get(rule, 0) + times

    def broken(self, rule: str, place: Place, measured: object, allowed: object) -> None:
        """Notes a place at which a rule wasn't."""
        assert rule in self.rules, rule
        breach = Breach(place, str(measured), str(allowed))
        self.breaches.setdefault(rule, []).append(breach)

    def judge(
        self, rule: str, is_held: bool, place: Place, measured: object, allowed: object
    ) -> None:
        """Counts a place at which a rule was held or wasn't."""
        if is_held:
            self.held(rule)
        else:
            self.broken(rule, place, measured, allowed)

    def drawn(self, rule: str, times: int = 1) -> None:
        """Counts numbers that were drawn."""
        self.draws[rule] = self.draws.get(rule, 0) + times

    def suspect(self, rules: Sequence[str], place: Place, measured: str) -> None:
        """Notes that one of some rules is broken, where it can't be said which."""
        self.suspects.append(Suspects(tuple(rules), place, measured))

    def not_sure(self, place: Place, said: str) -> None:
        """Notes what no rule explains, or what couldn't be judged."""
        self.unsure.append(Unsure(place, said))

    def note(self, text: str) -> None:
        """Something that is worth knowing, once."""
        if text not in self.notes:
            self.notes.append(text)

    def standing(self, rule: str) -> Standing:
        """How a rule stands."""
        if self.breaches.get(rule):
            is_own = self.rules[rule].level is Level.OWN
            return Standing.OTHER if is_own else Standing.BROKEN
        if self.draws.get(rule):
            return Standing.DRAWN
        return Standing.HELD if self.times.get(rule) else Standing.NOT_EXERCISED

    def first(self, rule: str) -> Optional[Breach]:
        """Where a rule was broken first."""
        found = self.breaches.get(rule)
        return min(found, key=lambda one: one.place) if found else None

    def named(self) -> List[str]:
        """The rules that the box doesn't keep, of whatever level."""
        return [rule for rule in self.rules if self.breaches.get(rule)]

    def is_broken(self) -> bool:
        """Whether a rule that binds each unit is broken."""
        return bool(self.suspects) or any(
            self.standing(rule) is Standing.BROKEN for rule in self.rules
        )
