"""Peers by rules: which rules each peer keeps, and the first case that breaks one."""

import concurrent.futures
import enum
from typing import Dict, List, NamedTuple, Optional, Sequence

from trau.suite.generator import Expected
from trau.suite.judges import broken_at
from trau.suite.peers import Peer, PeerFailed, Unsupported
from trau.suite.rule_list import Level, Rule


class Verdict(enum.Enum):
    """What a peer makes of a rule."""

    KEPT = "kept"
    BROKEN = "broken"
    NOT_EXERCISED = "not exercised"
    DOES_NOT_APPLY = "doesn't apply"


class CaseOutcome(NamedTuple):
    """A case with a peer: where each of its rules is broken first, as a unit of the answer counted
    from 0; None for a rule that is kept. `failure` says why there is no answer."""

    case: str
    periods: int
    broken: Dict[str, Optional[int]]
    failure: str = ""


class Cell(NamedTuple):
    """A peer and a rule: the verdict, how many cases exercised the rule, and where it is broken
    first."""

    verdict: Verdict
    cases: int = 0
    first_case: str = ""
    first_unit: int = 0
    failure: str = ""

    def text(self) -> str:
        """In words."""
        if self.verdict is not Verdict.BROKEN:
            return str(self.verdict.value)
        return f"broken: {self.first_case} {self.failure or f'frame {self.first_unit}'}"


class PeerRow(NamedTuple):
    """A peer: its outcomes, and its cell for each rule."""

    peer: Peer
    outcomes: List[CaseOutcome]
    cells: Dict[str, Cell]


def count_of(row: PeerRow, verdict: Verdict) -> int:
    """How many rules have this verdict."""
    return sum(one.verdict is verdict for one in row.cells.values())


def applies(peer: Peer, rule: Rule) -> bool:
    """Whether a peer is held to a rule."""
    is_lacking = rule.identifier.startswith(peer.lacks) if peer.lacks else False
    return not is_lacking and (peer.is_ours or rule.level is not Level.OWN)


def outcome(peer: Peer, held: Sequence[str], each: Expected) -> Optional[CaseOutcome]:
    """A case with a peer, judged by the rules to which it is held; None if it doesn't have the
    operation, or none of these rules is exercised."""
    case = each.case
    rules = [rule for rule in case.rules if rule in held]
    if case.operation not in peer.answers or not rules:
        return None
    try:
        answer = peer.answers[case.operation](case.given)
    except Unsupported:
        return None
    except (PeerFailed, OSError, ValueError, KeyError) as failure:
        why = str(failure) or type(failure).__name__
        return CaseOutcome(case.name(), case.periods(), dict.fromkeys(rules, 0), why)
    broken = {rule: broken_at(case, rule, each.answer, answer) for rule in rules}
    return CaseOutcome(case.name(), case.periods(), broken)


def cell(rule: Rule, is_held: bool, outcomes: Sequence[CaseOutcome]) -> Cell:
    """What the outcomes of a peer say of a rule."""
    if not is_held:
        return Cell(Verdict.DOES_NOT_APPLY)
    judged = [each for each in outcomes if rule.identifier in each.broken]
    for each in judged:
        unit = each.broken[rule.identifier]
        if unit is not None:
            return Cell(Verdict.BROKEN, len(judged), each.case, unit, each.failure)
    return Cell(Verdict.KEPT if judged else Verdict.NOT_EXERCISED, len(judged))


def row_of(peer: Peer, rules: Sequence[Rule], expected: Sequence[Expected], jobs: int) -> PeerRow:
    """All cases with a peer, so many at a time."""
    held = [rule.identifier for rule in rules if applies(peer, rule)]
    with concurrent.futures.ThreadPoolExecutor(jobs) as side_by_side:
        found = list(side_by_side.map(lambda each: outcome(peer, held, each), expected))
    outcomes = [each for each in found if each is not None]
    cells = {rule.identifier: cell(rule, rule.identifier in held, outcomes) for rule in rules}
    return PeerRow(peer, outcomes, cells)
