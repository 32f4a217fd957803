"""What was found of a box, as a text and as JSON."""

import json
from collections import Counter
from typing import Dict, Iterable, List, NamedTuple, Sequence

from trau.suite.box_findings import Breach, Findings, Standing, Unsure
from trau.suite.box_delay import JudgedSide
from trau.suite.rule_list import read_recorded

NAME_WIDTH, LEVEL_WIDTH = 28, 8
CASE_TO_SEND = "case call-alaw/recording"


class Reported(NamedTuple):
    """A side that was judged: the files, and what was found."""

    given: str
    made: str
    side: JudgedSide

    def text(self) -> str:
        """In a line."""
        found = self.side.alignment
        how = "octet for octet" if found.is_exact else "by likeness"
        return (
            f"{self.given} and {self.made}: octet {found.first} bit {found.bit} {found.law}, "
            f"delay {self.side.milliseconds():.3f} ms, found {how} by {found.votes} of {found.of}; "
            f"frames {self.side.frames}\n"
        )


def unexercised(rules: Iterable[str]) -> Dict[str, str]:
    """What is said of each rule that a recording doesn't exercise: what to send, or that no
    recording shows it."""
    recorded = read_recorded()
    found = {}
    for rule in rules:
        never = recorded.never.get(rule)
        send = recorded.send.get(rule, CASE_TO_SEND)
        found[rule] = f"a recording can't show this: {never}" if never else f"send {send}"
    return found


def breach_text(breach: Breach, is_own: bool) -> str:
    """What was measured, and what is allowed."""
    allowed = "here" if is_own else "allowed"
    return f"{breach.place.text()}: measured {breach.measured}, {allowed} {breach.allowed}"


def line_of(findings: Findings, rule: str, others: Dict[str, str]) -> str:
    """The line of a rule."""
    standing, first = findings.standing(rule), findings.first(rule)
    times = findings.times.get(rule, 0)
    if first is not None:
        said = f"{standing.value} at {breach_text(first, standing is Standing.OTHER)}"
        count = len(findings.breaches[rule])
        said += f"; {count} times, held {times}"
    elif standing is Standing.DRAWN:
        said = f"drawn {findings.draws[rule]} times"
    elif standing is Standing.HELD:
        said = f"held {times} times"
    else:
        said = f"not exercised: {others[rule]}"
    level = findings.rules[rule].level.value
    return f"{rule:{NAME_WIDTH}}{level:{LEVEL_WIDTH}}{said}\n"


def counts_of(findings: Findings) -> Dict[str, int]:
    """How many rules stand how."""
    counts = Counter(findings.standing(rule).value for rule in findings.rules)
    return {each.value: counts[each.value] for each in Standing}


def suspect_lines(findings: Findings) -> List[str]:
    """The rules of which one is broken."""
    return [
        f"broken at {each.place.text()}: {each.measured}; one of {', '.join(each.rules)}\n"
        for each in findings.suspects
    ]


def text_of_box(findings: Findings, reported: Sequence[Reported], failures: Sequence[str]) -> str:
    """How each rule stands; nothing if no side was judged."""
    if not reported:
        return ""
    others = unexercised(findings.rules)
    lines = [each.text() for each in reported]
    lines += [f"{note}\n" for note in findings.notes]
    lines += [line_of(findings, rule, others) for rule in findings.rules]
    lines += suspect_lines(findings)
    lines += [f"not sure at {each.place.text()}: {each.said}\n" for each in findings.unsure]
    counts = counts_of(findings)
    total = " ".join(f"{word} {count}" for word, count in counts.items())
    lines.append(f"rules {len(findings.rules)} {total}\n")
    return "".join(lines)


def rule_object(findings: Findings, rule: str, others: Dict[str, str]) -> Dict[str, object]:
    """A rule for JSON."""
    first, standing = findings.first(rule), findings.standing(rule)
    made: Dict[str, object] = {
        "rule": rule,
        "level": findings.rules[rule].level.value,
        "standing": standing.value,
        "held": findings.times.get(rule, 0),
        "broken": len(findings.breaches.get(rule, ())),
        "drawn": findings.draws.get(rule, 0),
    }
    if first is not None:
        made["first"] = {
            "period": first.place.period,
            "seconds": round(first.place.seconds, 4),
            "measured": first.measured,
            "allowed": first.allowed,
        }
    if standing is Standing.NOT_EXERCISED:
        made["said"] = others[rule]
    return made


def side_object(each: Reported) -> Dict[str, object]:
    """A side for JSON."""
    found = each.side.alignment
    return {
        "given": each.given,
        "made": each.made,
        "octet": found.first,
        "bit": found.bit,
        "law": found.law.value,
        "milliseconds": each.side.milliseconds(),
        "exact": found.is_exact,
        "votes": found.votes,
        "of": found.of,
        "frames": each.side.frames,
    }


def unsure_object(each: Unsure) -> Dict[str, object]:
    """What no rule explains, for JSON."""
    seconds = round(each.place.seconds, 4)
    return {"period": each.place.period, "seconds": seconds, "said": each.said}


def json_of_box(findings: Findings, reported: Sequence[Reported], failures: Sequence[str]) -> str:
    """The same as JSON."""
    others = unexercised(findings.rules)
    suspects = [
        {
            "rules": list(each.rules),
            "period": each.place.period,
            "seconds": round(each.place.seconds, 4),
            "measured": each.measured,
        }
        for each in findings.suspects
    ]
    made = {
        "sides": [side_object(each) for each in reported],
        "failures": list(failures),
        "rules": [rule_object(findings, rule, others) for rule in findings.rules],
        "suspects": suspects,
        "unsure": [unsure_object(each) for each in findings.unsure],
        "notes": findings.notes,
        "counts": counts_of(findings),
    }
    return json.dumps(made, indent=2) + "\n"
