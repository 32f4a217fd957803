"""The rules that a peer can keep or break, as suite/rules.json has them."""

import enum
import json
from pathlib import Path
from typing import Any, Dict, List, NamedTuple, Tuple

FOLDER = Path(__file__).resolve().parents[3] / "suite"


class Level(enum.Enum):
    """How far a rule binds: the standard fixes the bits; it sets a bound; this project chose, so no
    other peer is held to it."""

    EXACT = "exact"
    WITHIN = "within"
    OWN = "own"


class Rule(NamedTuple):
    """A rule: its identifier, its sentence, where it comes from, and its level. `page` quotes
    docs/PROFILE.md, and `constants` has values by their modules and names, both to be tested."""

    identifier: str
    says: str
    source: str
    level: Level
    page: Tuple[str, ...]
    constants: Dict[str, object]


class RecordedRules(NamedTuple):
    """What suite/recorded.json says of recordings: the rules that they alone exercise, what to send
    where the case for recordings doesn't exercise a rule, and why some rules are never shown."""

    rules: Tuple[Rule, ...]
    send: Dict[str, str]
    never: Dict[str, str]


Entry = Dict[str, Any]


def entries_of(name: str) -> List[Entry]:
    """The entries of a file of rules."""
    entries: List[Entry] = json.loads((FOLDER / name).read_text(encoding="utf-8"))
    return entries


def rule_of(entry: Entry) -> Rule:
    """The rule of an entry."""
    return Rule(
        entry["id"],
        entry["says"],
        entry["source"],
        Level(entry["level"]),
        tuple(entry.get("page", ())),
        entry.get("constants", {}),
    )


def read_rules() -> List[Rule]:
    """All rules that cases exercise, in the file's order."""
    return list(map(rule_of, entries_of("rules.json")))


def read_recorded() -> RecordedRules:
    """What is said of recordings."""
    found = json.loads((FOLDER / "recorded.json").read_text(encoding="utf-8"))
    return RecordedRules(tuple(map(rule_of, found["rules"])), found["send"], found["never"])


def judged_rules() -> List[Rule]:
    """The rules by which a recording is judged."""
    return [*read_rules(), *read_recorded().rules]
