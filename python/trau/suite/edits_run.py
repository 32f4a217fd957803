"""Edits the model, one constant or comparison at a time, and looks for the case that catches each.

An edit that no case catches has to be in suite/equivalent.json with the reason why it changes no
answer. The status is 1 if one isn't."""

import json
from typing import Dict, List, Sequence

from trau.command_line.ends import tool
from trau.command_line.side_by_side import processors
from trau.command_line.words import Words, number_within, option, switch

from trau.suite.edits import all_edits, try_all
from trau.suite.generator import expected_cases
from trau.suite.rule_list import FOLDER

SAMPLE_EACH = 20  # without --long one edit of so many is tried

OPTIONS = (
    switch("--long", "try all edits, not only a sample"),
    option("--jobs", type=number_within(1, 64), default=processors(), help="how many at a time"),
    switch("--list", "print the case that caught each edit too"),
)


def read_reasons() -> Dict[str, str]:
    """The edits that change no answer, each with its reason."""
    found: Dict[str, str] = json.loads((FOLDER / "equivalent.json").read_text(encoding="utf-8"))
    return found


@tool("edits")
def main(words: Sequence[str]) -> int:
    """Prints the edits that no case catches, and the score."""
    asked = Words(__doc__, *OPTIONS, prog="suite/edits").parse_args(words)
    reasons = read_reasons()
    edits = all_edits()
    chosen = edits if asked.long else edits[::SAMPLE_EACH]
    survivors: List[str] = []
    for edit, case in try_all(chosen, expected_cases(asked.jobs), asked.jobs):
        if asked.list:
            print(f"{edit.name()}: {case or 'not caught'}", flush=True)
        if case is None:
            survivors.append(edit.name())
    missed = [name for name in survivors if name not in reasons]
    for name in missed:
        print(f"not caught: {name}")
    print(
        f"edits {len(chosen)} of {len(edits)}, caught {len(chosen) - len(survivors)},"
        f" equivalent {len(survivors) - len(missed)}, not caught {len(missed)}"
    )
    return 1 if missed else 0
