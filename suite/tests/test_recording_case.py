"""The case to play to a unit: of the model its recording shows each rule that a recording can show. Boxes that take frames for others than their
marks, code words and sync bits say are named by it."""

import json
import unittest
from functools import lru_cache
from typing import Dict, List, Set, Tuple

from boxes import Given, Side, Turn, box

from trau.rules.frame import bits_of
from trau.rules.g711 import Law
from trau.suite.box_findings import Findings, Standing
from trau.suite.box_receive_side import ReceiveSide
from trau.suite.box_send_side import judge_send, judge_shifts
from trau.suite.box_texts import CASE_TO_SEND, unexercised
from trau.suite.box_uplink import up_periods
from trau.suite.cases import all_cases
from trau.suite.operations import CALL_OCTETS, LINE_OCTETS, units
from trau.suite.recording_cases import cases
from trau.suite.rule_list import FOLDER, Level, judged_rules, read_recorded

FRAME, SEARCH = "rules.frame", "rules.search"
# What a box takes a frame for, and the rules that it doesn't keep.
TAKEN: Dict[str, Tuple[Turn, Set[str]]] = {
    "frames that are marked as bad are decoded": (
        Turn(FRAME, '"100": FrameKind.UNUSABLE', '"100": FrameKind.SPEECH'),
        {"line.uplink"},
    ),
    "descriptors are decoded as speech": (
        Turn(FRAME, '"010": FrameKind.VALID_SID', '"010": FrameKind.SPEECH'),
        {"kind.descriptor", "kind.other-bits"},
    ),
    "invalid descriptors are decoded as speech": (
        Turn(FRAME, "CLASSES.get(control[11:14], FrameKind.INVALID_SID)", "CLASSES.get(control[11:14], FrameKind.SPEECH)"),
        {"kind.invalid"},
    ),
    "a wrong sync bit doesn't count": (Turn(SEARCH, 'ROWS + "1.{15}"', 'ROWS + ".{16}"'), {"search.locked"}),
}


@lru_cache(maxsize=None)
def given(law: Law) -> Given:
    """The two incoming lines of the case."""
    (chosen,) = [each for each in cases() if each.operation == f"call-{law}"]
    periods = units(chosen.given, CALL_OCTETS)
    return Given(b"".join(each[:LINE_OCTETS] for each in periods), b"".join(each[LINE_OCTETS:] for each in periods), law.value)


def judged(lines: Given, out: bytes, down: bytes) -> Findings:
    """What is found of all four lines."""
    findings = Findings(judged_rules())
    ReceiveSide(lines.up, out, list(Law), findings).judge()
    _, frames = judge_send(lines.pcm, down, list(Law), False, findings)
    judge_shifts(up_periods(bits_of(lines.up)), frames, findings)
    return findings


class RecordingCase(unittest.TestCase):
    """The case of both laws."""

    def test_all_rules(self) -> None:
        """Each rule is held or drawn, or there is a reason why a recording of this law doesn't show it."""
        recorded = read_recorded()
        for law in Law:
            lines = given(law)
            findings = judged(lines, box((), lines, Side.OUT), box((), lines, Side.DOWN))
            self.assertEqual((findings.named(), findings.suspects, findings.unsure), ([], [], []))
            standings = {rule: findings.standing(rule) for rule in findings.rules}
            shown = {rule for rule, each in standings.items() if each in (Standing.HELD, Standing.DRAWN)}
            others = {other.value for other in Law if other is not law}
            open_rules = {rule for rule in findings.rules if rule not in shown and rule not in recorded.never}
            self.assertEqual({rule for rule in open_rules if rule.partition(".")[0] not in others}, {"packing.rtp"})
            self.assertEqual(shown & set(recorded.never), set())

    def test_takes_frames_for_others(self) -> None:
        lines = given(Law.A)
        for name, (turn, rules) in TAKEN.items():
            findings = Findings(judged_rules())
            ReceiveSide(lines.up, box([turn], lines, Side.OUT), list(Law), findings).judge()
            first = {rule: findings.first(rule) for rule in findings.named()}
            self.assertLessEqual(rules, set(first), f"{name}: {first}")
            others = {rule for rule in set(first) - rules if findings.rules[rule].level is not Level.OWN}
            self.assertEqual(others, set(), f"{name}: {first}")

    def test_what_to_send(self) -> None:
        """Each rule that isn't exercised has a case that exists, or a reason."""
        names = {each.name() for each in all_cases()}
        rules: List[str] = [each.identifier for each in judged_rules()]
        for rule, said in unexercised(rules).items():
            if said.startswith("send case "):
                self.assertIn(said[len("send case ") :], names, rule)
        self.assertIn(CASE_TO_SEND[len("case ") :], names)
        said = json.loads((FOLDER / "recorded.json").read_text(encoding="utf-8"))
        self.assertLessEqual({*said["send"], *said["never"]}, set(rules))


if __name__ == "__main__":
    unittest.main()
