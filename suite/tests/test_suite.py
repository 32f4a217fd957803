"""The suite: its rules agree with the profile's page and the model's constants, its judges find what breaks a bound, its cases are those whose
sums are kept, and a command is judged as a shipped peer is."""

import importlib
import json
import subprocess
import sys
import tempfile
import unittest
from pathlib import Path
from typing import Dict, List, Optional, Sequence
from xml.etree import ElementTree

from trau.suite import edits, edits_run, matrix, peers, matrix_page, tables
from trau.suite.cases import Case, all_cases
from trau.suite.generator import Expected, expected_cases, files_of, model_answer
from trau.suite.judges import JUDGES, broken_at
from trau.suite.operations import GSM_OCTETS, OPERATIONS, units
from trau.suite.random_source import NamedSource
from trau.suite.rule_list import Level, read_rules

TOP = Path(__file__).resolve().parents[2]
PROFILE = (TOP / "docs" / "PROFILE.md").read_text(encoding="utf-8")
RULES = read_rules()
CASES = all_cases()
BY_NAME = {case.name(): case for case in CASES}


def as_json(value: object) -> object:
    """Tuples as lists."""
    return [as_json(each) for each in value] if isinstance(value, (tuple, list)) else value


class Rules(unittest.TestCase):
    """suite/rules.json."""

    def test_identifiers(self) -> None:
        names = [rule.identifier for rule in RULES]
        self.assertEqual(len(set(names)), len(names))
        self.assertLessEqual(set(JUDGES), set(names))

    def test_own_rules_name_their_source(self) -> None:
        for rule in RULES:
            is_own = rule.source.startswith("this project's own")
            self.assertEqual(rule.level is Level.OWN, is_own, rule.identifier)

    def test_page(self) -> None:
        for rule in RULES:
            for quote in rule.page:
                self.assertIn(quote, PROFILE, rule.identifier)

    def test_each_row_of_the_page_has_a_rule(self) -> None:
        lines = PROFILE.splitlines()
        rows = [
            line
            for line, after in zip(lines, lines[1:] + [""])
            if line.startswith("| ") and not after.startswith("|---")
        ]
        self.assertGreater(len(rows), 15)
        for row in rows:
            self.assertTrue(any(q in row for rule in RULES for q in rule.page), row)

    def test_constants(self) -> None:
        count = 0
        for rule in RULES:
            for name, value in rule.constants.items():
                module, _, constant = name.rpartition(".")
                has = getattr(importlib.import_module(f"trau.{module}"), constant)
                self.assertEqual(as_json(has), value, name)
                count += 1
        self.assertGreater(count, 30)


class Cases(unittest.TestCase):
    """Cases and their expected results."""

    def test_names_and_rules(self) -> None:
        self.assertEqual(len(BY_NAME), len(CASES))
        exercised = {rule for case in CASES for rule in case.rules}
        self.assertEqual(exercised, {rule.identifier for rule in RULES})

    def test_whole_units(self) -> None:
        for case in CASES:
            if case.operation != "search":
                self.assertEqual(len(case.given) % OPERATIONS[case.operation].unit, 0, case.name())

    def test_random_source(self) -> None:
        """SplitMix64's first numbers from 1234567."""
        source = NamedSource("")
        source.value = 1234567
        self.assertEqual(source.word(), 6457827717110365317)
        self.assertEqual(source.word(), 3203168211198807973)
        self.assertEqual(NamedSource("suite").some(6, 0, 99), [3, 65, 20, 56, 98, 37])

    def test_sums(self) -> None:
        """Some of the cases; suite/run compares all sums with each start."""
        words = ("kind/", "search/at-bit", "alaw-expand", "mulaw-expand", "conceal/idle")
        self.assertGreater(len(expected_cases(1, words)), 30)

    def test_forms(self) -> None:
        case = BY_NAME["send/pause-1"]
        files = files_of(Expected(case, model_answer(case)))
        self.assertEqual(
            sorted(files), [f"send-pause-1.{end}" for end in ("digits", "gsm", "inp", "orders")]
        )
        self.assertEqual(files["send-pause-1.orders"].splitlines()[0], b"256 1")
        self.assertEqual(len(files["send-pause-1.inp"]), 320 * case.periods())


def changed(answer: bytes, size: int, frame: int, **values: int) -> bytes:
    """An answer of frames with a parameter of one frame's first block changed."""
    from trau.suite.reference import frame_of_parameters, parameters_of

    cut = units(answer, size)
    head, octets = cut[frame][: size - GSM_OCTETS], cut[frame][size - GSM_OCTETS :]
    parameters = parameters_of(octets)
    block, *others = parameters.blocks
    blocks = (block._replace(**values), *others)
    cut[frame] = head + frame_of_parameters(parameters._replace(blocks=blocks))
    return b"".join(cut)


class Judges(unittest.TestCase):
    """Bounds."""

    def broken(self, name: str, rule: str, frame: int, **values: int) -> Optional[int]:
        """Where a rule is broken once a parameter is changed; before that it is kept."""
        case = BY_NAME[name]
        answer = model_answer(case)
        self.assertIsNone(broken_at(case, rule, answer, answer))
        size = OPERATIONS[case.operation].answer
        return broken_at(case, rule, answer, changed(answer, size, frame, **values))

    def test_of_lost_frames(self) -> None:
        name = "conceal/speech-lost-20"
        self.assertEqual(self.broken(name, "lost.as-it-came", 0, bc=3), 0)
        self.assertEqual(self.broken(name, "lost.silent", 18, xmaxc=1), 18)
        self.assertIsNone(self.broken(name, "lost.silent", 17, xmaxc=1))
        self.assertEqual(self.broken(name, "lost.never-louder", 19, xmaxc=5), 19)

    def test_of_noise(self) -> None:
        name = "conceal/approach"
        self.assertEqual(self.broken(name, "noise.lags", 3, nc=41), 3)
        self.assertEqual(self.broken(name, "noise.lag-gain", 3, bc=1), 3)
        self.assertEqual(self.broken(name, "noise.between", 5, xmaxc=63), 5)
        self.assertEqual(self.broken(name, "noise.pulses", 2, xmc=(7,) * 13), 2)  # type: ignore
        self.assertEqual(self.broken("conceal/falls", "noise.mutes", 60, xmaxc=63), 60)

    def test_of_sending(self) -> None:
        name = "send/silence-after-speech"
        self.assertEqual(self.broken(name, "send.one-maximum", 36, xmaxc=40), 36)
        self.assertEqual(self.broken(name, "send.code-word", 36, xmc=(4,) * 13), 36)  # type: ignore
        case = BY_NAME[name]
        answer = model_answer(case)
        cut = units(answer, OPERATIONS["send"].answer)
        cut[33] = b"1" + cut[33][1:]
        self.assertEqual(broken_at(case, "send.hangover", answer, b"".join(cut)), 33)

    def test_short_answer(self) -> None:
        case = BY_NAME["conceal/speech-lost-20"]
        answer = model_answer(case)
        self.assertEqual(broken_at(case, "lost.silent", answer, answer[:66]), 2)


class Edits(unittest.TestCase):
    """Edits of the model."""

    def setUp(self) -> None:
        self.reasons = edits_run.read_reasons()
        self.all = edits.all_edits()

    def test_names(self) -> None:
        names = [edit.name() for edit in self.all]
        self.assertEqual(len(set(names)), len(names))
        self.assertGreater(len(names), 500)

    def test_reasons(self) -> None:
        """Each reason is for an edit that there is."""
        self.assertLessEqual(set(self.reasons), {edit.name() for edit in self.all})

    def caught_by(self, words: Sequence[str], *chosen: str) -> Dict[str, Optional[str]]:
        """The cases that catch edits, among those whose names begin with these words. The edits
        are chosen by the beginnings of their names."""
        tried = [edit for edit in self.all if edit.name().startswith(chosen)]
        caught = edits.try_all(tried, expected_cases(1, words), 2)
        return {edit.name(): case for edit, case in caught}

    def test_caught(self) -> None:
        """By a case of the operations in which the module's edits show."""
        words = ("kind/wrong-1", "kind/wrong-2", "alaw-expand", "mulaw-expand")
        places = ("recordings.code_word.LEAST_ERRORS_OF_INVALID", "rules.g711.octet:")
        caught = self.caught_by(words, *places)
        self.assertGreater(len(caught), 5)
        for name, case in caught.items():
            operation = (case or "").partition("/")[0]
            self.assertIn(operation, edits.OPERATIONS_OF[".".join(name.split(".")[:2])], name)

    def test_bounds_that_were_sought(self) -> None:
        """Each sound that was sought for a bound catches an edit of it."""
        for word, *names in SOUGHT:
            caught = self.caught_by([word], *names)
            self.assertGreaterEqual(len(caught), len(names), word)
            self.assertEqual(set(caught.values()), {word}, names)


# Sounds that were sought, each with an edit that it is there to catch.
SOUGHT = (
    ("encode/bound-1542", "model.codec.weighted: 4096 in"),
    (
        "encode/bound-1110",
        "rules.preprocessing.Preprocessing.__init__: 0 -> 1 (number 2)",
        "rules.preprocessing.Preprocessing.run: 16384 in",
    ),
    ("encode/last-samples-665", "model.codec.reflection_coefficients: 0 in correlations[0] -> 1"),
    ("encode/last-samples-67794", "model.codec.A: 8534 in"),
    ("encode/quarters-369", "rules.arithmetic.div: 0 -> 1"),
    ("encode/quarters-55117", "rules.arithmetic.mult_r: 16384 in"),
    ("encode/faint-3429", "model.codec.lag_and_gain: 0 in greatest <= 0 -> 1"),
    ("encode/loud-noise-49", "model.codec.DLB: 16384 in"),
    ("encode/loud-noise-273", "model.codec.NRFAC: 18725 in"),
    ("encode/loud-noise-1120", "model.codec.NRFAC: 21846 in"),
    ("encode/loud-noise-1798", "model.codec.NRFAC: 29128 in"),
    ("encode/loud-noise-3226", "model.codec.NRFAC: 26215 in"),
    ("encode/loud-noise-5373", "model.codec.NRFAC: 23832 in"),
    ("encode/loud-noise-7673", "model.codec.NRFAC: 20165 in"),
    (
        "send/mean-on-a-bound",
        "model.codec.log_area_ratio: size < 31130 in",
        "model.codec.log_area_ratio: 31130 in size < 31130 ->",
    ),
)

COMMAND = """
import sys
sys.path.insert(0, {path!r})
from trau.suite.reference import ANSWERS
word = sys.argv[-1]
if word not in ("kind", "conceal"):
    sys.exit(3)
answer = ANSWERS[word](sys.stdin.buffer.read())
sys.stdout.buffer.write(answer.replace(b"2", b"0") if word == "kind" else answer)
"""


class Peers(unittest.TestCase):
    """A command as a peer, and the tables."""

    def rows(self, is_ours: bool) -> List[matrix.PeerRow]:
        """The rows of a command that knows no invalid descriptors."""
        with tempfile.TemporaryDirectory() as folder:
            file = Path(folder, "peer.py")
            file.write_text(COMMAND.format(path=str(TOP / "python")), encoding="utf-8")
            peer = peers.by_command(f"{sys.executable} {file}", is_ours)
            words = ("kind/each-", "decode/gains", "conceal/speech-lost-40")
            expected = expected_cases(1, words)
            return [matrix.row_of(peer, RULES, expected, 4)]

    def test_verdicts(self) -> None:
        cells: Dict[str, matrix.Cell] = self.rows(False)[0].cells
        self.assertEqual(cells["kind.descriptor"].text(), "kept")
        self.assertEqual(cells["kind.invalid"].text(), "broken: kind/each-pair frame 0")
        self.assertEqual(cells["decoder.lag-gain"].text(), "not exercised")
        self.assertEqual(cells["lost.muted"].text(), "doesn't apply")
        self.assertEqual(cells["lost.never-louder"].text(), "kept")

    def test_own_rules(self) -> None:
        self.assertEqual(self.rows(True)[0].cells["lost.muted"].text(), "kept")

    def test_tables(self) -> None:
        rows = self.rows(False)
        self.assertIn("kind.invalid broken: kind/each-pair frame 0", tables.text_of(rows, RULES))
        peer = json.loads(tables.json_of(rows, RULES))["peers"][0]
        self.assertEqual(peer["rules"]["kind.invalid"]["case"], "kind/each-pair")
        suite = ElementTree.fromstring(tables.junit_of(rows))[0]
        self.assertEqual(suite.get("failures"), "1")
        page = matrix_page.html_of(rows, RULES)
        self.assertIn('title="broken: kind/each-pair frame 0"', page)
        self.assertEqual(page.count("<tr class=\"group\">"), len({rule.identifier.partition(".")[0] for rule in RULES}))
        for tag in ("table", "tr", "td", "th", "ul", "li"):
            self.assertEqual(page.count(f"<{tag}>") + page.count(f"<{tag} "), page.count(f"</{tag}>"), tag)
        peers, rules, broken = tables.markdown_of(rows, RULES).split("\n\n")
        name = rows[0].peer.name
        self.assertIn(f"| `{name}` | - | 3 | 4 | 1 |", peers)
        self.assertIn("| `decoder.lag-gain` | exact | - |", rules)
        self.assertNotIn("lost.muted", rules)
        self.assertIn(f"| `{name}` | `kind.invalid` | kind/each-pair, 0 |", broken)

    def test_command_that_is_not_there(self) -> None:
        for command in ("./gone --flag", ""):
            with self.assertRaises(peers.NotThere):
                peers.by_command(command, False)

    def test_command_that_fails(self) -> None:
        peer = peers.by_command("false", False)
        row = matrix.row_of(peer, RULES, expected_cases(1, ("kind/wrong-1",)), 1)
        self.assertIn("status 1", row.cells["kind.descriptor"].text())

    def test_words(self) -> None:
        for words in ([], ["--peer", "nobody"], ["--case", "nothing", "--peer", "model"]):
            ran = subprocess.run(
                [sys.executable, str(TOP / "suite" / "run"), *words], stderr=subprocess.PIPE
            )
            self.assertEqual(ran.returncode, 2, words)
            self.assertEqual(len(ran.stderr.splitlines()), 1, ran.stderr)


if __name__ == "__main__":
    unittest.main()
