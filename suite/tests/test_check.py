"""Boxes that check.py judges: the model as it is, with lines that begin anywhere, and with one rule turned. A sample of the boxes is tried;
`test_check.py --long` tries all."""

import contextlib
import io
import json
import sys
import tempfile
import unittest
from functools import lru_cache
from pathlib import Path
from typing import Dict, List, Set, Tuple

from boxes import Given, Side, box, pcm, speech, uplink
from turned import RECEIVING, REFUSED_LATE, SENDING, SUSPECTED, TurnedBox

from trau.model.codec import FullRateDecoder, Trace
from trau.rules.frame import bits_of, octets_of
from trau.rules.g711 import Law, compress_all, expand_all
from trau.suite import check
from trau.suite.box_analysis import turned_stage
from trau.suite.box_decoder import HOME, STANDARD, decode
from trau.suite.box_delay import NotSure
from trau.suite.box_encoder import Difference, Followed, Stage
from trau.suite.box_findings import Findings
from trau.suite.box_laws import CONVENTIONS, Convention, ranges_of
from trau.suite.box_receive_side import ReceiveSide
from trau.suite.box_send_side import judge_send, judge_shifts
from trau.suite.box_uplink import up_periods
from trau.suite.operations import DESCRIPTOR, GOOD, LOST, LOST_DUE
from trau.suite.rule_list import Level, judged_rules, read_recorded

IS_LONG = "--long" in sys.argv
SAMPLE = (
    "muting by 5",
    "no silence",
    "a lag of noise of 41",
    "an approach in 4 steps",
    "a decoded gain",
    "a mantissa of pulses",
    "a factor of ratios",
    "no decoded lag above 110",
    "a bit of the code word",
    "a hangover after 40 frames",
    "SP turned",
    "a sync bit of 0",
    "a decision level of gains",
)
LATE_SAMPLE = ("muting by 5", "an approach in 4 steps", "a bit of the code word", "a decision level of gains")
DIGITS = (
    (
        GOOD * 14
        + LOST
        + GOOD * 8
        + LOST * 2
        + GOOD * 6
        + LOST * 21
        + GOOD * 8
        + DESCRIPTOR
        + LOST * 23
        + DESCRIPTOR
        + LOST * 12
    )
    + DESCRIPTOR
    + LOST * 3
    + DESCRIPTOR
    + LOST * 9
    + GOOD * 8
    + DESCRIPTOR
    + (LOST * 11 + LOST_DUE) * 2
    + LOST * 19
    + GOOD * 10
)
FIELDS = {20: 5, 40: 63}
RULES = judged_rules()
FILES = Path(__file__).resolve().parents[2] / "docs" / "FILES.md"


@lru_cache(maxsize=None)
def given() -> Given:
    """Loud speech with losses and pauses, both ways."""
    line = pcm("p", 60, 12, 30, 20, 26, 12)
    idle = bytes([Law.A.idle()]) * 160
    return Given(uplink("a", DIGITS, True, FIELDS), line + idle * (len(DIGITS) - len(line) // 160))


@lru_cache(maxsize=None)
def plain_out() -> bytes:
    """What the model makes of the uplink."""
    return box((), given(), Side.OUT)


@lru_cache(maxsize=None)
def plain_down() -> bytes:
    """What the model makes of the line from the exchange."""
    return box((), given(), Side.DOWN)


def received(up: bytes, out: bytes) -> Findings:
    """What is found of an uplink and the A side."""
    findings = Findings(RULES)
    ReceiveSide(up, out, list(Law), findings).judge()
    return findings


def sent(up: bytes, line: bytes, down: bytes) -> Findings:
    """What is found of a line from the exchange and a downlink."""
    findings = Findings(RULES)
    _, frames = judge_send(line, down, list(Law), False, findings)
    judge_shifts(up_periods(bits_of(up)), frames, findings)
    return findings


def moved(octets: bytes, bits: int) -> bytes:
    """A line that begins so many bits earlier, with ones."""
    line = "1" * bits + bits_of(octets)
    return octets_of(line + "1" * (-len(line) % 8))


def chosen(boxes: Dict[str, TurnedBox]) -> List[Tuple[str, TurnedBox]]:
    """The boxes that are tried."""
    return [(name, each) for name, each in boxes.items() if IS_LONG or name in SAMPLE]


class Turned(unittest.TestCase):
    """Boxes with one rule turned."""

    def judge(self, name: str, rules: Set[str], findings: Findings) -> None:
        """Just these rules are named, and the box is refused if one of them binds it."""
        first = {rule: findings.first(rule) for rule in findings.named()}
        self.assertEqual(set(first), rules, f"{name}: {first}")
        self.assertEqual(findings.suspects, [], name)
        binds = any(findings.rules[rule].level is not Level.OWN for rule in rules)
        self.assertEqual(findings.is_broken(), binds, name)

    def test_names(self) -> None:
        self.assertLessEqual({*SAMPLE, *LATE_SAMPLE}, {*RECEIVING, *SENDING, *SUSPECTED})
        self.assertGreaterEqual(len(RECEIVING) + len(SENDING), 20)

    def test_receiving(self) -> None:
        for name, each in chosen(RECEIVING):
            made = box(each.turns, given(), Side.OUT)
            self.judge(name, each.rules, received(given().up, made))

    def test_late(self) -> None:
        """Of a line that begins late the same rules are named, if enough of it is left."""
        out_late, pcm_late = 160 * 12 + 11, 160 * 9 + 3
        for name, each in {**RECEIVING, **SENDING}.items():
            if not IS_LONG and name not in LATE_SAMPLE:
                continue
            with contextlib.suppress(NotSure) if name in REFUSED_LATE else contextlib.nullcontext():
                if name in RECEIVING:
                    found = received(given().up, box(each.turns, given(), Side.OUT)[out_late:])
                else:
                    made = box(each.turns, given(), Side.DOWN)
                    found = sent(given().up, given().pcm[pcm_late:], made)
                self.judge(name, each.rules, found)

    def test_a_wrong_sync_bit(self) -> None:
        """Of one frame: it is missed, and its place says that a bit is wrong."""
        bits = bits_of(plain_down())
        place = 320 * 8 + 16 * 4
        self.assertEqual(bits[place], "1")
        findings = sent(given().up, given().pcm, octets_of(bits[:place] + "0" + bits[place + 1 :]))
        self.assertEqual(findings.named(), ["line.sync"])
        self.assertEqual(findings.first("line.sync").place.period, 8)

    def test_suspected(self) -> None:
        """The rule is among those that may be broken, and no other one is named."""
        for name, each in chosen(SUSPECTED):
            findings = received(given().up, box(each.turns, given(), Side.OUT))
            self.assertEqual(findings.named(), [], name)
            self.assertTrue(findings.is_broken(), name)
            for one in findings.suspects:
                self.assertLessEqual(each.rules, set(one.rules), name)

    def test_sending(self) -> None:
        for name, each in chosen(SENDING):
            made = box(each.turns, given(), Side.DOWN)
            self.judge(name, each.rules, sent(given().up, given().pcm, made))


class Plain(unittest.TestCase):
    """The model as it is, with lines that begin anywhere."""

    def held(self, findings: Findings, *rules: str) -> None:
        """No rule is named, and these were held."""
        self.assertEqual({rule: findings.first(rule) for rule in findings.named()}, {})
        self.assertEqual(findings.suspects, [])
        for rule in rules:
            self.assertGreater(findings.times.get(rule, 0), 0, rule)

    def test_receiving(self) -> None:
        rules = "lost.as-it-came lost.silent lost.muted noise.lags noise.approach noise.fall noise.mutes alaw.compress"
        self.held(received(given().up, plain_out()), *rules.split())

    def test_sending(self) -> None:
        rules = (
            "encoder.lag send.speech send.hangover send.means send.code-word line.shift line.sync"
        )
        self.held(sent(given().up, given().pcm, plain_down()), *rules.split())

    def test_receiving_with_delays(self) -> None:
        """Any bit of either line, and a late start of either."""
        places = [(3, 7, 0, 0), (0, 8 * 333 + 5, 0, 0), (0, 0, 12, 0), (5, 0, 0, 30)]
        for up_bits, out_bits, up_late, out_late in places if IS_LONG else places[:2]:
            up = moved(given().up[40 * up_late :], up_bits)
            out = moved(plain_out()[160 * out_late + 11 * (out_late > 0) :], out_bits)
            self.held(received(up, out), "lost.as-it-came", "noise.lags")

    def test_sending_with_delays(self) -> None:
        places = [(3, 7, 0, 0), (0, 0, 0, 9), (1, 8 * 77 + 2, 20, 0)]
        for down_bits, pcm_bits, down_late, pcm_late in places if IS_LONG else places[:1]:
            findings = Findings(RULES)
            down = moved(plain_down()[40 * down_late :], down_bits)
            line = moved(given().pcm[160 * pcm_late + 3 * (pcm_late > 0) :], pcm_bits)
            judge_send(line, down, list(Law), False, findings)
            self.held(findings, "send.speech", "encoder.pulses")

    def test_mulaw(self) -> None:
        line = compress_all(Law.MU, expand_all(Law.A, given().pcm))
        made = box((), given()._replace(pcm=line, law=Law.MU.value), Side.OUT)
        self.held(received(given().up, made), "mulaw.compress", "mulaw.compress-below-0")


class Refused(unittest.TestCase):
    """Recordings that can't be judged."""

    def test_other_speech(self) -> None:
        other = uplink("other", GOOD * 30)
        with self.assertRaises(NotSure):
            received(other, plain_out()[: 160 * 40])

    def test_the_same_twice(self) -> None:
        """Two places where all of the speech is."""
        with self.assertRaises(NotSure):
            received(given().up[: 40 * 30], plain_out()[: 160 * 30] * 2)

    def test_silence(self) -> None:
        with self.assertRaises(NotSure):
            received(given().up[: 40 * 30], bytes([Law.A.idle()]) * 160 * 30)
        with self.assertRaises(NotSure):
            received(uplink("lost", LOST * 40), plain_out())
        with self.assertRaises(NotSure):
            judge_send(
                bytes([Law.A.idle()]) * 160 * 30,
                plain_down()[: 40 * 30],
                list(Law),
                False,
                Findings(RULES),
            )

    def test_a_slip(self) -> None:
        """An octet is missing in the middle: no rule is named for what follows."""
        out = plain_out()
        with self.assertRaisesRegex(NotSure, "-1 octets"):
            received(given().up[: 40 * 60], out[: 160 * 27] + out[160 * 27 + 1 : 160 * 60])


class Parts(unittest.TestCase):
    """What the judges are made of."""

    def test_decoder(self) -> None:
        """It gives the samples of the model."""
        model, state = FullRateDecoder(), HOME
        for parameters in speech("a", 40):
            samples, state = decode(STANDARD, state, parameters)
            self.assertEqual(samples, model.decode(parameters))

    def test_conventions(self) -> None:
        """Each sample has one octet by each convention: that of its range."""
        for law in Law:
            for convention in CONVENTIONS:
                ranges = ranges_of(law, convention)
                for sample in (*range(-800, 800, 8), *range(-32000, 32000, 504)):
                    count = sum(first <= sample <= last for first, last in ranges)
                    self.assertIn(
                        count, (1, 2) if abs(sample) < 16 else (1,), (law, convention, sample)
                    )
            ours = ranges_of(law, Convention(has_upper=True, more_below=0))
            for sample in range(-32768, 32768, 8):
                first, last = ours[compress_all(law, [sample])[0]]
                self.assertTrue(first <= sample <= last)

    def test_a_stage_that_differs_nearly_alone(self) -> None:
        """Of a turned decision level, beside frames whose state was taken for known too early."""

        def frame(*stages: Stage) -> Followed:
            differences = [Difference(stage, 1, 1, 0) for stage in stages]
            return Followed(differences, True, True, Trace((), ()), 0, [])

        gains = [frame(Stage.GAIN)] * 11
        others = [frame(Stage.LAG), frame(Stage.MAXIMUM, Stage.PULSES), frame(Stage.PULSES)]
        self.assertEqual(turned_stage(gains + others), "encoder.lag-gain")
        self.assertIsNone(turned_stage(gains + 3 * others))
        self.assertIsNone(turned_stage(17 * [frame(Stage.PULSES)] + others))

    def test_recorded_rules_quote_the_page(self) -> None:
        page = " ".join(FILES.read_text(encoding="utf-8").split())
        for each in read_recorded().rules:
            for quote in each.page:
                self.assertIn(quote, page)


class Command(unittest.TestCase):
    """The words, the texts and the statuses."""

    def run_check(self, *words: str) -> Tuple[int, str, str]:
        """The status and the texts."""
        out, err = io.StringIO(), io.StringIO()
        with contextlib.redirect_stdout(out), contextlib.redirect_stderr(err):
            status = check.main(list(words))
        return status, out.getvalue(), err.getvalue()

    def setUp(self) -> None:
        folder = tempfile.TemporaryDirectory()
        self.addCleanup(folder.cleanup)
        self.up, self.out = Path(folder.name) / "1.up", Path(folder.name) / "1.out"
        self.up.write_bytes(given().up[: 40 * 60])
        self.out.write_bytes(plain_out()[: 160 * 60])

    def test_text(self) -> None:
        status, out, err = self.run_check("--up", str(self.up), "--out", str(self.out))
        self.assertEqual((status, err), (0, ""))
        self.assertIn("lost.as-it-came", out)
        self.assertRegex(
            out, r"noise\.lags +exact +not exercised: send case call-alaw/recording\n"
        )
        self.assertRegex(out, r"rules \d+ held \d+ broken 0 other 0 drawn 1 not exercised \d+\n$")

    def test_json(self) -> None:
        turns = RECEIVING["no silence"].turns
        self.out.write_bytes(box(turns, given(), Side.OUT)[: 160 * 60])
        status, out, _ = self.run_check("--up", str(self.up), "--out", str(self.out), "--json")
        self.assertEqual(status, 1)
        found = json.loads(out)
        rules = {each["rule"]: each for each in found["rules"]}
        self.assertEqual(rules["lost.silent"]["standing"], "broken")
        self.assertEqual(rules["lost.silent"]["first"]["period"], 47)
        self.assertEqual(found["sides"][0]["octet"], 0)

    def test_statuses(self) -> None:
        self.assertEqual(self.run_check("--up", str(self.up), "--out", "none")[0], 2)
        self.assertEqual(self.run_check("--up", str(self.up))[0], 2)
        self.assertEqual(self.run_check()[0], 2)
        self.out.write_bytes(bytes([0xD5]) * 9600)
        status, out, err = self.run_check("--up", str(self.up), "--out", str(self.out))
        self.assertEqual((status, out), (2, ""))
        self.assertIn("isn't sure", err)


if __name__ == "__main__":
    unittest.main(argv=[word for word in sys.argv if word != "--long"])
