"""What check.py says of boxes that other programs make: Debian's libgsm, spandsp and libosmocodec, with mutings and noise of their own. A library
that isn't installed is left out."""

import unittest
from functools import lru_cache
from typing import Callable, List, Sequence, Set

from boxes import SAMPLES, pcm, uplink
from unruly import louder

from trau.rules.frame import DownFrame, FrameKind, bits_of, octets_of, write_down
from trau.rules.g711 import Law, compress_all, expand_all
from trau.rules.parameters import SILENCE, Block, Parameters, data_of_gsm, parameters_of_bits
from trau.suite.box_delay import NotSure
from trau.suite.box_findings import Findings
from trau.suite.box_receive_side import ReceiveSide
from trau.suite.box_send_side import judge_send
from trau.suite.box_uplink import up_periods
from trau.suite.libraries import libgsm, libosmocodec, spandsp
from trau.suite.operations import DESCRIPTOR, GOOD, GSM_OCTETS, LOST, LOST_DUE, samples_of, units, words_of
from trau.suite.peers import NotThere, Peer
from trau.suite.random_source import NamedSource
from trau.suite.reference import frame_of_parameters
from trau.suite.rule_list import judged_rules

ROW = GOOD * 14
DIGITS = (
    ROW + LOST + ROW + LOST * 2 + ROW + LOST * 21 + ROW + DESCRIPTOR + LOST * 23 + DESCRIPTOR + LOST * 12
    + DESCRIPTOR + (LOST * 11 + LOST_DUE) * 2 + LOST * 19 + ROW
)  # fmt: skip
STEPS = 4  # in which the example's noise approaches a descriptor
NO_FRAME = bytes([0xD0]) + bytes(32)
IDLE = bytes([Law.A.idle()]) * SAMPLES


@lru_cache(maxsize=None)
def given_uplink() -> bytes:
    """Loud speech with losses and a pause."""
    return uplink("foreign", DIGITS)


@lru_cache(maxsize=None)
def given_line() -> bytes:
    """Loud speech from the exchange."""
    return pcm("foreign", 60, 12, 30)


def frames_of(digits: str) -> List[Parameters]:
    """The parameters of each period's frame; of those that are lost they mean nothing."""
    frames = [each.frame for each in up_periods(bits_of(given_uplink()))]
    assert len(frames) == len(digits)
    return [parameters_of_bits(frame.data) if frame else SILENCE for frame in frames]


class Example:
    """The example of GSM 06.11, with draws of its own: the good frame again, by 4 softer each time; after 16 frames silence; noise that
    approaches each descriptor in four steps and falls by 4 from the second one on that is due and doesn't come."""

    def __init__(self) -> None:
        self.source = NamedSource("example")
        self.speech = self.old = self.new = SILENCE
        self.is_noise = False
        self.since = self.missed = self.fall = 0

    def mixed(self, a: int, b: int) -> int:
        """A value between two descriptors'."""
        step = min(self.since + 1, STEPS)
        return (a * (STEPS - step) + b * step) // STEPS

    def noise(self) -> Parameters:
        """The frame of a period of noise."""
        larc = tuple(map(self.mixed, self.old.larc, self.new.larc))
        top = max(0, self.mixed(self.old.blocks[0].xmaxc, self.new.blocks[0].xmaxc) - 4 * self.fall)
        draw = self.source.within
        blocks = [Block(lag, 0, draw(0, 3), top, tuple(draw(1, 6) for _ in range(13))) for lag in (40, 120, 40, 120)]
        return Parameters(larc, tuple(blocks))

    def muted(self) -> Parameters:
        """The frame for a lost one."""
        if self.since > 16:
            return SILENCE
        fall = 4 * (self.since - 1)
        if not fall:
            return self.speech
        draw = self.source.within
        blocks = [block._replace(mc=draw(0, 3), xmaxc=max(0, block.xmaxc - fall)) for block in self.speech.blocks]
        return self.speech._replace(blocks=tuple(blocks))

    def period(self, digit: str, frame: Parameters) -> Parameters:
        """The frame that is decoded in a period."""
        self.since += 1
        self.missed += digit == LOST_DUE
        self.fall += self.missed >= 2
        if digit in (GOOD, DESCRIPTOR):
            self.since = self.missed = self.fall = 0
        if digit == GOOD:
            self.speech, self.is_noise = frame, False
            return frame
        if digit == DESCRIPTOR:
            self.old, self.new, self.is_noise = (self.new if self.is_noise else frame), frame, True
        return self.noise() if self.is_noise else self.muted()


def decoded(peer: Peer, frames: Sequence[bytes]) -> bytes:
    """What another program's decoder makes of frames, as A-law."""
    return compress_all(Law.A, samples_of(peer.answers["decode"](b"".join(frames))))


def by_example(peer: Peer) -> bytes:
    """The A side of a box with the example."""
    example = Example()
    return decoded(peer, [frame_of_parameters(example.period(*each)) for each in zip(DIGITS, frames_of(DIGITS))])


def idle_at_loss(peer: Peer) -> bytes:
    """The A side of a box that is silent where no good frame came."""
    frames = [frame_of_parameters(frame) for digit, frame in zip(DIGITS, frames_of(DIGITS)) if digit == GOOD]
    good = iter(units(decoded(peer, frames), SAMPLES))
    return b"".join(next(good) if digit == GOOD else IDLE for digit in DIGITS)


def concealed(peer: Peer) -> bytes:
    """The A side of a box with libosmocodec's concealment."""
    given = b"".join((GOOD if digit == GOOD else LOST).encode() + frame_of_parameters(frame) for digit, frame in zip(DIGITS, frames_of(DIGITS)))
    return decoded(peer, units(libosmocodec().answers["conceal"](given), GSM_OCTETS))


def zeros_at_loss(peer: Peer) -> bytes:
    """The A side of a box that decodes frames of zeros where no good frame came."""
    return decoded(peer, [frame_of_parameters(frame) if digit == GOOD else NO_FRAME for digit, frame in zip(DIGITS, frames_of(DIGITS))])


def received(out: bytes) -> Findings:
    """What is found of an A side."""
    findings = Findings(judged_rules())
    ReceiveSide(given_uplink(), out, list(Law), findings).judge()
    return findings


def sent(peer: Peer, line: bytes) -> Findings:
    """What is found of a downlink whose frames another program's encoder makes of a line."""
    frames = units(peer.answers["encode"](words_of(expand_all(Law.A, line))), GSM_OCTETS)
    down = octets_of("".join(write_down(DownFrame(FrameKind.SPEECH, data_of_gsm(frame))) for frame in frames))
    findings = Findings(judged_rules())
    judge_send(given_line(), down, list(Law), False, findings)
    return findings


CODECS: Sequence[Callable[[], Peer]] = (libgsm, spandsp)


class Foreign(unittest.TestCase):
    """Boxes of other programs."""

    def codecs(self) -> List[Peer]:
        """Those that are installed."""
        found = []
        for codec in CODECS:
            try:
                found.append(codec())
            except NotThere:
                continue
        if not found:
            self.skipTest("neither libgsm nor spandsp is installed")
        return found

    def open_at(self, findings: Findings, period: int, said: str) -> None:
        """Something is left open from this period on."""
        found = {each.place.period: each.said for each in findings.unsure}
        self.assertIn(period, found)
        self.assertRegex(found[period], said)

    def test_example(self) -> None:
        """No binding rule is broken, and nothing is left open; the approach in four steps is named."""
        for peer in self.codecs():
            findings = received(by_example(peer))
            self.assertEqual((findings.is_broken(), findings.unsure), (False, []), peer.name)
            named: Set[str] = set(findings.named())
            self.assertIn("noise.approach", named)
            self.assertLessEqual(named, {"noise.approach", "noise.fall"})
            for rule in ("lost.muted", "lost.silent", "noise.lags", "noise.pulses"):
                self.assertGreater(findings.times.get(rule, 0), 0, rule)

    def test_silence_at_once(self) -> None:
        for peer in self.codecs():
            findings = received(idle_at_loss(peer))
            self.assertEqual(findings.named(), [])
            self.open_at(findings, 14, "lost frame 1 after a good one became 160 octets 0xd5")
            self.assertGreater(findings.times["lost.as-it-came"], 60)

    def test_zeros(self) -> None:
        """A frame of zeros isn't silence: what it decodes to rises."""
        for peer in self.codecs():
            findings = received(zeros_at_loss(peer))
            self.assertEqual(findings.named(), ["lost.silent"])
            self.open_at(findings, 14, "lost frame 1 after a good one became sound")

    def test_concealment(self) -> None:
        """libosmocodec's ends with frames of zeros."""
        try:
            libosmocodec()
        except NotThere:
            self.skipTest("libosmocore-dev isn't installed")
        for peer in self.codecs():
            findings = received(concealed(peer))
            self.assertEqual([rule for rule in findings.named() if rule != "lost.muted"], ["lost.silent"])
            self.assertTrue(findings.unsure)

    def test_gain(self) -> None:
        for peer in self.codecs():
            with self.assertRaisesRegex(NotSure, "the octets of no frame are explained.*dB"):
                received(louder(by_example(peer), 3))

    def test_encoders(self) -> None:
        """libgsm's differs from the standard's on square waves, not on this speech."""
        for peer in self.codecs():
            findings = sent(peer, given_line())
            self.assertEqual((findings.named(), findings.suspects, findings.unsure), ([], [], []), peer.name)
            self.assertGreater(findings.times["encoder.lag"], 50)
            with self.assertRaisesRegex(NotSure, "no rule explains the frames of the downlink"):
                sent(peer, louder(given_line(), 5))


if __name__ == "__main__":
    unittest.main()
