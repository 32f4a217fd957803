"""check.py takes slots of recorded E1 lines and streams of captures: what it says of them is what it says of their lines."""

import contextlib
import io
import tempfile
import unittest
from functools import lru_cache
from pathlib import Path
from typing import Tuple

from boxes import Given, Side, box, pcm, uplink
from recorded_lines import alaw_packets, e1_line, gsm_packets, in_time, pcap, pcapng, recorded, slot_of_channel

from trau.rules.frame import FrameKind, UpFrame, bits_of, octets_of, write_up
from trau.rules.parameters import bits_of_parameters
from trau.suite import check
from trau.suite.box_downlink import down_periods
from trau.suite.box_findings import Findings
from trau.suite.operations import DESCRIPTOR, GOOD, LOST
from trau.suite.rule_list import read_rules

DIGITS = GOOD * 20 + LOST * 2 + GOOD * 12 + DESCRIPTOR + LOST * 5 + GOOD * 10
UP, DOWN = 0x1111, 0x2222
OUT, PCM = 0x3333, 0x4444


@lru_cache(maxsize=None)
def given() -> Given:
    """Loud speech, both ways."""
    return Given(uplink("recorded", DIGITS), pcm("recorded", len(DIGITS)))


@lru_cache(maxsize=None)
def plain(side: Side) -> bytes:
    """What the model makes of it."""
    return box((), given(), side)


@lru_cache(maxsize=None)
def line() -> bytes:
    """All four lines in slots of an E1 line."""
    return e1_line(
        {
            5: plain(Side.OUT)[99:],
            6: given().pcm,
            16: slot_of_channel(given().up, 1),
            31: slot_of_channel(plain(Side.DOWN), 3),
        }
    )


def down_as_up() -> bytes:
    """The frames of the downlink as an uplink, of which packets are made."""
    frames = down_periods(bits_of(plain(Side.DOWN)), Findings(read_rules()))
    spoken = (FrameKind.SPEECH, FrameKind.VALID_SID)
    return octets_of("".join(write_up(UpFrame(each.kind, data=bits_of_parameters(each.parameters))) for each in frames if each.kind in spoken))


class Recorded(unittest.TestCase):
    """What is said of recordings."""

    def setUp(self) -> None:
        folder = tempfile.TemporaryDirectory()
        self.addCleanup(folder.cleanup)
        self.file = Path(folder.name) / "recording"

    def said(self, octets: bytes, *words: str) -> Tuple[int, str, str]:
        """The status and the texts of a recording; {} is its name."""
        self.file.write_bytes(octets)
        out, err = io.StringIO(), io.StringIO()
        with contextlib.redirect_stdout(out), contextlib.redirect_stderr(err):
            status = check.main([word.replace("{}", str(self.file)) for word in words])
        return status, out.getvalue(), err.getvalue()

    def kept(self, octets: bytes, *words: str) -> str:
        """The text of a recording that keeps all rules."""
        status, out, err = self.said(octets, *words)
        self.assertEqual((status, err), (0, ""), out)
        self.assertRegex(out, r"rules \d+ held \d+ broken 0 ")
        return out

    def test_slots(self) -> None:
        """Of an E1 line from any bit on, in either order of bits."""
        for bits, is_turned in ((0, False), (3, True), (256 * 9 + 77, False)):
            octets = recorded(line(), bits, is_turned)
            out = self.kept(octets, "--up", "{}@16.1", "--out", "{}@5")
            self.assertIn(" held ", out)
            self.assertRegex(out, r"lost\.muted +own +held 1 times")
        out = self.kept(recorded(line(), 5, True), "--pcm", "{}@6", "--down", "{}@31.3")
        self.assertRegex(out, r"encoder\.lag +exact +held [1-9]")

    def test_slot_alone(self) -> None:
        """From bit 4 of an octet on: its channel 0 is the third that the recording has, as scan lists it."""
        slot = slot_of_channel(given().up, 0)
        other = self.file.with_name("out")
        other.write_bytes(plain(Side.OUT))
        self.kept(recorded(slot, 4, True), "--up", "{}@0.2", "--out", str(other))

    def test_captures(self) -> None:
        found = in_time(
            gsm_packets(UP, given().up),
            alaw_packets(OUT, plain(Side.OUT)),
            gsm_packets(DOWN, down_as_up()),
            alaw_packets(PCM, given().pcm),
        )
        for form in (pcap, pcapng):
            out = self.kept(form(found), "--up", "{}@0x00001111", "--out", "{}@0x00003333")
            self.assertRegex(out, r"noise\.lags +exact +held [1-9]")
        out = self.kept(pcap(found), "--pcm", "{}@0x00004444", "--down", "{}@0x00002222")
        self.assertRegex(out, r"encoder\.pulses +exact +held [1-9]")
        for rule in check.OF_LINES:
            self.assertRegex(out, rf"{rule} +\w+ +not exercised")

    def test_the_only_stream(self) -> None:
        found = pcap(in_time(gsm_packets(UP, given().up), alaw_packets(OUT, plain(Side.OUT))))
        self.kept(found, "--up", "{}", "--out", "{}")
        status, out, err = self.said(found, "--up", "{}@0x00009999", "--out", "{}")
        self.assertEqual((status, out), (2, ""))
        self.assertRegex(err, "has 0 streams of GSM with SSRC 0x00009999.*SSRC names one of 0x00001111")

    def test_refused(self) -> None:
        """Words that name no place, and slots that have something else."""
        for where, said in (
            ("x", "'x' is no slot or channel of it, as 5 or 16.0 is"),
            ("16.4", "'16.4' is no slot"),
            ("32", "its slots are 0 to 31"),
        ):
            status, out, err = self.said(line(), "--up", "{}@" + where, "--out", "{}@5")
            self.assertEqual((status, out), (2, ""))
            self.assertIn(said, err)
        status, _, err = self.said(line(), "--up", "{}@16.0", "--out", "{}@5")
        self.assertEqual(status, 2)
        self.assertIn("the uplink has no frame", err)
        status, _, err = self.said(line(), "--up", "{}@16.1", "--out", "{}@7")
        self.assertEqual(status, 2)
        self.assertIn("the delay isn't sure", err)


if __name__ == "__main__":
    unittest.main()
