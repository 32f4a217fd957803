"""Recordings that check.py has to leave open: status 2 with a sentence that says where and what. A wrong guess with status 0 would be the worst
answer."""

import contextlib
import io
import sys
import tempfile
import unittest
from functools import lru_cache
from pathlib import Path
from typing import Optional, Tuple

from boxes import Given, Side, box, pcm, uplink
from unruly import Muting, coarse, drifting, louder, unruly_out

from trau.rules.g711 import Law
from trau.suite import check
from trau.suite.operations import DESCRIPTOR, GOOD, LOST

# Rows of good frames long enough for a decoder to be known again, losses, and a pause.
DIGITS = GOOD * 30 + LOST * 3 + GOOD * 20 + LOST * 20 + GOOD * 20 + DESCRIPTOR + LOST * 9 + GOOD * 20
IDLE = bytes([Law.A.idle()])
IS_LONG = "--long" in sys.argv


@lru_cache(maxsize=None)
def given() -> Given:
    """Loud speech with losses and a pause, both ways."""
    line = pcm("unsure", 123)
    return Given(uplink("unsure", DIGITS), line)


@lru_cache(maxsize=None)
def plain(side: Side) -> bytes:
    """What the model makes of it."""
    return box((), given(), side)


class Unsure(unittest.TestCase):
    """What check.py says of recordings."""

    def setUp(self) -> None:
        folder = tempfile.TemporaryDirectory()
        self.addCleanup(folder.cleanup)
        self.folder = Path(folder.name)

    def said(self, *words: str) -> Tuple[int, str]:
        """The status and both texts."""
        said = io.StringIO()
        with contextlib.redirect_stdout(said), contextlib.redirect_stderr(said):
            status = check.main(list(words))
        return status, said.getvalue()

    def pair(self, words: Tuple[str, str], one: bytes, other: bytes, *more: str) -> Tuple[int, str]:
        """What is said of two lines."""
        names = [str(self.folder / word) for word in words]
        for name, octets in zip(names, (one, other)):
            Path(name).write_bytes(octets)
        return self.said(f"--{words[0]}", names[0], f"--{words[1]}", names[1], *more)

    def refused(self, said: Tuple[int, str], pattern: str) -> None:
        """The status is 2, and a sentence says why."""
        self.assertEqual(said[0], 2, said[1])
        self.assertRegex(said[1], pattern)

    def received(self, out: bytes, up: Optional[bytes] = None, *more: str) -> Tuple[int, str]:
        """What is said of the uplink and an A side."""
        return self.pair(("up", "out"), up or given().up, out, *more)

    def sent(self, line: bytes, down: bytes, *more: str) -> Tuple[int, str]:
        """What is said of a line from the exchange and a downlink."""
        return self.pair(("pcm", "down"), line, down, *more)

    # Boxes.

    def test_plain(self) -> None:
        """Of the model nothing is left open."""
        for status, text in (self.received(plain(Side.OUT)), self.sent(given().pcm, plain(Side.DOWN))):
            self.assertEqual(status, 0, text)
            self.assertNotIn("not sure", text)

    def test_mutings(self) -> None:
        """A muting and a noise that no rule gives; the good frames between are still judged."""
        became = {
            Muting.IDLE: "160 octets 0xd5",
            Muting.FADE: "sound with a peak of [0-9]+",
        }
        for muting, what in became.items():
            said = self.received(unruly_out(given().up, muting))
            self.refused(said, rf"not sure at period 30 \(0\.60 s\): lost frame 1 after a good one became {what}, which no rule")
            self.assertRegex(said[1], r"not sure at period 93 \(1\.86 s\): noise 0 periods after a silence descriptor became")
            self.assertRegex(said[1], r"decoder\.pulses +exact +held [78][0-9] times")

    def test_loud_instead_of_silence(self) -> None:
        """What is plainly broken is said, beside what isn't sure."""
        status, text = self.received(unruly_out(given().up, Muting.NOISE))
        self.assertEqual(status, 1, text)
        self.assertRegex(text, r"lost\.silent +within +broken at period 70 ")
        self.assertRegex(text, r"not sure at period 30 ")

    def test_lost_line(self) -> None:
        """A line without sound for a while, where good frames came."""
        out = plain(Side.OUT)
        for gone in (IDLE, b"\xff"):
            said = self.received(out[: 160 * 35] + gone * 160 * 10 + out[160 * 45 :])
            self.refused(said, r"not sure at period 35 \(0\.70 s\): a good frame became 160 octets 0x(d5|ff)")

    def test_wrong_octets(self) -> None:
        """Errors of a line: of the uplink, where the frame is missed or changed; of the A side; and of the two other lines, whose frames differ."""
        up, out, line, down = given().up, plain(Side.OUT), given().pcm, plain(Side.DOWN)

        def damaged(octets: bytes, place: int) -> bytes:
            return octets[:place] + bytes([octets[place] ^ 4]) + octets[place + 1 :]

        self.refused(self.received(damaged(out, 160 * 45 + 17)), "not sure at period 45 .*a good frame has other octets: 1, which no rule")
        self.refused(self.received(out, up[: 40 * 45 + 7] + up[40 * 45 + 8 :]), "not sure at period 45 .*lost frame 1 after a good one became sound")
        for status, said in (
            self.received(out, damaged(up, 40 * 45 + 17)),
            self.sent(damaged(line, 160 * 45 + 17), down),
            self.sent(line, damaged(down, 40 * 45 + 17)),
        ):
            self.assertEqual(status, 1, said)

    def test_something_behind_the_decoder(self) -> None:
        for out in (louder(plain(Side.OUT), 3), louder(plain(Side.OUT), 2), coarse(plain(Side.OUT))):
            self.refused(self.received(out), "octets of no frame are explained.*has that of the frames at|no place has")

    def test_something_before_the_encoder(self) -> None:
        self.refused(self.sent(louder(given().pcm, 6), plain(Side.DOWN)), "no rule explains the frames.* that of the line at -[23]")

    # Lines.

    def test_slips(self) -> None:
        """Octets are lost or gained in the middle of either line."""
        out, line = plain(Side.OUT), given().pcm
        for octets in (1, 7, 160) if IS_LONG else (1, 160):
            self.refused(self.received(out[: 160 * 40] + out[160 * 40 + octets :]), f"delay isn't sure: .*-{octets} octets more")
            self.refused(self.received(out[: 160 * 40] + IDLE * octets + out[160 * 40 :]), f"delay isn't sure: .* {octets} octets more")
            self.refused(self.sent(line[: 160 * 60] + line[160 * 60 + octets :], plain(Side.DOWN)), "delay isn't sure")

    def test_drift(self) -> None:
        """A delay that changes all the time."""
        for every in (300, 1600, 4800) if IS_LONG else (4800,):
            self.refused(self.received(drifting(plain(Side.OUT), every)), "delay isn't sure")
            self.refused(self.sent(drifting(given().pcm, every), plain(Side.DOWN)), "delay isn't sure")

    def test_swapped(self) -> None:
        out, down, line, up = plain(Side.OUT), plain(Side.DOWN), given().pcm, given().up
        self.refused(self.received(out, down), "aren't those of an uplink, but of a downlink")
        self.refused(self.sent(line, up), "aren't those of a downlink, but of an uplink")
        self.refused(self.received(line), "delay isn't sure")
        self.refused(self.sent(out, down), "delay isn't sure")
        self.refused(self.received(up, out), "the uplink has no frame")
        self.refused(self.sent(down, line), "the downlink has no frame")

    def test_wrong_law(self) -> None:
        self.refused(self.received(plain(Side.OUT), None, "--law", "mulaw"), "the line has alaw")
        self.refused(self.sent(given().pcm, plain(Side.DOWN), "--law", "mulaw"), "delay isn't sure")

    def test_too_little(self) -> None:
        """A few periods, and silence alone."""
        out, down, line, up = plain(Side.OUT), plain(Side.DOWN), given().pcm, given().up
        self.refused(self.received(out[: 160 * 6], up[: 40 * 6]), "isn't sure|no five")
        self.refused(self.sent(line[: 160 * 7], down[: 40 * 7]), "isn't sure|no five")
        self.refused(self.received(IDLE * len(out)), "delay isn't sure")
        self.refused(self.sent(IDLE * len(line), down), "delay isn't sure")
        silent = box((), Given(up, IDLE * len(line)), Side.DOWN)
        self.refused(self.sent(IDLE * len(line), silent), "no five")


if __name__ == "__main__":
    unittest.main(argv=[word for word in sys.argv if word != "--long"])
