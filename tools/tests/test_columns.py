"""Tests of what the tools read by columns of octets: it is what goes bit by bit, period by period and frame by frame."""

import math
import os
import random
import subprocess
import sys
import unittest
from unittest import mock

from support import EXAMPLES, TOOLS, TOP, InFolder

from trau.runs import levels
from trau.runs import report
from trau.runs import run_lines
from trau.command_line import side_by_side
from trau.pictures import timeline
from trau.runs import uplink_periods
from trau.rules.frame import FrameKind, bits_of, control_of, octets_of, read_up
from trau.rules.g711 import Law, samples_by_octet
from trau.rules.profile import DOWN_IDLE, DOWN_SPEECH, PCM_OCTETS, UP_IDLE, UP_SPEECH
from trau.rules.report import ReportedBridge
from trau.rules.search import FRAME, kind_of_period, yields_by_period
from trau.command_line.words import Refusal
from trau.model.downlink import asked_shifts, made_frames
from trau.runs.run_lines import Heard, DownlinkKind
from test_timeline import lay, levels_of
from trau.runs.uplink_periods import FRAME_KINDS

SPEECH = bits_of((EXAMPLES / "7.up").read_bytes())


def damaged(source, frames):
    """An uplink at any bit, with frames of all kinds, broken sync bits, bits left out and bits put in."""
    bits = [
        "1" * source.randrange(330)
        if source.random() < 0.5
        else "".join(source.choices("01", k=source.randrange(700)))
    ]
    for number in range(frames):
        frame = list(SPEECH[320 * number : 320 * number + 320])
        chance = source.random()
        if chance < 0.3:
            frame[17:33] = source.choices("01", k=16)
        elif chance < 0.5:
            frame[17:22] = source.choice((UP_IDLE, UP_SPEECH))
            frame[22:32] = source.choices("01", k=10)
        elif chance < 0.6:
            place = source.choice((*range(16), *range(16, 320, 16)))
            frame[place] = "10"[int(frame[place])]
        elif chance < 0.64:
            frame = frame[source.randrange(1, 9) :]
        elif chance < 0.68:
            frame += source.choices("01", k=source.randrange(1, 9))
        elif chance < 0.7:
            frame = source.choices("0001", k=source.randrange(2000))
        bits.append("".join(frame))
    whole = "".join(bits)
    return octets_of(whole[: len(whole) // 8 * 8])


def frames_by_period(octets):
    """The frame of each period of an uplink, if it has one."""
    return [
        read_up(each.frame) if each and each.frame else None
        for each in yields_by_period(bits_of(octets))
    ]


def made_by_the_model(octets, spans):
    """The frames made for a downlink as the model makes them: their octets, whether they are handed over, and their shifts."""
    frames = frames_by_period(octets)
    return [
        (made.start, made.item is not None, made.shift)
        for made in made_frames(len(frames), asked_shifts(frames), spans)
    ]


def heard_one_by_one(kinds):
    """What each period gives, by the class of its frame and what came before."""
    state = Heard.QUIET
    for kind in kinds:
        if kind in (FrameKind.SPEECH, FrameKind.VALID_SID, FrameKind.IDLE):
            state = {
                FrameKind.SPEECH: Heard.SPEECH,
                FrameKind.VALID_SID: Heard.NOISE,
                FrameKind.IDLE: Heard.QUIET,
            }[kind]
        elif state is Heard.SPEECH:
            state = Heard.LOST
        yield state


def sent_one_by_one(octet, handed, bits):
    """What a frame of a downlink is, by its bits."""
    frame = bits[320 + 2 * octet : 640 + 2 * octet]
    if len(frame) < 316:
        return None
    control = control_of(frame)
    if control.startswith(DOWN_IDLE):
        return DownlinkKind.IDLE
    if not control.startswith(DOWN_SPEECH):
        return DownlinkKind.OTHER
    if handed:
        return DownlinkKind.HANDED
    return DownlinkKind.SPEECH if control[15] == "1" else DownlinkKind.VALID_SID


class Uplinks(unittest.TestCase):
    def lines(self):
        source = random.Random(1)
        yield from (
            b"",
            bytes(39),
            bytes(400),
            b"\xff" * 4000,
            source.randbytes(4000),
            bytes(20) + b"\xff" + bytes(399),
        )
        for frames in (*range(12), *(300 for _ in range(40))):
            yield damaged(source, frames)

    def test_the_search(self):
        seen = set()
        for octets in self.lines():
            kinds = [kind_of_period(each) for each in yields_by_period(bits_of(octets))]
            self.assertEqual(
                [FRAME_KINDS[code] for code in uplink_periods.searched(octets).kinds], kinds
            )
            self.assertEqual(
                uplink_periods.searched(octets).asking,
                list(asked_shifts(frames_by_period(octets)).items()),
            )
            heard = [
                run_lines.HEARDS[code]
                for code in run_lines.heard_codes(bytes(FRAME_KINDS.index(kind) for kind in kinds))
            ]
            self.assertEqual(heard, list(heard_one_by_one(kinds)))
            seen.update(kinds)
        self.assertEqual(seen, set(FrameKind))

    def test_the_hunt(self):
        frame = SPEECH[:320]
        for bits in (
            f"{before}{frame}{behind}"
            for before in ("", "1" * 3, "0" * 9, "1" * 77)
            for behind in ("", "1" * 50)
        ):
            octets = octets_of(bits[: len(bits) // 8 * 8])
            text = bits_of(octets)
            for place in range(0, len(text), 5):
                found = FRAME.search(text, place)
                self.assertEqual(
                    uplink_periods.hunt(octets, place), found and found.start(), (len(bits), place)
                )

    def test_frames_made(self):
        source = random.Random(2)
        for number in range(60):
            octets = damaged(source, 200)[: 40 * 150]
            cuts = sorted(source.sample(range(10, 170), 6))
            bridges = [
                ReportedBridge((7, 8), a, b, (b - a, b - a), (0, 0))
                for a, b in zip(cuts[::2], cuts[1::2])
            ]
            if number % 3 == 0:
                bridges = [
                    ReportedBridge((7, 8), 20, 40, (20, 20), (0, 0)),
                    ReportedBridge((9, 7), 41, 42, (1, 1), (0, 0)),
                ]
            wanted = made_by_the_model(
                octets, [(bridge.start - 10, bridge.end - 10) for bridge in bridges]
            )
            asking = uplink_periods.searched(octets).asking
            made = list(run_lines.frames_made(7, 10, len(octets) // 40, asking, bridges))
            got = [
                (
                    each.octet + PCM_OCTETS * at,
                    each.handed,
                    each.shift if at == each.count - 1 else 0,
                )
                for each in made
                for at in range(each.count)
            ]
            self.assertEqual(got, wanted)
            down = octets_of("1" * 320 + damaged_downlink(source, len(octets) - 40))
            codes = [code for each in made for code in run_lines.sent(each, down)]
            kinds = [sent_one_by_one(octet, handed, bits_of(down)) for octet, handed, _ in wanted]
            self.assertEqual(
                [run_lines.SENTS[code] for code in codes], [kind for kind in kinds if kind]
            )


def damaged_downlink(source, octets):
    """Bits of a downlink, of which each octet 2 of a frame mostly says speech or idle."""
    rows = []
    for _ in range(octets // 40):
        frame = source.choices("01", k=320)
        frame[17:22] = source.choice((DOWN_SPEECH, DOWN_IDLE, "00000"))
        rows.append("".join(frame))
    return "".join(rows)


class Levels(unittest.TestCase):
    def test_sums(self):
        octets = random.Random(3).randbytes(160 * 20 + 7) + bytes([0x2A, 0x80]) * 160
        for law in Law:
            whole = [octets[place : place + 160] for place in range(0, len(octets) - 159, 160)]
            wanted = [
                sum((samples_by_octet(law)[octet] // levels.UNITS[law]) ** 2 for octet in period)
                for period in whole
            ]
            self.assertEqual(levels.sums_plain(octets, law), wanted)
            self.assertTrue(
                all(samples_by_octet(law)[octet] % levels.UNITS[law] == 0 for octet in range(256))
            )
            self.assertEqual(levels.sums_plain(b"", law), [])

    @unittest.skipUnless(levels.numpy, "python3-numpy isn't installed")
    def test_numpy_gives_the_same(self):
        octets = random.Random(4).randbytes(160 * 300 + 7)
        for law in Law:
            for part in (octets, b"", octets[:100], octets[:160]):
                self.assertEqual(levels.sums_by_numpy(part, law), levels.sums_plain(part, law))
            with mock.patch.object(levels, "numpy", None):
                plain = levels_of(octets, law)
            self.assertEqual(levels_of(octets, law), plain)


def doubled(number):
    """A piece of work; of 5 there is none."""
    if number == 5:
        raise Refusal("no 5")
    return 2 * number


class SideBySide(InFolder):
    def test_order_and_refusals(self):
        pieces = [(number,) for number in (*range(5), *range(6, 40))]
        got = list(side_by_side.results_of(3, "doubling", doubled, pieces, 10**9))
        self.assertEqual(got, [2 * number for (number,) in pieces])
        with self.assertRaisesRegex(Refusal, "no 5"):
            list(
                side_by_side.results_of(
                    3, "doubling", doubled, [(number,) for number in range(40)], 10**9
                )
            )

    def test_a_process_that_is_killed(self):
        with self.assertRaisesRegex(Refusal, "a process ended early; was there enough memory?"):
            list(side_by_side.results_of(2, "ending", os._exit, [(1,), (2,), (3,)], 10**9))

    def test_progress(self):
        words = f"from trau.command_line import side_by_side as s; s.QUIET_SECONDS = -1; s.SECONDS_BETWEEN_LINES = 0;"
        words += "print(sum(s.results_of(1, 'adding', int, [(n,) for n in range(4)], 10**9)))"
        ran = subprocess.run(
            [sys.executable, "-c", words], cwd=TOOLS, capture_output=True, text=True
        )
        told = "".join(f"adding: {number} of 4 calls\n" for number in (1, 2, 3))
        self.assertEqual((ran.stdout, ran.stderr), ("6\n", told))

    def test_processors(self):
        with mock.patch.object(os, "sched_getaffinity", lambda _: range(8)):
            # The processor time of the process's group and the period in which it may take it, or no limit.
            for limits, wanted in (
                ((400_000, 100_000), 4),
                ((50_000, 100_000), 1),
                ((900_000, 100_000), 8),
                ((None, 100_000), 8),
            ):
                with mock.patch.object(side_by_side, "number_in", lambda _, place=0: limits[place]):
                    self.assertEqual(side_by_side.processors(), wanted)
        self.assertGreaterEqual(side_by_side.processors(), 1)

    def test_the_tools_give_the_same(self):
        lay("mixed", self.folder)
        told = []
        for processes in ("1", "3"):
            with mock.patch.multiple(side_by_side, LEAST_OCTETS=0, QUIET_SECONDS=math.inf):
                ran = [
                    self.run_tool(report.main, "calls", self.folder, "--processes", processes),
                    self.run_tool(
                        timeline.main,
                        self.folder,
                        self.folder / "run.svg",
                        "--processes",
                        processes,
                    ),
                ]
            self.assertEqual([(status, err) for status, _, err in ran], [(0, ""), (0, "")])
            told.append([*ran, (self.folder / "run.svg").read_bytes()])
        self.assertEqual(*told)
        for wrong in ("0", "65", "x"):
            self.assert_refused(
                report.main, ["calls", self.folder, "--processes", wrong], "isn't 1 to 64"
            )
        self.assert_refused(report.main, ["calls", self.folder, "--calls", "9"], "has no call 9")


if __name__ == "__main__":
    unittest.main()
