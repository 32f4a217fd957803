"""Tests of report.py: reports as JSON and CSV, the losses and pauses of calls, what a gateway's recording says of its periods, two runs beside
each other, and lost sync."""

import csv
import io
import json
import shutil
import unittest
from collections import Counter

from support import DATA, EXAMPLES, InFolder, frames_of_downlink

from trau.rules.frame import FrameKind, UpFrame, bits_of, data_of, frame_of, octets_of, write_up
from trau.rules.g711 import Law
from trau.rules.parameters import SILENCE, bits_of_parameters
from trau.rules.profile import DOWN_SPEECH, PCM_OCTETS
from trau.model.receive import Lost, needs
from test_columns import frames_by_period
from test_timeline import lay

from trau.pictures import looks
from trau.runs import call_reports
from trau.runs import report
from trau.runs import uplink_reports
from trau.runs import run_lines
from trau.runs import run_texts
from trau.runs.run_lines import Heard, DownlinkKind
from trau.runs.uplink_periods import FRAME_KINDS


def lay_run(name, folder):
    """Lays a recorded farm with its Out lines too."""
    folder.mkdir()
    lay(name, folder)
    source = EXAMPLES / "farm" / "wanted"
    for out in source.glob("*.out") if name == "mixed" else ():
        shutil.copyfile(out, folder / out.name)
    return folder


class Told(InFolder):
    def told(self, *words, status=0):
        got, out, err = self.run_tool(report.main, *words)
        self.assertEqual((got, err), (status, ""))
        return out

    def rows(self, *words, status=0):
        return list(csv.DictReader(io.StringIO(self.told(*words, "--csv", status=status))))


class Text(Told):
    def test_json_and_csv(self):
        for name in ("mixed", "clean", "harsh", "mulaw"):
            file = lay_run(name, self.folder / name) / "report.txt"
            read = run_texts.read_report(file)
            whole = json.loads(self.told("text", file, "--json"))
            self.assertEqual(len(whole["orders"]), len(read.replies))
            self.assertEqual(
                sum("refusal" in order for order in whole["orders"]),
                file.read_text().count("refused"),
            )
            self.assertEqual(
                [bridge["sent"] for bridge in whole["bridges"]],
                [list(b.sent) for b in read.bridges],
            )
            self.assertEqual((whole["end"], whole["left"]), (read.end(), read.left))
            rows = self.rows("text", file)
            self.assertEqual([int(row["call"]) for row in rows], list(read.calls))
            for row, told in zip(rows, whole["calls"]):
                self.assertEqual(row, {key: str(value) for key, value in told.items()})
                self.assertIn(
                    f"call {row['call']} from {row['start']} to {row['end']} {row['cause']}\n",
                    file.read_text(),
                )

    def test_lines_that_failed(self):
        counts = "good 0 sid 0 invalid 0 bad 0 idle 0 other 0 miss 0 none 0 made 0"
        text = f"order 1 ok\ncall 9 from 5 to 5 fault up\ncounts 9 {counts}\nline 9 up failed\nline 9 pcm failed\n"
        file = self.path("report.txt", (text + "end period 5 calls 1 left 1\n").encode())
        self.assertEqual(self.rows("text", file)[0]["failed"], "up pcm")
        self.assertEqual(
            json.loads(self.told("text", file, "--json"))["failed"][1], {"call": 9, "side": "pcm"}
        )

    def test_refused(self):
        file = lay_run("mixed", self.folder / "mixed") / "report.txt"
        self.assert_refused(
            report.main, ["text", file, "--lines", self.folder], "1.up: No such file or directory"
        )
        text = file.read_text()
        for changed in (text[:-1], text.replace("good 61", "good 60"), "", "no memory\n"):
            file.write_text(changed)
            self.assert_refused(report.main, ["text", file, "--json"], "report.txt: ")
        self.assert_refused(report.main, ["text", file, "--json", "--csv"], "not allowed with")
        self.assert_refused(report.main, [], "COMMAND")
        self.assert_refused(report.main, ["text", self.folder / "gone"], "No such file")


MIXED = """orders: 17 accepted, 1 refused, 0 left
order 14: call 3 can't be bridged with itself
calls 2 and 4: bridged for 73 periods, 1.46 s, from 0.44 s on: frames to 4 73, to 2 73, lost 0
calls 1 and 3: bridged for 11 periods, 0.22 s, from 2.40 s on: frames to 3 11, to 1 11, lost 0
"""
TOLD_APART = """call 1: Up ended; 153 periods, 3.06 s: speech 31, lost 18 (at most 18 in a row), in pauses 87, quiet 17
call 2: closed by an order; 100 periods, 2.00 s: speech 61, lost 0, in pauses 39, quiet 0
call 3: closed by an order; 58 periods, 1.16 s, from 1.46 s on: speech 15, lost 0, in pauses 24, quiet 19
call 4: Up ended; 75 periods, 1.50 s, from 0.40 s on: speech 0, lost 0, in pauses 75, quiet 0
"""
REFUSED = """order 1 ok
order 2 refused 1 call 1
order 3 refused 2 call 4
order 4 refused 3 call 2 partner 1
order 5 refused 4 call 3
order 6 refused 5 call 1
order 7 refused 6 call 1 partner 2
order 8 refused 7 call 3
call 1 from 0 to 1 limit
counts 1 good 0 sid 0 invalid 0 bad 0 idle 0 other 1 miss 0 none 0 made 1
end period 1 calls 1 left 2
"""
REASONS = """orders: 1 accepted, 7 refused, 2 left
order 2: call 1 is open already
order 3: call 4 isn't open
order 4: call 2 is bridged already, with call 1
order 5: call 3 isn't bridged
order 6: call 1 can't be bridged with itself
order 7: the bridge of call 1 with call 2 was ended in this very period
order 8: call 3 has ended, and a number serves one call
"""
OTHER = octets_of(frame_of("11010" + 10 * "0" + "111111", 260 * "0"))


class Aloud(Told):
    def test_with_the_uplinks(self):
        file = lay_run("mixed", self.folder / "mixed") / "report.txt"
        self.assertEqual(self.told("text", file), MIXED + TOLD_APART)
        alone = self.path("report.txt", file.read_bytes())
        self.assertEqual(self.told("text", alone, "--lines", file.parent), MIXED + TOLD_APART)
        # The rows are those of `calls`.
        for row, line in zip(self.rows("calls", file.parent), TOLD_APART.splitlines()):
            for word, column in (
                ("speech", "speech"),
                ("lost", "lost"),
                ("in pauses", "noise"),
                ("quiet", "quiet"),
            ):
                self.assertRegex(line, rf"\b{word} {row[column]}\b")

    def test_without_the_uplinks(self):
        file = lay_run("mixed", self.folder / "mixed") / "report.txt"
        (file.parent / "1.up").unlink()
        (file.parent / "4.up").write_bytes(bytes(75 * 40))
        said = self.told("text", file).splitlines()
        self.assertEqual("\n".join(said[:4]) + "\n", MIXED)
        wanted = (
            "speech 31, silence descriptors 4, invalid descriptors 1, lost or empty in pauses 117"
        )
        self.assertEqual(said[4], f"call 1: Up ended; 153 periods, 3.06 s: {wanted}")
        self.assertEqual(said[5:7], TOLD_APART.splitlines()[1:3])
        self.assertTrue(
            said[7].endswith(
                ": silence descriptors 3, invalid descriptors 2, lost or empty in pauses 70"
            )
        )
        self.assertIn("--lines FOLDER names their folder", said[8])

    def test_reasons(self):
        file = self.path("report.txt", REFUSED.encode())
        self.path("1.up", OTHER)
        row = "call 1: open at the last period of --periods; 1 period, 0.02 s: speech 0, lost 0, in pauses 0, quiet 1"
        self.assertEqual(
            self.told("text", file), f"{REASONS}{row}; not full rate speech, and not decoded: 1\n"
        )

    def test_causes(self):
        counts = "good 0 sid 0 invalid 0 bad 0 idle 0 other 0 miss 0 none 0 made 0"
        for cause, said in (
            ("end pcm 13", "Pcm ended, 13 octets of a period left"),
            ("fault up", "Up failed"),
            ("end up 0", "Up ended"),
        ):
            text = f"order 1 ok\ncall 9 from 5 to 5 {cause}\ncounts 9 {counts}\nline 9 down failed\nend period 5 calls 1 left 0\n"
            self.path("9.up", b"")
            told = self.told("text", self.path("report.txt", text.encode()))
            self.assertEqual(
                told.splitlines()[1],
                f"call 9: {said}; 0 periods, 0.00 s, from 0.10 s on; its Down line failed",
            )


class Calls(Told):
    def test_heard(self):
        kinds = [
            FrameKind(word)
            for word in "bad sid bad good miss none good idle invalid bad good other sid invalid good".split()
        ]
        wanted = "quiet noise noise speech lost lost speech quiet quiet quiet speech lost noise noise speech"
        codes = run_lines.heard_codes(bytes(map(FRAME_KINDS.index, kinds)))
        self.assertEqual([run_lines.HEARDS[code].value for code in codes], wanted.split())

    def test_quiet_periods_are_idle_on_the_out_lines(self):
        # A period outside of bridges is 160 idle octets where nothing is to be heard, and speech or noise mostly isn't.
        folder = lay_run("mixed", self.folder / "mixed")
        read = run_texts.read_report(folder / "report.txt")
        seen = Counter()
        for call in run_lines.read_calls(folder, read).values():
            spans = [bridge for bridge in read.bridges if call.number in bridge.calls]
            octets = call.octets(folder, "out")
            for number, value in enumerate(run_lines.HEARDS[code] for code in call.heard()):
                period = call.span.start + number
                if not any(bridge.start <= period < bridge.end for bridge in spans):
                    idle = (
                        octets[number * PCM_OCTETS : (number + 1) * PCM_OCTETS]
                        == bytes([Law.A.idle()]) * PCM_OCTETS
                    )
                    seen[value, idle] += 1
        self.assertEqual(seen[Heard.QUIET, False], 0)
        self.assertGreater(seen[Heard.QUIET, True], 0)
        self.assertGreater(seen[Heard.SPEECH, False], 9 * seen[Heard.SPEECH, True])

    def test_frames_of_the_downlinks(self):
        # The frames stand at their places, and are those that a search at any bit finds.
        for name in ("mixed", "clean", "harsh", "mulaw"):
            folder = lay_run(name, self.folder / name)
            read = run_texts.read_report(folder / "report.txt")
            for call in run_lines.read_calls(folder, read).values():
                bits = bits_of(call.octets(folder, "down"))
                octets = call.octets(folder, "down")
                kinds = Counter(
                    run_lines.SENTS[code]
                    for made in call.made
                    for code in run_lines.sent(made, octets)
                )
                self.assertEqual(kinds[DownlinkKind.OTHER], 0)
                found = list(frames_of_downlink(bits))
                self.assertLessEqual(sum(kinds.values()) - len(found), 0)
                speech = sum(frame[17:22] == DOWN_SPEECH for frame in found)
                whole = (
                    kinds[DownlinkKind.SPEECH]
                    + kinds[DownlinkKind.VALID_SID]
                    + kinds[DownlinkKind.HANDED]
                )
                self.assertIn(speech - whole, (0, 1))
            for bridge in read.bridges:
                self.assertLessEqual(bridge.sent[0], bridge.end - bridge.start)

    def test_rows(self):
        folder = lay_run("mixed", self.folder / "mixed")
        rows = {row["call"]: row for row in self.rows("calls", folder)}
        self.assertEqual(list(rows), ["1", "2", "3", "4"])
        for number, row in rows.items():
            parts = sum(int(row[what]) for what in ("speech", "lost", "noise", "quiet"))
            self.assertEqual(parts, int(row["periods"]))
        self.assertEqual(rows["1"]["rate"], "0.3673")
        self.assertEqual((rows["1"]["longest"], rows["1"]["from"]), ("18", "89"))
        self.assertEqual((rows["4"]["rate"], rows["4"]["from"]), ("", ""))
        self.assertEqual(json.loads(self.told("calls", folder, "--json"))[3]["rate"], None)

    def test_kinds_of_other_frames(self):
        # Three frames of each kind that libosmotrau encodes: full rate, half rate, EFR, AMR, and so on; the last is a downlink's idle frame.
        kinds = (DATA / "osmo-kinds.up").read_bytes()
        self.path("1.up", 4 * kinds[240:360])
        self.path("2.up", kinds)
        self.path("3.up", kinds[120:])
        text = ""
        for number, periods, good in ((1, 12, 0), (2, 30, 3), (3, 27, 0)):
            text += f"call {number} from 0 to {periods} end up 0\n"
            text += f"counts {number} good {good} sid 0 invalid 0 bad 0 idle 0 other {periods - good} miss 0 none 0 made {periods}\n"
        replies = "".join(f"order {number} ok\n" for number in (1, 2, 3))
        self.path("report.txt", f"{replies}{text}end period 30 calls 3 left 0\n".encode())
        for number, periods in ((1, 12), (2, 30), (3, 27)):
            self.path(f"{number}.down", bytes(40 * periods))
        others = "hr 3 efr 3 amr 3 o&m 3 data 3 e-data 3 data14.5 3 hr-data 3 downlink 3"
        self.assertEqual(
            [row["others"] for row in self.rows("calls", self.folder)], ["efr 12", others, others]
        )
        *table, first, last = self.told("calls", self.folder).splitlines()
        self.assertEqual(len(table), 4)
        said = "no full rate speech, but frames that trau doesn't decode:"
        self.assertEqual(first, f"call 1: {said} 12 of enhanced full rate speech (C1 to C5 11010)")
        self.assertTrue(
            last.startswith(
                f"call 3: {said} 3 of half rate speech (C1 to C5 00011) and 3 of enhanced full rate speech (C1"
            )
        )
        self.assertTrue(last.endswith(" and 3 of a downlink's idle frames (C1 to C5 01110)"))
        self.assertEqual(
            json.loads(self.told("calls", self.folder, "--json"))[0]["others"], "efr 12"
        )

    def test_kinds_of_an_uplink(self):
        kinds = (DATA / "osmo-kinds.up").read_bytes()
        up = self.path(
            "7.up",
            (EXAMPLES / "7.up").read_bytes()[:400] + bytes(40) + 4 * kinds[240:360] + kinds[1080:],
        )
        self.assertEqual(
            [list(row.values()) for row in self.rows("kinds", up)],
            [
                ["11010", "enhanced full rate speech", "12", "3520", "11", "7040", "22"],
                ["00010", "full rate speech", "10", "0", "0", "2880", "9"],
                ["01110", "a downlink's idle frames", "3", "7360", "23", "8000", "25"],
            ],
        )
        self.assert_refused(
            report.main,
            ["kinds", self.path("8.up", bytes(400))],
            "8.up: has no frame at any bit; is it an uplink?",
        )

    def test_periods_that_werent_used(self):
        folder = lay_run("mixed", self.folder / "mixed")
        for row in self.rows("calls", folder):
            for side, octets in (("up", 40), ("pcm", 160)):
                periods = (folder / f"{row['call']}.{side}").stat().st_size // octets
                self.assertEqual(int(row[f"unused_{side}"]), periods - int(row["periods"]))
        (folder / "1.pcm").unlink()
        self.assertEqual(self.rows("calls", folder)[0]["unused_pcm"], "")
        self.assertIn("0.3673", self.told("calls", folder))

    def test_a_downlink_that_failed(self):
        folder = lay_run("mixed", self.folder / "mixed")
        first, *others = self.rows("calls", folder)
        wanted = [
            {**first, **{column: "0" for column in first if column.startswith("down_")}},
            *others,
        ]
        down = folder / "1.down"
        down.unlink()
        self.assert_refused(report.main, ["calls", folder], "1.down: No such file")
        text = (folder / "report.txt").read_text()
        (folder / "report.txt").write_text(
            text.replace("\nend period", "\nline 1 down failed\nend period")
        )
        self.assertEqual(self.rows("calls", folder), wanted)
        down.mkdir()
        self.assertEqual(self.rows("calls", folder), wanted)
        down.rmdir()
        down.symlink_to("/dev/zero")
        self.assertEqual(self.rows("calls", folder), wanted)

    def test_of_another_run(self):
        folder = lay_run("mixed", self.folder / "mixed")
        shutil.copyfile(folder / "1.up", folder / "2.up")
        self.assert_refused(report.main, ["calls", folder], "2.up: gives good")
        (folder / "2.up").unlink()
        self.assert_refused(report.main, ["calls", folder], "2.up: No such file")


SPEECH = data_of(bits_of((EXAMPLES / "7.up").read_bytes()[:40]))
PRIMED = octets_of(write_up(UpFrame(FrameKind.SPEECH, data=bits_of_parameters(SILENCE))))
CLOCK = """0 every 1
0 at 2026-11-30T22:59:40.000+00:00
1010 given-up 100
1025 at 2026-11-30T23:00:30.500+00:00
1030 at 2026-11-30T23"""


def kinds_of_loss(n):
    """Which column counts the n-th lost frame."""
    return "repeated" if n == 1 else "muted" if n <= 16 else "silence"


class Recorded(Told):
    """A run whose call 1 begins at period 1000, in its folder `run`."""

    def setUp(self):
        super().setUp()
        self.run = self.folder / "run"
        self.run.mkdir()

    def lay_call(self, words, first=b""):
        """Lays call 1, whose uplink has these kinds of frames in a row, after a first one."""
        kinds = [FrameKind(word) for word in words.split()]
        frames = first + b"".join(octets_of(write_up(UpFrame(kind, data=SPEECH))) for kind in kinds)
        counts = Counter(kind.value for kind in (*kinds, *len(first) // 40 * [FrameKind.SPEECH]))
        periods = len(frames) // 40
        said = " ".join(f"{kind.value} {counts[kind.value]}" for kind in FrameKind)
        call = f"call 1 from 1000 to {1000 + periods} end up 0\ncounts 1 {said} made {periods}\n"
        (self.run / "report.txt").write_text(
            f"order 1 ok\n{call}end period {1000 + periods} calls 1 left 0\n"
        )
        (self.run / "1.up").write_bytes(frames)
        (self.run / "1.down").write_bytes(bytes(40 * periods))

    def times(self, folder, command="losses"):
        return [row["utc"] for row in self.rows(command, folder)]


class Losses(Recorded):
    WORDS = f"bad good {20 * 'bad '} good bad sid bad invalid good bad other idle bad good bad"

    def test_rows(self):
        self.lay_call(self.WORDS)
        rows = self.rows("losses", self.run)
        self.assertEqual(tuple(rows[0]), call_reports.LOSS_COLUMNS)
        wanted = """1 1002 20 20.04 20.44 0.04 1 15 4 speech
1 1023 1 20.46 20.48 0.46 1 0 0 noise
1 1028 2 20.56 20.6 0.56 1 1 0 quiet
1 1033 1 20.66 20.68 0.66 1 0 0 end"""
        self.assertEqual(
            [list(row.values()) for row in rows],
            [[*line.split(), ""] for line in wanted.splitlines()],
        )
        self.assertEqual(json.loads(self.told("losses", self.run, "--json"))[3]["utc"], None)
        self.assertEqual(
            self.told("losses", self.run).splitlines()[1].split(), [*wanted.split()[:10], "-"]
        )
        self.assertEqual(
            self.rows("losses", self.run, "--calls", "1", "--report", self.run / "report.txt"), rows
        )
        self.assert_refused(
            report.main, ["losses", self.run, "--calls", "2"], "report.txt: has no call 2"
        )
        self.lay_call("good good sid bad bad")
        self.assertEqual(self.told("losses", self.run), "  ".join(call_reports.LOSS_COLUMNS) + "\n")

    def test_what_is_heard_is_as_the_model_makes_it(self):
        for name in ("mixed", "clean", "harsh", "mulaw"):
            folder = lay_run(name, self.folder / name)
            found = self.rows("losses", folder)
            for number, call in run_lines.read_calls(
                folder, run_texts.read_report(folder / "report.txt")
            ).items():
                lost = [
                    each.n
                    for each in needs(frames_by_period(call.octets(folder, "up")))
                    if isinstance(each, Lost) and each.n
                ]
                rows = [row for row in found if row["call"] == str(number)]
                for column in ("repeated", "muted", "silence"):
                    wanted = sum(kinds_of_loss(n) == column for n in lost)
                    self.assertEqual(
                        sum(int(row[column]) for row in rows), wanted, (name, number, column)
                    )
                self.assertEqual(sum(int(row["periods"]) for row in rows), len(lost))
                self.assertEqual(len(rows), lost.count(1))

    def test_a_peer_that_hasnt_begun_is_quiet(self):
        # A gateway's uplink begins with a frame of silence, and has unusable frames until the base station sends.
        for words, wanted, loss in (
            ("bad bad invalid good good bad good", "quiet 4 speech 3 lost 1", "1006"),
            ("bad bad sid bad", "quiet 3 speech 0 lost 0", None),
            ("good bad", "quiet 1 speech 1 lost 1", "1002"),
            ("bad bad bad", "quiet 4 speech 0 lost 0", None),
        ):
            self.lay_call(words, PRIMED)
            row = self.rows("calls", self.run)[0]
            self.assertEqual(
                " ".join(f"{word} {row[word]}" for word in ("quiet", "speech", "lost")),
                wanted,
                words,
            )
            self.assertEqual(
                [row["period"] for row in self.rows("losses", self.run)], [loss] if loss else []
            )
            self.assertIn(
                f"speech {row['speech']}, lost {row['lost']}",
                self.told("text", self.run / "report.txt"),
            )
        self.lay_call("bad bad", PRIMED)
        (call,) = run_lines.read_calls(
            self.run, run_texts.read_report(self.run / "report.txt")
        ).values()
        self.assertEqual(
            looks.looks(call.brought()),
            bytes(
                looks.CODES[look]
                for look in (looks.UplinkLook.IDLE, looks.UplinkLook.QUIET, looks.UplinkLook.QUIET)
            ),
        )
        # Speech is speech, and so is a frame of silence within it.
        self.lay_call(
            "good bad", octets_of(write_up(UpFrame(FrameKind.SPEECH, data=SPEECH))) + PRIMED
        )
        self.assertEqual(
            [self.rows("calls", self.run)[0][word] for word in ("quiet", "speech", "lost")],
            ["0", "3", "1"],
        )

    def test_a_peer_that_has_gone(self):
        # All is lost up to the call's end, longer than speech is repeated and muted: the table's rate isn't the network's.
        said = "call 1: its last 17 periods are lost, as if the peer had gone; without them 1 of 4 are lost, 25.00 %"
        for last, wanted in ((16, []), (17, [said])):
            self.lay_call("good bad good good" + last * " bad")
            self.assertEqual(self.rows("calls", self.run)[0]["lost"], str(1 + last))
            self.assertEqual(self.told("calls", self.run).splitlines()[2:], wanted)
        self.lay_call("good" + 17 * " bad" + " good")
        self.assertEqual(self.told("calls", self.run).splitlines()[2:], [])


class Utc(Recorded):
    TIMES = ["00.040", "02.460", "30.560", "30.660"]  # after 23:00:00

    def setUp(self):
        super().setUp()
        self.lay_call(Losses.WORDS)
        (self.run / "clock.txt").write_text(CLOCK)
        (self.run / "orders.txt").write_text("1000 open 1\n1000 level 1 256\n")
        self.wanted = [f"2026-11-30T23:00:{seconds}+00:00" for seconds in self.TIMES]

    def test_of_a_recording(self):
        self.assertEqual(self.times(self.run), self.wanted)
        self.assertEqual(self.times(self.run, "calls"), ["2026-11-30T23:00:00.000+00:00"])

    def test_of_a_replay(self):
        # Its incoming lines are links into the recording, and its report is its own.
        again = self.folder / "again"
        again.mkdir()
        (again / "1.up").symlink_to(self.run / "1.up")
        (again / "1.down").write_bytes((self.run / "1.down").read_bytes())
        (again / "report.txt").write_bytes((self.run / "report.txt").read_bytes())
        self.assertEqual(self.times(again), self.wanted)

    def test_of_a_recording_that_isnt_replayed(self):
        (self.run / "report.txt").unlink()
        said = (
            f"a recording has no report; gateway.py check {self.run} --again NEW makes a run of it"
        )
        for command in ("calls", "losses"):
            self.assert_refused(report.main, [command, self.run], said)
        (self.run / "clock.txt").unlink()
        self.assert_refused(
            report.main, ["losses", self.run], "report.txt: No such file or directory"
        )

    def test_of_lines_that_were_unpacked(self):
        (self.run / "report.txt").unlink()
        (self.run / "calls.csv").write_text("call,line\n")
        said = f"no run has made it yet; trau run <orders.txt >report.txt in {self.run} does"
        self.assert_refused(report.main, ["losses", self.run], said)

    def test_of_other_lines(self):
        # A clock says nothing of a run that opens the call at another period, or whose uplink is elsewhere.
        (self.run / "orders.txt").write_text("1000 open 10\n999 open 1\n")
        self.assertEqual(self.times(self.run), 4 * [""])
        (self.run / "orders.txt").unlink()
        self.assertEqual(self.times(self.run), 4 * [""])
        (self.run / "clock.txt").write_text("no clock\n10 given-up 3\n")
        self.assertEqual(self.times(self.run, "calls"), [""])
        (self.run / "clock.txt").write_text("0 at 2026-13-30T22:59:40.000+00:00\n")
        self.assert_refused(
            report.main, ["losses", self.run], "clock.txt: line 1 has no time: '0 at 2026-13"
        )

    def test_events(self):
        events = self.run / "events.txt"
        self.assert_refused(report.main, ["events", self.run], "events.txt: No such file")
        why = "gsm-unsent: No route, a, pcm-fault: No space"
        events.write_text(
            f"1000 call 1 gsm-late 2 gsm-missing 3\n1050 call 12 pcm-fault 1 gsm-unsent 4, {why}\n1100 call 1 gsm-la"
        )
        wanted = """1000 20.0 1 gsm-late 2  2026-11-30T23:00:00.000+00:00
1000 20.0 1 gsm-missing 3  2026-11-30T23:00:00.000+00:00
1050 21.0 12 pcm-fault 1 No space 2026-11-30T23:00:31.000+00:00
1050 21.0 12 gsm-unsent 4 No route, a 2026-11-30T23:00:31.000+00:00"""
        self.assertEqual(
            [" ".join(row.values()) for row in self.rows("events", self.run)], wanted.splitlines()
        )
        (self.run / "clock.txt").unlink()
        self.assertEqual(self.times(self.run, "events"), 4 * [""])
        for bad in (
            "1000 call 1\n",
            "1000 call 1 gsm-late\n",
            "call 1 gsm-late 2\n",
            f"{10 ** 11} call 1 gsm-late 2\n",
        ):
            events.write_text(bad)
            self.assert_refused(
                report.main,
                ["events", self.run],
                "events.txt: line 1 isn't one of a recording's events",
            )


class Compared(Told):
    def setUp(self):
        super().setUp()
        self.one = lay_run("mixed", self.folder / "one")
        self.other = lay_run("mixed", self.folder / "other")

    def compare(self, status):
        return self.rows("compare", self.one, self.other, status=status)

    def change(self, name, place, octet):
        octets = bytearray((self.other / name).read_bytes())
        octets[place] = octet
        (self.other / name).write_bytes(octets)

    def test_same(self):
        self.assertEqual(self.compare(0), [])

    def test_lines(self):
        self.change("3.out", 20 * 160 + 7, 0x11)
        self.change("3.out", 25 * 160, 0x11)
        (self.other / "2.down").write_bytes((self.one / "2.down").read_bytes()[:-100])
        (self.other / "4.out").unlink()
        down, out, gone = self.compare(1)
        self.assertEqual(
            (down["call"], down["what"], down["period"], down["octet"]), ("2", "down", "97", "3900")
        )
        self.assertEqual(
            (down["periods"], down["one"], down["other"]), ("3", "4000 octets", "3900 octets")
        )
        self.assertEqual(
            (out["call"], out["what"], out["period"], out["seconds"]), ("3", "out", "93", "1.86")
        )
        self.assertEqual((out["octet"], out["periods"], out["one"]), ("3207", "2", ""))
        self.assertEqual((gone["call"], gone["other"]), ("4", "no line"))

    def test_what_is_no_file(self):
        for name in ("1.out", "2.out"):
            (self.other / name).unlink()
        (self.other / "1.out").mkdir()
        (self.other / "2.out").symlink_to("/dev/null")
        self.assertEqual(
            [(row["call"], row["other"]) for row in self.compare(1)],
            [("1", "no line"), ("2", "no line")],
        )

    def test_reports(self):
        text = (self.other / "report.txt").read_text()
        text = text.replace("order 14 refused 5 call 3", "order 14 ok").replace(
            "from 22 to 95 sent 73 73", "from 22 to 95 sent 73 72"
        )
        text = text.replace("sent 73 72 lost 0 0", "sent 73 72 lost 0 1").replace(
            "made 75", "made 74"
        )
        (self.other / "report.txt").write_text(text)
        self.assertEqual(
            [row["what"] for row in self.compare(1)], ["order 14", "bridge 1", "counts"]
        )
        (self.other / "report.txt").write_text("")
        self.assert_refused(report.main, ["compare", self.one, self.other], "isn't a whole report")


class Sync(Told):
    def sync(self, octets, *words):
        return json.loads(self.told("sync", self.path("9.up", octets), "--json", *words))

    def setUp(self):
        super().setUp()
        self.frames = (EXAMPLES / "7.up").read_bytes()[: 20 * 40]

    def test_no_loss(self):
        told = self.sync(self.frames)
        self.assertEqual(
            (told["frames"], told["misses"], told["first"], told["losses"]), (20, 0, 0, [])
        )
        self.assertEqual(
            self.told("sync", self.path("9.up")), "  ".join(uplink_reports.SYNC_COLUMNS) + "\n"
        )

    def test_broken_bits(self):
        octets = bytearray(self.frames)
        octets[5 * 40] ^= 0x81  # two of the sync zeros
        octets[5 * 40 + 38] ^= 0x80  # the last sync one
        (loss,) = self.sync(octets)["losses"]
        self.assertEqual(
            (loss["due"], loss["period"], loss["misses"], loss["hunted_from"]), (1600, 5, 1, None)
        )
        self.assertEqual(loss["broken"], [{"place": 1600, "sync_bits": [0, 7, 304]}])
        self.assertEqual(
            (loss["match"], loss["slip"], loss["found"], loss["found_period"]), (1920, 0, 1920, 6)
        )

    def test_slips(self):
        bits = bits_of(self.frames)
        for slip, found in ((3, 9 * 320 + 3), (-5, 10 * 320 - 5), (160, 9 * 320 + 160)):
            place = 6 * 320
            slipped = (
                bits[:place] + "1" * slip + bits[place:]
                if slip > 0
                else bits[: place + slip] + bits[place:]
            )
            slipped += "1" * (-len(slipped) % 320)
            (loss,) = self.sync(octets_of(slipped))["losses"]
            self.assertEqual(
                (loss["misses"], loss["hunted_from"], loss["slip"]), (3, 9 * 320, slip)
            )
            self.assertEqual((loss["match"], loss["found"]), (place + slip, found))

    def test_no_next_match(self):
        (loss,) = self.sync(self.frames[:80] + bytes(200))["losses"]
        self.assertEqual(
            (loss["match"], loss["slip"], loss["found"], loss["misses"]), (None, None, None, 3)
        )
        self.assertEqual([len(miss["sync_bits"]) for miss in loss["broken"]], [19, 19, 19])

    def test_no_frame(self):
        line = self.path("9.up", bytes(80))
        self.assert_refused(
            report.main, ["sync", line], "has no frame at any bit; is it an uplink?"
        )

    def test_frames_text(self):
        text = "".join(f"{place * 320} good\n" for place in range(20)) + "frames 20 left 3\n"
        told = self.path("frames.txt", text.encode())
        self.assertEqual(self.sync(self.frames + b"abc", "--frames", told)["frames"], 20)
        line = self.path("9.up", self.frames)
        self.assert_refused(
            report.main,
            ["sync", line, "--frames", told],
            "the command `frames` printed other frames",
        )


if __name__ == "__main__":
    unittest.main()
