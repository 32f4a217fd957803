"""Tests of shard.py: which calls stay together, what the parts hold, and that their reports make the one again. What the
program makes of the parts is compared by checks/shards.sh."""

import os
import random
import re
import shlex
import shutil
import subprocess
import unittest
from collections import Counter

from support import HAS_LOCKS, TOP, InFolder

from trau.rules.lines import SIDES
from trau.rules.report import FailedLine, Report
from test_timeline import lay

from trau.recordings import listening
from trau.runs import run_texts
from trau.runs import farm_join, farm_parts, folder_lock, part_scripts, shard


def restricted(report, orders, numbers):
    """The report of a run of these orders alone: the inverse of the joining."""
    calls = {call for number in numbers for call in orders[number - 1].calls}
    return Report(
        [reply for number, reply in enumerate(report.replies, 1) if number in numbers],
        [bridge for bridge in report.bridges if bridge.calls[0] in calls],
        {call: span for call, span in report.calls.items() if call in calls},
        [failed for failed in report.failed if failed.call in calls],
        sum(number > len(report.replies) for number in numbers),
    )


def script(cut, part):
    """The script of a part, as a shell takes its name."""
    return shlex.quote(f"{cut}/{part}/run.sh")


class Components(unittest.TestCase):
    def components(self, *lines):
        text = "".join(f"0 {line}\n" for line in lines).encode()
        return [
            sorted(calls) for calls in farm_parts.components(run_texts.read_orders("text", text))
        ]

    def test_bridges_join(self):
        self.assertEqual(self.components(), [])
        self.assertEqual(self.components("open 1", "open 2", "level 9 0"), [[1], [2], [9]])
        self.assertEqual(
            self.components("bridge 1 2", "bridge 3 4", "bridge 4 2", "open 5"), [[1, 2, 3, 4], [5]]
        )
        self.assertEqual(self.components("bridge 7 7", "bridge 7 4096"), [[7, 4096]])

    def test_chain_of_all_calls(self):
        lines = [f"bridge {call} {call + 1}" for call in range(1, 4096)]
        random.Random(1).shuffle(lines)
        self.assertEqual(self.components(*lines, *lines[:50]), [list(range(1, 4097))])

    def test_parts_hold_about_the_same(self):
        pieces = [
            (periods, frozenset([call])) for call, periods in enumerate((5, 50, 20, 20, 15), 1)
        ]
        parts = farm_parts.parts_of(pieces, 2)
        self.assertEqual(sorted(part.periods for part in parts), [55, 55])
        self.assertEqual(len(farm_parts.parts_of(pieces, 9)), 5)
        # Calls without lines are spread too.
        parts = farm_parts.parts_of([(0, frozenset([call])) for call in range(8)], 4)
        self.assertEqual([len(part.calls) for part in parts], 4 * [2])


class Farms(InFolder):
    def lay(self, name):
        farm = self.folder / name
        farm.mkdir()
        lay(name, farm)
        return farm

    def cut(self, farm, parts, *words):
        cut = self.folder / f"cut-{len(list(self.folder.iterdir()))}"
        status, out, err = self.run_tool(shard.main, "cut", farm, cut, "--parts", parts, *words)
        self.assertEqual((status, err), (0, ""))
        self.assertRegex(
            out,
            r"^shard parts \d+ components \d+ calls \d+ orders \d+ largest \d+ heaviest \d+ of \d+( array 0-\d+)?\n$",
        )
        return cut

    def give_reports(self, cut, report):
        """Gives each part the report that its run has."""
        read = farm_join.Cut.read(cut)
        for number, numbers in enumerate(read.orders_of_parts):
            own = restricted(report, read.orders, numbers)
            (cut / str(number) / "report.txt").write_text(own.text())
            (cut / str(number) / "status").write_text(f"{own.status()}\n")

    def test_reports_joined(self):
        for name in ("mixed", "clean", "harsh", "mulaw"):
            farm = self.lay(name)
            report = run_texts.read_report(farm / "report.txt")
            for parts in (1, 2, 3, 9):
                cut = self.cut(farm, parts)
                self.give_reports(cut, report)
                self.assertEqual(self.run_tool(shard.main, "join", cut), (0, report.text(), ""))

    def test_what_parts_hold(self):
        farm = self.lay("harsh")
        cut = self.cut(farm, 3)
        read = farm_join.Cut.read(cut)
        self.assertEqual(len(read.orders_of_parts), 3)
        seen = Counter()
        for number, numbers in enumerate(read.orders_of_parts):
            part = cut / str(number)
            lines = (part / "orders.txt").read_text().splitlines()
            self.assertEqual(lines, [read.orders[order - 1].line() for order in numbers])
            self.assertTrue(os.access(part / "run.sh", os.X_OK))
            for link in part.glob("*.*"):
                if link.is_symlink():
                    seen[link.name] += 1
                    self.assertEqual(os.readlink(link), str(farm / link.name))
        self.assertEqual(seen, Counter(f"{call}.{side}" for call in range(1, 6) for side in SIDES))

    def programs(self, cut):
        """The program that the script of each part starts, unless TRAU names another one."""
        scripts = [path.read_bytes() for path in cut.glob("*/run.sh")]
        return {
            os.fsdecode(part)
            for script in scripts
            for part in re.findall(rb"\|\| program=(.*)", script)
        }

    def test_the_program_that_parts_run(self):
        farm = self.lay("clean")
        self.assertEqual(self.programs(self.cut(farm, 3)), {listening.program_beside()})
        self.assertEqual(self.programs(self.cut(farm, 3, "--trau", "trau")), {"trau"})
        # A part runs in its own folder.
        beside = os.path.relpath(self.folder / "trau")
        self.assertEqual(
            self.programs(self.cut(farm, 3, "--trau", beside)), {str(self.folder / "trau")}
        )

    def test_a_program_whose_name_is_no_text(self):
        name = os.fsdecode(b"/tmp/\xff/trau")
        self.assertEqual(
            self.programs(self.cut(self.lay("clean"), 3, "--trau", name)), {shlex.quote(name)}
        )

    def test_refused_orders_keep_calls_together(self):
        cut = self.cut(self.lay("clean"), 9)
        told = [
            sorted({call for order in own for call in order.calls}) for own in self.own_orders(cut)
        ]
        self.assertEqual(sorted(told), [[1, 2], [3], [4]])

    def own_orders(self, cut):
        read = farm_join.Cut.read(cut)
        return [[read.orders[number - 1] for number in numbers] for numbers in read.orders_of_parts]

    def test_copies_go_to_the_farm(self):
        farm = self.lay("mixed")
        report = run_texts.read_report(farm / "report.txt")
        wanted = {path.name: path.read_bytes() for path in farm.glob("*.down")}
        for path in farm.glob("*.down"):
            path.unlink()
        (farm / "3.pcm").unlink()
        cut = self.cut(farm, 2, "--copy")
        self.assertFalse(any(path.is_symlink() for path in cut.glob("*/*")))
        self.assertEqual(len(list(cut.glob("*/*.up"))), 4)
        self.assertEqual(len(list(cut.glob("*/*.pcm"))), 3)
        self.give_reports(cut, report)
        for number, calls in enumerate(
            ([1, 3], [2, 4]) if (cut / "0" / "1.up").exists() else ([2, 4], [1, 3])
        ):
            for call in calls:
                (cut / str(number) / f"{call}.down").write_bytes(wanted[f"{call}.down"])
        self.assertEqual(self.run_tool(shard.main, "join", cut)[0], 0)
        self.assertEqual({path.name: path.read_bytes() for path in farm.glob("*.down")}, wanted)

    def test_lines_that_failed(self):
        farm = self.lay("clean")
        report = run_texts.read_report(farm / "report.txt")
        report.failed = [FailedLine(1, 2), FailedLine(3, 3), FailedLine(4, 2)]
        cut = self.cut(farm, 3)
        self.give_reports(cut, report)
        self.assertEqual(self.run_tool(shard.main, "join", cut), (6, report.text(), ""))
        (cut / "0" / "status").write_text(
            "0\n" if (cut / "0" / "status").read_text() == "6\n" else "6\n"
        )
        self.assert_refused(
            shard.main, ["join", cut], "isn't the report of a run with this part's status"
        )

    def test_no_orders(self):
        (self.folder / "orders.txt").write_text("")
        cut = self.cut(self.folder, 4)
        self.assertEqual(
            self.run_tool(shard.main, "join", cut), (0, "end period 0 calls 0 left 0\n", "")
        )

    def test_the_older_names_of_the_commands(self):
        farm, cut = self.lay("mixed"), self.folder / "cut"
        self.assertEqual(self.run_tool(shard.main, "split", farm, cut, "--parts", 2)[0], 0)
        report = run_texts.read_report(farm / "report.txt")
        self.give_reports(cut, report)
        self.assertEqual(self.run_tool(shard.main, "merge", cut), (0, report.text(), ""))
        self.assertNotIn("merge", shard.parser().format_help())

    def test_an_array_of_slurm(self):
        farm, cut = self.lay("clean"), self.folder / "a 50% cut"
        words = ["--parts", 9, "--workers", 2, "--batch", 250]
        status, out, err = self.run_tool(shard.main, "cut", farm, cut, *words)
        self.assertEqual(
            (status, out.split(" of ")[1].split(" ", 1)[1], err), (0, "array 0-2\n", "")
        )
        script = (cut / "slurm.sh").read_text()
        for line in (
            "--array=0-2",
            "--cpus-per-task=2",
            "--mem=64M",
            "--time=5",
            f'--output="{self.folder}/a 50%% cut/%a/log"',
        ):
            self.assertIn(f"#SBATCH {line}\n", script)
        (cut / "1" / "run.sh").write_text("echo part 1\n")
        ran = subprocess.run(
            ["sh", cut / "slurm.sh"],
            env={**os.environ, "SLURM_ARRAY_TASK_ID": "1"},
            capture_output=True,
        )
        self.assertEqual((ran.returncode, ran.stdout), (0, b"part 1\n"))

    def test_what_a_part_is_given(self):
        # 64 MB and 70 kB for each call of the part with the most; 5 minutes and 0.1 ms for each period of the heaviest.
        words = shard.parser().parse_args(["cut", "farm", "cut", "--parts", "2"])
        parts = [
            farm_parts.FarmPart(frozenset(range(1000)), 1),
            farm_parts.FarmPart(frozenset([5000]), 36_000_000),
        ]
        script = part_scripts.array_of(words, parts)
        self.assertIn("--mem=134M\n", script)
        self.assertIn("--time=65\n", script)

    def part_that_runs(self, cut):
        """A part whose program goes on until its input ends, and that has begun."""
        program = self.path("lasting", b"#!/bin/sh\necho begun >&2\nexec cat /proc/self/fd/3\n")
        program.chmod(0o755)
        reading, writing = os.pipe()
        self.addCleanup(os.close, writing)
        words = ["sh", "-c", f'exec sh "$0" 3<&{reading}', str(cut / "0" / "run.sh")]
        run = subprocess.Popen(
            words,
            stderr=subprocess.PIPE,
            pass_fds=[reading],
            env={**os.environ, "TRAU": str(program)},
        )
        os.close(reading)
        self.assertEqual(run.stderr.readline(), b"begun\n")
        return run

    @unittest.skipUnless(HAS_LOCKS, "there is no flock, or temporary files have no locks")
    def test_the_farm_while_a_part_runs(self):
        farm = self.lay("clean")
        cut, copied = self.cut(farm, 3), self.cut(farm, 3, "--copy")
        self.give_reports(copied, run_texts.read_report(farm / "report.txt"))
        with self.part_that_runs(cut) as run:
            said = f"{farm}: a run, or a part of another cut, writes lines of this folder"
            self.assert_refused(
                shard.main, ["cut", farm, self.folder / "second", "--parts", 2], said
            )
            self.assert_refused(shard.main, ["join", copied], said)
            # A run in the farm's folder is refused too, and another part isn't.
            ran = subprocess.run(
                [TOP / "trau", "run"],
                cwd=farm,
                capture_output=True,
                stdin=subprocess.DEVNULL,
                env=self.stand_in(),
            )
            self.assertEqual((ran.returncode, ran.stdout), (125, b""))
            self.assertIn(b" writes lines of this folder; ", ran.stderr)
            other = subprocess.run(
                ["sh", cut / "1" / "run.sh"],
                env={**os.environ, "TRAU": "true"},
                capture_output=True,
            )
            self.assertEqual((other.returncode, other.stderr), (0, b""))
            run.kill()
            run.wait()

    @unittest.skipUnless(HAS_LOCKS, "there is no flock, or temporary files have no locks")
    def test_a_part_while_a_run_has_the_farm(self):
        farm = self.lay("clean")
        cut = self.cut(farm, 3)
        with folder_lock.alone_in(farm):
            ran = subprocess.run(
                ["sh", cut / "0" / "run.sh"],
                env={**os.environ, "TRAU": "true"},
                capture_output=True,
                text=True,
            )
        self.assertEqual(
            (ran.returncode, ran.stderr),
            (125, f"{cut / '0' / 'run.sh'}: another run writes lines of {farm}\n"),
        )
        self.assertFalse((cut / "0" / "status").exists())

    def stand_in(self):
        """The surroundings in which `trau` starts a program that only ends."""
        return {**os.environ, "TRAU_PROGRAM": shutil.which("true")}

    def test_programs_by_relative_paths(self):
        cut = self.cut(self.lay("clean"), 3)
        for name, program in (("TRAU", "here/program"), ("TRAU_PROGRAM", "program")):
            path = self.folder / program
            path.parent.mkdir(exist_ok=True)
            path.write_text("#!/bin/sh\necho ran\n")
            path.chmod(0o755)
            ran = subprocess.run(
                ["sh", cut / "0" / "run.sh"],
                cwd=self.folder,
                env={**os.environ, name: program},
                capture_output=True,
            )
            self.assertEqual(
                (ran.returncode, (cut / "0" / "report.txt").read_text()), (0, "ran\n"), ran.stderr
            )

    def test_parts_to_run_again(self):
        farm = self.lay("harsh")
        report = run_texts.read_report(farm / "report.txt")
        cut = self.cut(farm, 3)
        self.assert_refused(
            shard.main, ["join", cut], "no whole report of parts 0,1,2; run again: sh "
        )
        self.give_reports(cut, report)
        (cut / "1" / "status").write_text("137\n")
        self.assert_refused(
            shard.main, ["join", cut], f"no whole report of part 1; run again: sh {script(cut, 1)}"
        )
        self.give_reports(cut, report)
        text = (cut / "2" / "report.txt").read_text()
        for changed in (text[:-1], text[text.index("\n") + 1 :], ""):
            (cut / "2" / "report.txt").write_text(changed)
            self.assert_refused(shard.main, ["join", cut], f"run it again: sh {script(cut, 2)}")
        (cut / "2" / "report.txt").unlink()
        self.assert_refused(shard.main, ["join", cut], f"run it again: sh {script(cut, 2)}")

    def test_a_part_of_other_periods(self):
        farm = self.lay("mixed")
        report = run_texts.read_report(farm / "report.txt")
        cut = self.cut(farm, 2, "--periods", 153)
        self.give_reports(cut, report)
        self.assert_refused(
            shard.main,
            ["join", cut],
            "which isn't of a run to period 153; was this part run by other words?",
        )

    def test_refused_words(self):
        farm = self.lay("mixed")
        self.path("bad.txt", b"0 open 1\n0 open 4097\n")
        cut = self.folder / "cut"

        def refused(part, *words):
            self.assert_refused(shard.main, ["cut", *words], part)
            self.assertFalse(cut.exists())
            self.assertEqual(
                [path.name for path in self.folder.iterdir() if path.name.startswith(".")], []
            )

        refused(
            "names call 4097; the calls of one farm are 1 to 4,096",
            farm,
            cut,
            "--parts",
            2,
            "--orders",
            self.path("bad.txt"),
        )
        refused("--parts", farm, cut)
        refused("0 isn't 1 to 4,096", farm, cut, "--parts", 0)
        refused("251 isn't 1 to 250", farm, cut, "--parts", 2, "--batch", 251)
        refused("No such file", self.folder / "gone", cut, "--parts", 2)
        (farm / "4.out").unlink()
        (farm / "4.out").mkdir()
        refused("4.out: isn't a file; only links", farm, cut, "--parts", 2, "--copy")
        self.assert_refused(shard.main, ["cut", farm, farm, "--parts", 2], "is there already")
        # The folder's own name, and not that of the one that is laid out before.
        cut = self.folder / "none" / "cut"
        self.assert_refused(
            shard.main,
            ["cut", farm, cut, "--parts", 2],
            f"shard.py: {cut}: No such file or directory\n",
        )
        self.assert_refused(shard.main, ["join", farm], "cut.json: No such file")
        (farm / "cut.json").write_text('{"orders_of_parts": [[1]]}')
        self.assert_refused(shard.main, ["join", farm], "isn't what shard.py cut writes")


if __name__ == "__main__":
    unittest.main()
