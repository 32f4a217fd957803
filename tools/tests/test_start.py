"""Tests of the scripts trau and demo and of build.py, in a small repository and with a stand-in for the toolchain's rt."""

import contextlib
import io
import os
import pty
import re
import resource
import select
import shlex
import shutil
import signal
import subprocess
import sys
import time
import types
import unittest
from pathlib import Path
from unittest import mock

from support import EXAMPLES, HAS_LOCKS, PLAIN_PATH, TOP, InFolder, put_python

from trau.command_line.words import Refusal

from trau.packing import build
from trau.packing import build_for
from trau.packing import trau_words

CRATES = """# crate: the crates that it stands on
low:
middle: low itoa
tests: middle
trau_program: middle high  # the program
high: low
"""

# What the real one says, as far as it is read: of each crate at its end what its check said and its verdict, and at last the sum.
RT = """#!/bin/sh
echo "$@" in $(basename "$PWD") jobs $RT_JOBS >>"$ASKED"
case $1 in
version) echo "a kit" ;;
ci)
    find . -type f | sort >>"$ASKED.files"
    [ "$FAILS $RT_JOBS" != "killed " ] || { echo 'rt: the check was killed, most likely for memory: once more'; exit 1; }
    for crate in low middle high trau_program; do
        grep -q "^$crate:" crates.txt || continue
        [ "$KEEPS $crate" != "low low" ] || { echo "rt: low is kept: an earlier run on this machine proved the same files"; continue; }
        echo "== $crate"
        if [ "$FAILS $crate" = "proof high" ]; then
            echo "fn high::f: not proved"
            echo "rt: high NOT PROVED"
            break
        elif [ "$FAILS $crate" = "format high" ]; then
            echo "rt: run rt fmt in the crate's folder"
            echo "rt: high NOT PROVED"
            break
        fi
        echo "fn $crate::f: proved"
        echo "logic=proved functions=3 axioms=2 sum=0"
        echo "rt: $crate proved"
    done
    case $FAILS in
    sleep) exec sleep 7200 ;;
    pause) until [ -e "$ASKED.goes-on" ]; do sleep 0.1; done ;;
    proof | format) echo 'rt: FAILED: high'; echo '3 passed, 1 failed'; exit 1 ;;
    esac
    if [ -d crates/trau_program ]; then
        mkdir -p crates/trau_program/out
        cd crates/trau_program/out
        printf '#!/bin/sh\\n[ "$#" != 0 ] || { echo usage; exit 1; }\\necho "the program: $*"\\n' >trau_program
        chmod +x trau_program
    fi
    echo 'rt: note: nothing is kept today'
    echo '4 passed, 0 failed'
    ;;
try)
    [ "$FAILS" != sleep ] || { echo begun >/dev/tty; exec sleep 7200; }
    cat "$REPORT"
    ;;
esac
"""

# In place of build_for.py.
BUILD_FOR = """import os, sys
top, crate, kind = sys.argv[1:]
if os.environ["FAILS"] == "second":
    sys.exit("no such kind")
folder = f"{top}/crates/{crate}/out"
with open(f"{folder}/{crate}.{kind}", "w") as made:
    made.write('#!/bin/sh\\n[ "$#" != 0 ] || { echo usage; exit 1; }\\necho "the program for ' + kind + ': $*"\\n')
with open(f"{top}/crates.txt") as listed:
    assert f"{crate}:" in listed.read()
print("logic=proved functions=3 axioms=2 sum=0")
with open(os.environ["ASKED"], "a") as asked:
    asked.write(f"build_for {crate} {kind}\\n")
"""

# A script that takes longer than this many seconds hangs, however slow the machine is. The stand-in's sleep is longer.
PATIENCE = 1800

V2 = "fpu cx16 lahf_lm popcnt pni sse4_1 sse4_2 ssse3"
V3 = f"{V2} avx f16c movbe abm bmi1 avx2 bmi2 fma"


class Started(InFolder):
    """A small repository with the scripts, and a path with the stand-in."""

    def setUp(self):
        super().setUp()
        self.top = self.folder / "top"
        self.top.mkdir()
        self.cpuinfo = self.path("cpuinfo")
        self.processor()
        for name in ("trau", "demo"):
            text = (TOP / name).read_text().replace("/proc/cpuinfo", shlex.quote(str(self.cpuinfo)))
            (self.top / name).write_text(text)
            (self.top / name).chmod(0o755)
        for name in ("tools", "python"):
            shutil.copytree(
                TOP / name, self.top / name, ignore=shutil.ignore_patterns("__pycache__", "tests")
            )
        (self.top / "tools" / "build_for.py").write_text(BUILD_FOR)
        # However full this machine's disk is, the stand-in begins, and keeps what it proves.
        script = self.top / "python" / "trau" / "packing" / "build.py"
        script.write_text(re.sub(r"^(DISK_\w+) = .*", r"\1 = 0", script.read_text(), flags=re.M))
        shutil.copytree(
            EXAMPLES / "farm",
            self.top / "examples" / "farm",
            ignore=shutil.ignore_patterns("*.down", "*.out"),
        )
        (self.top / "examples" / "farm" / "wanted").mkdir(exist_ok=True)
        shutil.copy(
            EXAMPLES / "farm" / "wanted" / "report.txt", self.top / "examples" / "farm" / "wanted"
        )
        (self.top / "crates.txt").write_text(CRATES)
        for crate in ("low", "middle", "high", "tests", "trau_program"):
            for part in ("src", "specs", "proofs"):
                (self.top / "crates" / crate / part).mkdir(parents=True)
                (self.top / "crates" / crate / part / "file").write_text(crate)
        (self.top / "crates" / "low" / "must-fail").mkdir()
        (self.top / "crates" / "low" / "must-fail" / "x.edit").write_text("")
        (self.top / "crates" / "trau_program" / "args").write_text("run\n")
        (self.top / "HANDLES").write_text("Handles allowed: none.\n")
        self.tools = self.folder / "kits" / "kit" / "bin"
        self.tools.mkdir(parents=True)
        (self.tools / "rt").write_text(RT)
        (self.tools / "rt").chmod(0o755)
        put_python(self.tools)
        self.asked = self.folder / "asked"
        self.surroundings = {
            "PATH": f"{self.tools}:{PLAIN_PATH}",
            "ASKED": str(self.asked),
            "FAILS": "no",
            "KEEPS": "",
            "REPORT": str(EXAMPLES / "farm" / "wanted" / "report.txt"),
            "TMPDIR": str(self.folder),
            "PYTHONDONTWRITEBYTECODE": "1",
            # Neither a repository around the folder nor anybody's settings of git count.
            "GIT_CEILING_DIRECTORIES": str(self.folder),
            "GIT_CONFIG_NOSYSTEM": "1",
        }

    def processor(self, flags=""):
        """The processor's flags, as the script reads them."""
        self.cpuinfo.write_text(
            f"processor\t: 0\nmodel name\t: a processor\nflags\t\t: {flags}\nbugs\t\t: {V3}\n"
        )

    def trau(self, *words, name="trau", given=b"", **changes):
        """The status, standard output and standard error of the script."""
        how = {"input": given, "capture_output": True, "cwd": self.folder, "timeout": PATIENCE}
        ended = subprocess.run(
            [self.top / name, *words], env={**self.surroundings, **changes}, **how
        )
        return ended.returncode, ended.stdout.decode(), ended.stderr.decode()

    def rest(self, run, given=None):
        """What a script that was started prints until its end."""
        try:
            return run.communicate(given, timeout=PATIENCE)
        except subprocess.TimeoutExpired:
            run.kill()
            raise

    def at_terminal(self, *words, name="trau", stops_at=None, **changes):
        """The status, and all that is written to a terminal, at which the script is started; control-C comes at a text."""
        try:
            pid, terminal = pty.fork()
        except OSError as failure:
            self.skipTest(f"no terminal: {failure}")
        if pid == 0:
            try:
                os.chdir(self.folder)
                # As a shell at a terminal starts it, also where these tests run in the background, which ignores control-C.
                signal.signal(signal.SIGINT, signal.SIG_DFL)
                os.execve(
                    self.top / name,
                    [name, *words],
                    {**self.surroundings, "TERM": "dumb", **changes},
                )
            finally:
                os._exit(127)
        said, hangs_at = b"", time.monotonic() + PATIENCE
        # Linux answers a read with an error once the last process has closed its side.
        with contextlib.suppress(OSError):
            while (
                select.select([terminal], [], [], max(0, hangs_at - time.monotonic()))[0]
                and time.monotonic() < hangs_at
            ):
                piece = os.read(terminal, 4096)
                if not piece:
                    break
                said += piece
                if stops_at and stops_at in said:
                    os.write(terminal, b"\x03")
                    stops_at = None
        if time.monotonic() >= hangs_at:
            os.killpg(pid, signal.SIGKILL)
        os.close(terminal)
        return os.waitstatus_to_exitcode(os.waitpid(pid, 0)[1]), said.decode().replace("\r\n", "\n")

    def built(self):
        self.assertEqual(self.trau()[:2], (1, "usage\n"))
        self.asked.unlink()

    def both_built(self):
        """Both programs, as a package needs them."""
        words = [sys.executable, self.top / "tools" / "build.py", "--both"]
        ended = subprocess.run(
            words,
            env=self.surroundings,
            stdin=subprocess.DEVNULL,
            capture_output=True,
            text=True,
            timeout=PATIENCE,
        )
        self.assertEqual(ended.returncode, 0, ended.stderr)
        self.assertEqual(
            self.asked.read_text(), "ci in trau jobs\nbuild_for trau_program x86-64-v3\n"
        )
        self.asked.unlink()
        return ended.stderr


def without_numbers(text):
    """What was said, without what differs from machine to machine."""
    return re.sub(r"\d+:\d\d minutes|[\d.]+ GB", "..", text).splitlines()


class TheFirstStart(Started):
    def test_builds_and_says_how_far_it_is(self):
        status, out, err = self.trau("run", "--workers", "2", TRAU_JOBS="2")
        self.assertEqual((status, out), (0, "the program: run --workers 2\n"))
        said = without_numbers(err)
        self.assertIn(
            "a source changed: its 4 crates are proved, 2 at a time, and then it is built", said[0]
        )
        takes = "trau: from nothing that takes long (docs/INSTALL.md has a measured time); it needs some .. of disk in"
        self.assertEqual(said[1], f"{takes} {self.folder}")
        self.assertEqual(said[2], f"trau: what is proved is kept in {self.folder}/kits/rattle-kept")
        self.assertEqual(
            said[4:],
            [
                "trau: crate 0 of 4, functions 0, ..: reading all sources",
                "trau: crate 1 of 4, functions 3, ..: low",
                "trau: crate 2 of 4, functions 6, ..: middle",
                "trau: crate 3 of 4, functions 9, ..: high",
                "trau: crate 4 of 4, functions 12, ..: trau_program",
                "trau: note: nothing is kept today",
                "trau: proved and built: 4 crates, functions 12, ..",
            ],
        )
        # All is proved in a copy of what the program stands on; that is gone afterwards.
        self.assertEqual(self.asked.read_text(), "ci in trau jobs 2\n")
        copied = self.asked.with_name("asked.files").read_text().split()
        for name in (
            "./crates.txt",
            "./HANDLES",
            "./crates/low/proofs/file",
            "./crates/trau_program/args",
        ):
            self.assertIn(name, copied)
        self.assertEqual([name for name in copied if "/tests/" in name or "must-fail" in name], [])
        self.assertEqual(
            [name for name in os.listdir(self.folder) if name.startswith("trau-start-")], []
        )
        log = (self.top / "crates" / "trau_program" / "out" / "trau.log").read_text()
        self.assertIn("fn high::f: proved", log)

    def test_builds_for_the_processor_at_hand_alone(self):
        self.processor(V3)
        status, out, err = self.trau("relay", "7")
        self.assertEqual((status, out), (0, "the program for x86-64-v3: relay 7\n"), err)
        self.assertEqual(
            without_numbers(err)[7:],
            [
                "trau: crate 3 of 4, functions 9, ..: high",
                "trau: note: nothing is kept today",
                "trau: crate 3 of 4, functions 9, ..: the program for x86-64-v3",
                "trau: proved and built: 4 crates, functions 12, ..",
            ],
        )
        self.assertNotIn("/trau_program/", self.asked.with_name("asked.files").read_text())
        out = self.top / "crates" / "trau_program" / "out"
        self.assertEqual(
            sorted(path.name for path in out.glob("*x86*")),
            ["trau.built.x86-64-v3", "trau_program.x86-64-v3"],
        )
        self.assertFalse((out / "trau_program").exists())
        # An older program for the other kind isn't taken for one of these sources.
        (out / "trau_program").write_text("#!/bin/sh\necho older\n")
        (out / "trau_program").chmod(0o755)
        (self.top / "crates" / "low" / "src" / "file").write_text("changed")
        self.assertIn("proved and built", self.trau("relay", "7")[2])
        self.processor()
        self.assertEqual(self.trau("relay", "7")[:2], (0, "the program: relay 7\n"))

    def test_builds_both_where_it_is_asked_to(self):
        said = without_numbers(self.both_built())
        self.assertEqual(
            said[-2], "trau: crate 4 of 4, functions 12, ..: the program for x86-64-v3"
        )
        self.assertEqual(said[-1], "trau: proved and built: 4 crates, functions 12, ..")
        for kind in ("x86-64-v2", "x86-64-v3"):
            self.assertEqual(self.trau(TRAU_IS_BUILT=kind)[0], 0)

    def test_starts_at_once_when_built_also_without_the_toolchain(self):
        self.built()
        self.assertEqual(self.trau("relay", "7"), (0, "the program: relay 7\n", ""))
        (self.tools / "rt").unlink()
        self.assertEqual(self.trau("relay", "7"), (0, "the program: relay 7\n", ""))
        self.assertFalse(self.asked.exists())

    def test_builds_again_after_a_change(self):
        self.built()
        (self.top / "crates" / "low" / "src" / "file").write_text("changed")
        self.assertIn("proved and built", self.trau("relay", "7")[2])
        (self.top / "crates" / "trau_program" / "out" / "trau_program").write_text(
            "#!/bin/sh\necho another\n"
        )
        self.assertIn("proved and built", self.trau("relay", "7")[2])

    def test_one_line_that_moves_at_a_terminal(self):
        status, said = self.at_terminal("relay", "7", FAILS="no")
        self.assertEqual(status, 0)
        self.assertNotIn("minutes: low\n", said)
        self.assertIn("\r\x1b[K", said)
        self.assertRegex(
            said,
            r"trau: proved and built: 4 crates, functions 12, \d+:\d\d minutes\nthe program: relay 7\n$",
        )

    def test_no_toolchain(self):
        (self.tools / "rt").unlink()
        status, out, err = self.trau("run")
        self.assertEqual((status, out), (125, ""))
        self.assertEqual(err.count("\n"), 1)
        self.assertIn("rt, which proving and building needs, isn't on the path", err)
        self.assertFalse((self.top / "crates" / "trau_program" / "out").exists())

    def test_failures(self):
        for how, part in (
            ("proof", "trau: fn high::f: not proved\n"),
            ("proof", "3 passed, 1 failed"),
            ("format", "trau: crates/high isn't laid out as `rt fmt` does it: run that there\n"),
        ):
            status, out, err = self.trau("run", FAILS=how)
            self.assertEqual((status, out), (125, ""), err)
            self.assertIn(part, err)
            self.assertIn("trau: the program is not proved or not built; ", err)
            self.assertFalse((self.top / "crates" / "trau_program" / "out" / "trau.built").exists())

    def test_one_at_a_time_where_a_check_was_killed(self):
        status, out, err = self.trau("relay", "7", FAILS="killed")
        self.assertEqual((status, out), (0, "the program: relay 7\n"), err)
        self.assertIn("a check was killed", err)
        self.assertEqual(
            self.asked.read_text().split("\n")[:2], ["ci in trau jobs", "ci in trau jobs 1"]
        )

    def test_what_is_kept_comes_first(self):
        status, out, err = self.trau("relay", "7", KEEPS="low")
        self.assertEqual((status, out), (0, "the program: relay 7\n"), err)
        wanted = [
            "trau: crate 1 of 4, functions 0, ..: low",
            "trau: crate 2 of 4, functions 3, ..: middle",
        ]
        self.assertEqual(without_numbers(err)[5:7], wanted)

    def test_where_nothing_can_be_kept(self):
        (self.folder / "kits" / "rattle-kept").write_text("")
        status, out, err = self.trau("relay", "7")
        self.assertEqual((status, out), (0, "the program: relay 7\n"), err)
        self.assertIn(
            "rattle-kept can't be written: a start that is broken off, or that follows a change, begins anew\n",
            err,
        )
        with mock.patch.dict(os.environ, self.surroundings), mock.patch.object(build, "check_disk"):
            self.assert_refused(
                build.main, ["--over-kept", "--top", self.top], "nothing is kept, since "
            )

    def test_a_toolchain_that_keeps_nothing(self):
        with mock.patch.dict(os.environ, self.surroundings), mock.patch.object(build, "check_disk"):
            self.assert_refused(
                build.main,
                ["--over-kept", "--top", self.top],
                "nothing is kept, since there is no ",
            )

    def test_broken_off(self):
        with subprocess.Popen(
            [sys.executable, self.top / "tools" / "build.py"],
            env={**self.surroundings, "FAILS": "sleep"},
            stdin=subprocess.DEVNULL,
            stderr=subprocess.PIPE,
            text=True,
        ) as ran:
            for line in ran.stderr:
                if "crate 3 of 4" in line:
                    break
            ran.send_signal(signal.SIGTERM)
            self.assertIn("broken off; the next start goes on with what is kept", self.rest(ran)[1])
            self.assertEqual(ran.returncode, 130)
        self.assertEqual(
            [name for name in os.listdir(self.folder) if name.startswith("trau-start-")], []
        )

    def test_control_c(self):
        status, said = self.at_terminal("relay", "7", stops_at=b"crate 4 of 4", FAILS="sleep")
        self.assertIn("broken off; the next start goes on with what is kept", said[-300:])
        self.assertNotEqual(status, 0)
        self.assertIn("the program: relay 7\n", self.at_terminal("relay", "7")[1])

    def test_the_second_of_two_waits(self):
        how = {
            "env": {**self.surroundings, "FAILS": "pause"},
            "cwd": self.folder,
            "stdin": subprocess.DEVNULL,
            "text": True,
        }
        how.update(stdout=subprocess.PIPE, stderr=subprocess.PIPE)
        # (Two runs in one folder at once would be refused.)
        other = self.folder / "other"
        other.mkdir()
        with subprocess.Popen([self.top / "trau", "relay", "7"], **how) as first:
            for line in first.stderr:
                if "crate 4 of 4" in line:
                    break
            with subprocess.Popen(
                [self.top / "trau", "relay", "8"], **{**how, "cwd": other}
            ) as second:
                said = second.stderr.readline()
                self.path("asked.goes-on", b"")
                self.assertEqual(self.rest(first)[0], "the program: relay 7\n")
                self.assertEqual(self.rest(second), ("the program: relay 8\n", ""))
            self.assertEqual(
                said, "trau: another start proves and builds the program; this one waits for it\n"
            )
        self.assertEqual(self.asked.read_text().count("ci in trau"), 1)

    def test_processors_and_memory(self):
        with mock.patch.dict(os.environ, {"TRAU_JOBS": ""}):
            for processors, memory, jobs in ((4, 16, 4), (4, 6, 2), (4, 1, 1), (1, 64, 1)):
                with mock.patch.object(build, "processors", lambda: processors):
                    with mock.patch.object(build, "free_memory", lambda: memory * 10**9):
                        self.assertEqual(build.jobs(), jobs)
        limits = {
            "/sys/fs/cgroup/memory.max": 3_000_000,
            "/sys/fs/cgroup/memory.current": 1_000_000,
        }
        with mock.patch.object(build, "number_in", limits.get):
            self.assertEqual(build.free_memory(), 2_000_000)
        with mock.patch.object(build, "number_in", {}.get):
            self.assertGreater(build.free_memory(), 2_000_000)
        status, _, err = self.trau("run", TRAU_JOBS="many")
        self.assertEqual((status, err), (125, "trau: TRAU_JOBS is 'many', and takes 1 to 99\n"))

    def test_too_little_disk(self):
        def usage(_):
            return types.SimpleNamespace(free=10**8)

        with mock.patch.object(shutil, "disk_usage", usage):
            with self.assertRaisesRegex(
                Refusal, r"too little disk: this needs 0\.\d GB, and .* has 0\.1 GB left"
            ):
                build.check_disk(self.top, build.needed(self.top, "trau_program"))
            keeps, kept = build.what_is_kept(str(self.tools / "rt"))
            self.assertFalse(keeps)
            self.assertRegex(
                kept, r"^nothing is kept, since .*rattle-kept has less than 5\.2 GB left"
            )
        with mock.patch.dict(os.environ, self.surroundings), mock.patch.object(
            shutil, "disk_usage", usage
        ):
            status, out, err = self.run_tool(build.main, "--top", self.top)
        self.assertEqual((status, out), (2, ""))
        self.assertIn("trau: too little disk", err)
        self.assertFalse(self.asked.exists())

    def test_crates_that_are_needed(self):
        self.assertEqual(
            build.needed(self.top, "trau_program"), ["trau_program", "middle", "high", "low"]
        )
        crates = set(build.crates_of(TOP))
        self.assertEqual(
            crates - set(build.needed(TOP, build.PROGRAM)),
            {
                "call_heard",
                "call_records",
                "call_sides",
                "call_tests",
                "codec_tests",
                "farm_tests",
                "fr_sides",
                "gsm_frame",
                "line_tests",
                "pool_core",
                "trau_c",
            }
            | {"packet_tests", "rtp_buffer", "rtp_packet", "rtp_stream"}
            | {"call_coders", "memory_folder", "rtp_call", "rtp_session", "trau_calls"},
        )
        self.assert_refused(
            build.main, ["--top", self.top, "--program", "gone"], "has no line of gone"
        )
        self.assert_refused(build.main, ["now"], "unrecognized")

    def test_folders_of_killed_starts(self):
        # The one of a process that is there stays.
        for number in (os.getpid(), 2**22 + 1):
            (self.folder / f"trau-start-{number}-x").mkdir()
        self.built()
        self.assertEqual(
            [name for name in os.listdir(self.folder) if "trau-start-" in name],
            [f"trau-start-{os.getpid()}-x"],
        )


class TheTextOfAProgram(unittest.TestCase):
    """What build_for.py refuses before it proves, as `rt ci` does, by a stand-in for the toolchain."""

    CRATE = types.SimpleNamespace(name="high", folder="/high", allowed=("Threads",))

    def toolchain(self, code, laid_out=True):
        checks = ("stop_on_links", "stop_on_unread", "stop_on_text")
        rtlib = types.SimpleNamespace(
            code_of=lambda _: code,
            fmt=lambda *_: not laid_out,
            **{name: mock.Mock() for name in checks},
        )
        reaches = {"Threads": "thread", "Net": "socket"}
        return types.SimpleNamespace(
            rtlib=rtlib,
            stop_on_words=mock.Mock(),
            REACHES=reaches,
            RENAMES="renames",
            IGNORED="ignore",
        )

    def test_each(self):
        rt = self.toolchain("thread")
        build_for.check_text(rt, self.CRATE)
        for check in (
            rt.rtlib.stop_on_links,
            rt.rtlib.stop_on_unread,
            rt.rtlib.stop_on_text,
            rt.stop_on_words,
        ):
            check.assert_called_once()
        for code in ("renames", "ignore", "socket"):
            with self.assertRaisesRegex(Refusal, "high: rt ci refuses its text"):
                build_for.check_text(self.toolchain(code), self.CRATE)
        with self.assertRaisesRegex(Refusal, "high: isn't laid out"):
            build_for.check_text(self.toolchain("", laid_out=False), self.CRATE)


class HowFarItIs(unittest.TestCase):
    def setUp(self):
        self.now, self.said = 0.0, io.StringIO()
        self.progress = build.Progress(51, self.said, lambda: self.now)

    def test_the_crates_done_and_the_time_so_far(self):
        self.progress.at("reading all sources")
        self.now = 59.9
        self.progress.finish("low")
        self.now = 143.0
        self.progress.functions = 257
        self.progress.finish("middle")
        self.assertEqual(
            self.said.getvalue().splitlines(),
            [
                "trau: crate 0 of 51, functions 0, 0:00 minutes: reading all sources",
                "trau: crate 1 of 51, functions 0, 0:59 minutes: low",
                "trau: crate 2 of 51, functions 257, 2:23 minutes: middle",
            ],
        )

    def test_a_crate_counts_once(self):
        for _ in range(2):
            self.progress.finish("low")
        self.assertTrue(self.progress.words().startswith("crate 1 of 51, "))
        self.progress.again()
        self.assertTrue(self.progress.words().startswith("crate 0 of 51, "))


class TwoPrograms(Started):
    """Which of the two is started."""

    def setUp(self):
        super().setUp()
        self.both_built()
        self.out = self.top / "crates" / "trau_program" / "out"

    V3_RUNS = (0, "the program for x86-64-v3: relay 7\n", "")
    V2_RUNS = (0, "the program: relay 7\n", "")

    def test_by_the_processor(self):
        self.assertEqual(self.trau("relay", "7"), self.V2_RUNS)
        self.processor(V3)
        self.assertEqual(self.trau("relay", "7"), self.V3_RUNS)
        # As a folder that another machine has too.
        self.processor(V3.replace(" avx2", ""))
        self.assertEqual(self.trau("relay", "7"), self.V2_RUNS)
        for flag in V3[len(V2) :].split():
            self.processor(f"{V3} x".replace(f" {flag} ", " ") + " x")
            self.assertEqual(self.trau("relay", "7"), self.V2_RUNS, flag)
        self.cpuinfo.unlink()
        self.assertEqual(self.trau("relay", "7"), self.V2_RUNS)
        self.assertFalse(self.asked.exists())

    def test_a_processor_that_is_too_old(self):
        for flag in V2.split()[1:]:
            self.processor(f"{V2} ".replace(f" {flag} ", " "))
            said = f"trau: this machine's processor can't run {self.out / 'trau_program'}: it lacks {flag}\n"
            self.assertEqual(self.trau("relay", "7"), (*self.V2_RUNS[:2], said))
        self.processor(V2)
        program = self.out / "trau_program.x86-64-v3"
        status, _, err = self.trau("relay", "7", TRAU_PROGRAM=str(program))
        lacking = " ".join(sorted(V3[len(V2) :].split()))
        self.assertEqual(
            (status, " ".join(sorted(err.split("it lacks ")[1].split()))), (0, lacking)
        )
        self.processor(V3)
        self.assertEqual(self.trau("relay", "7", TRAU_PROGRAM=str(program)), self.V3_RUNS)

    def test_a_program_by_a_relative_path(self):
        shutil.copy(self.out / "trau_program", self.folder / "echo")
        (self.folder / "below").mkdir()
        shutil.copy(self.out / "trau_program", self.folder / "below" / "program")
        for name in ("echo", "./echo", "below/program"):
            self.assertEqual(self.trau("relay", "7", TRAU_PROGRAM=name), self.V2_RUNS)

    def test_by_trau_cpu(self):
        self.processor(V3)
        self.assertEqual(self.trau("relay", "7", TRAU_CPU="x86-64-v2"), self.V2_RUNS)
        self.assertEqual(self.trau("relay", "7", TRAU_CPU="x86-64-v3"), self.V3_RUNS)
        said = "trau: TRAU_CPU is 'v3', and takes x86-64-v2 and x86-64-v3\n"
        self.assertEqual(self.trau("relay", "7", TRAU_CPU="v3"), (125, "", said))
        self.processor()
        said = "trau: TRAU_CPU is x86-64-v3, and this machine's processor isn't one\n"
        self.assertEqual(self.trau("relay", "7", TRAU_CPU="x86-64-v3"), (125, "", said))

    def test_version_says_which(self):
        def said(**changes):
            status, out, err = self.trau("--version", **changes)
            self.assertEqual((status, err), (0, ""))
            return out.splitlines()[1]

        self.assertEqual(said(), "program: for x86-64-v2")
        self.processor(V3)
        self.assertEqual(said(), "program: for x86-64-v3")
        self.assertEqual(said(TRAU_CPU="x86-64-v2"), "program: for x86-64-v2")
        program = str(self.out / "trau_program")
        self.assertEqual(
            said(TRAU_PROGRAM=program), f"program: {program}, which TRAU_PROGRAM names"
        )
        (self.out / "trau_program.x86-64-v3").unlink()
        self.assertEqual(
            said(),
            "program: for x86-64-v2; this machine's processor could run one for x86-64-v3, which isn't built",
        )
        (self.out / "trau_program").unlink()
        self.assertEqual(said(), "program: not built")

    def test_a_program_that_isnt_there(self):
        # A mistyped name starts neither another program nor a proof.
        for name in ("/no/program", str(self.out), "gone"):
            said = f"trau: TRAU_PROGRAM is '{name}', and no program is there\n"
            self.assertEqual(self.trau("relay", "7", TRAU_PROGRAM=name), (125, "", said))
            self.assertEqual(self.trau("relay", TRAU_PROGRAM=name), (125, "", said))
            self.assertEqual(self.trau("help", TRAU_PROGRAM=name), (0, Help.HELP, ""))
            self.assertEqual(self.trau(name="demo", TRAU_PROGRAM=name), (125, "", said))
        self.assertFalse(self.asked.exists())

    def test_where_the_second_is_missing(self):
        self.processor(V3)
        (self.out / "trau.built.x86-64-v3").unlink()
        self.assertEqual(self.trau("relay", "7"), self.V2_RUNS)
        self.assertFalse(self.asked.exists())
        # Whoever asks for it has it built.
        status, out, err = self.trau("relay", "7", TRAU_CPU="x86-64-v3")
        self.assertEqual((status, out), self.V3_RUNS[:2], err)
        (self.out / "trau_program").unlink()
        (self.out / "trau_program.x86-64-v3").unlink()
        self.asked.unlink()
        status, out, err = self.trau("relay", "7", FAILS="second")
        self.assertEqual(self.asked.read_text(), "ci in trau jobs\n" * 2)
        self.assertEqual((status, out), self.V2_RUNS[:2], err)
        self.assertIn(
            "trau: no program for x86-64-v3 is built; the one for x86-64-v2 runs on all processors\n",
            err,
        )
        status, out, err = self.trau("relay", "7", FAILS="second", TRAU_CPU="x86-64-v3")
        self.assertEqual((status, out), (125, ""))
        self.assertIn(
            "trau: no program for x86-64-v3 was built; crates/trau_program/out/trau.log says why\n",
            err,
        )

    def test_in_a_package(self):
        for name in ("trau_program", "trau_program.x86-64-v3"):
            shutil.copy(self.out / name, self.top)
        (self.top / "VERSION").write_text("trau of a package\n")
        self.assertEqual(self.trau("relay", "7"), self.V2_RUNS)
        self.assertEqual(
            self.trau("--version"), (0, "trau of a package\nprogram: for x86-64-v2\n", "")
        )
        self.processor(V3)
        self.assertEqual(self.trau("relay", "7"), self.V3_RUNS)
        self.assertEqual(self.trau("--version")[1], "trau of a package\nprogram: for x86-64-v3\n")
        self.assertEqual(self.trau("relay", "7", TRAU_CPU="x86-64-v2"), self.V2_RUNS)
        (self.top / "trau_program.x86-64-v3").unlink()
        self.assertEqual(self.trau("relay", "7"), self.V2_RUNS)
        one = "program: for x86-64-v2; this machine's processor could run one for x86-64-v3, which isn't in this package"
        self.assertEqual(self.trau("--version")[1].splitlines()[1], one)
        # Of what kind a program is that somebody named, nobody knows.
        (self.top / "VERSION").write_text(
            "trau of a package, with a program that TRAU_PROGRAM named\n"
        )
        self.assertEqual(
            self.trau("--version")[1].splitlines()[1],
            "program: the one that TRAU_PROGRAM named when it was packed",
        )
        self.assertEqual(self.trau("relay", "7", TRAU_CPU="x86-64-v3"), self.V2_RUNS)
        (self.top / "VERSION").write_text("trau of a package\n")
        said = "trau: this package has no program for x86-64-v3\n"
        self.assertEqual(self.trau("relay", "7", TRAU_CPU="x86-64-v3"), (125, "", said))

    def test_demo(self):
        # The stand-in writes no lines, so that the demo says what it was started with.
        self.processor(V3)
        self.assertIn(
            "the program for x86-64-v3: run", (self.trau(name="demo"), self.demo_report())[1]
        )
        self.processor()
        self.assertIn("the program: run", (self.trau(name="demo"), self.demo_report())[1])

    def demo_report(self):
        (folder,) = self.folder.glob("trau-demo.*")
        said = (folder / "report.txt").read_text()
        shutil.rmtree(folder)
        return said

    def test_what_is_asked_by_other_scripts(self):
        for kind, status in (("x86-64-v2", 0), ("x86-64-v3", 0), ("x86-64-v4", 1)):
            self.assertEqual(self.trau(TRAU_IS_BUILT=kind)[0], status)
        status, out, _ = self.trau(TRAU_SUM="ask")
        self.assertEqual(
            (status, (self.out / "trau.built").read_text().startswith(out.strip())), (0, True)
        )
        # The merge gate notes the first program alone.
        for name in ("trau.built", "trau.built.x86-64-v3"):
            (self.out / name).unlink()
        self.assertEqual(self.trau(TRAU_JUST_BUILT="yes"), (0, "", ""))
        self.assertEqual(sorted(path.name for path in self.out.glob("trau.built*")), ["trau.built"])


class Help(Started):
    HELP = (TOP / "tools" / "help.txt").read_text()

    def test_before_any_proof(self):
        for words in (["help"], ["--help"], ["-h"]):
            self.assertEqual(self.trau(*words), (0, self.HELP, ""), words)
        self.assertEqual(self.at_terminal(), (1, self.HELP + "usage\n"))
        self.assertFalse(self.asked.exists())

    def test_a_page_for_each_command(self):
        for command in trau_words.COMMANDS:
            for words in (["help", command.name], [command.name, "--help"], [command.name, "-h"]):
                self.assertEqual(self.trau(*words), (0, trau_words.page(command), ""), words)
        # Of a name that is no command, none is a pattern: the program gets it, and says so.
        self.built()
        for name in ("x", ".*", "r.n", "[", "run\nsave", "run/"):
            self.assertEqual(self.trau("help", name), (0, f"the program: {name}\n", ""), name)

    def test_where_the_program_is_built_too(self):
        self.built()
        self.assertEqual(self.trau("help"), (0, self.HELP, ""))
        self.assertEqual(self.at_terminal(), (1, self.HELP + "usage\n"))
        self.assertEqual(self.trau(), (1, "usage\n", ""))

    def test_version(self):
        self.assertEqual(
            self.trau("--version"), (0, "trau of no known commit; a kit\nprogram: not built\n", "")
        )
        git = ["git", "-C", self.top, "-c", "user.name=n", "-c", "user.email=e"]
        for words in (["init", "-q"], ["add", "trau"], ["commit", "-qm", "x"]):
            subprocess.run([*git, *words], check=True, env=self.surroundings)
        (self.tools / "rt").unlink()
        self.assertRegex(
            self.trau("--version")[1],
            r"^trau [0-9a-f]{7,} of \d{4}-\d\d-\d\d, with changes; no kit: rt isn't on the path\nprogram: not built\n$",
        )

    def test_no_standard_output(self):
        said = "trau: standard output can't be written\n"
        for words in ("--version", "help", "help run"):
            for closed in (">&-", ">/dev/full"):
                how = {"env": self.surroundings, "capture_output": True, "text": True}
                ended = subprocess.run(["sh", "-c", f"{self.top}/trau {words} {closed}"], **how)
                self.assertEqual((ended.returncode, ended.stderr), (4, said), (words, closed))

    def test_run_at_a_terminal(self):
        self.built()
        note = "trau: run waits for orders from this terminal; control-D at the start of a line ends them\n"
        self.assertEqual(self.at_terminal("run"), (0, note + "the program: run\n"))
        self.assertEqual(self.at_terminal("relay", "7"), (0, "the program: relay 7\n"))
        self.assertEqual(self.trau("run"), (0, "the program: run\n", ""))

    def test_a_pipe_at_a_terminal(self):
        self.built()
        os.mkfifo(self.folder / "7.pcm")
        note = "trau: 7.pcm is a pipe; where its call is opened, it is waited for until someone opens it for writing\n"
        for words in (["encode", "7"], ["resume"]):
            self.assertEqual(
                self.at_terminal(*words), (0, f"{note}the program: {' '.join(words)}\n")
            )
        self.assertEqual(self.at_terminal("encode", "8"), (0, "the program: encode 8\n"))
        self.assertEqual(self.trau("encode", "7"), (0, "the program: encode 7\n", ""))
        os.mkfifo(self.folder / "7.out")
        more = "trau: 7.out is a pipe; where its call is opened, it is waited for until someone opens it for reading\n"
        self.assertEqual(self.at_terminal("resume"), (0, f"{note}{more}the program: resume\n"))


class GivenWords(Started):
    """The program gets the words and the orders as they are: it alone says what is wrong with them."""

    def test_wrong_words(self):
        self.built()
        for words in ("run --workers 65", "run orders.txt", "relya 7", "relay", "-x"):
            self.assertEqual(self.trau(*words.split()), (0, f"the program: {words}\n", ""), words)

    def test_wrong_orders(self):
        self.built()
        for words in ("run", "save --periods 5", "resume"):
            self.assertEqual(
                self.trau(*words.split(), given=b"# no order\n"),
                (0, f"the program: {words}\n", ""),
            )

    def test_where_standard_output_may_not_grow(self):
        self.built()
        for words in (["frames"], ["frames", "7"]):
            with open(self.folder / "said", "wb") as said:
                ended = subprocess.run(
                    [self.top / "trau", *words],
                    stdout=said,
                    stderr=subprocess.PIPE,
                    env=self.surroundings,
                    cwd=self.folder,
                    preexec_fn=lambda: resource.setrlimit(
                        resource.RLIMIT_FSIZE, (0, resource.getrlimit(resource.RLIMIT_FSIZE)[1])
                    ),
                )
            self.assertNotIn(ended.returncode, (-signal.SIGXFSZ, 128 + signal.SIGXFSZ), words)


@unittest.skipUnless(HAS_LOCKS, "there is no flock, or temporary files have no locks")
class TwoRuns(Started):
    """A run locks its folder."""

    def setUp(self):
        super().setUp()
        self.built()

    def lasting(self, *words):
        """A run that goes on until its input ends: the stand-in's program is one that reads it."""
        program = self.folder / "lasting"
        # As the program's, it is a single process: the one that has the folder.
        program.write_text("#!/bin/sh\necho begun\nexec cat\n")
        program.chmod(0o755)
        run = subprocess.Popen(
            [self.top / "trau", *words],
            stdin=subprocess.PIPE,
            stdout=subprocess.PIPE,
            env={**self.surroundings, "TRAU_PROGRAM": str(program)},
            cwd=self.folder,
        )
        self.assertEqual(run.stdout.readline(), b"begun\n")
        return run

    def holder(self, run):
        """Who has the folder, as the script says it: where the system shows whose a lock is, this run."""
        try:
            shown = "FLOCK" in Path("/proc", str(run.pid), "fdinfo", "9").read_text()
        except OSError:
            shown = False
        return f"process {run.pid}" if shown else "another process"

    def test_the_second_says_who_has_the_folder(self):
        with self.lasting("run") as run:
            for name in ("run", "resume", "relay", "merge"):
                words = [name] if name in ("run", "resume") else [name, "7"]
                said = f"trau: {self.holder(run)} writes lines of this folder; trau --no-lock {name} starts all the same\n"
                self.assertEqual(self.trau(*words), (125, "", said))
            self.assertEqual(self.trau("frames", "7"), (0, "the program: frames 7\n", ""))
            self.assertEqual(self.trau("drill"), (0, "the program: drill\n", ""))
            # A command with `--` is as right as without.
            for words in (["run", "--"], ["run", "--periods", "5", "--"]):
                self.assertEqual(self.trau(*words)[0], 125, words)
            self.assertEqual(self.trau("--no-lock", "run"), (0, "the program: run\n", ""))
            self.rest(run, b"")
        self.assertEqual(self.trau("run"), (0, "the program: run\n", ""))

    def test_where_there_is_no_lock(self):
        with self.lasting("frames", "7") as run:
            self.assertEqual(self.trau("run"), (0, "the program: run\n", ""))
            self.rest(run, b"")
        flock = self.tools / "flock"
        flock.write_text("#!/bin/sh\nexit 66\n")
        flock.chmod(0o755)
        with self.lasting("run") as run:
            self.assertEqual(self.trau("run"), (0, "the program: run\n", ""))
            self.rest(run, b"")


class Demo(Started):
    def test_says_what_there_is_where_nothing_is_built(self):
        status, _, err = self.trau(name="demo")
        self.assertIn(
            "demo: now the program itself is proved and built, once: that took 14 to 20 minutes on four processors.",
            err,
        )
        self.assertLess(err.index("Control-C stops it"), err.index("crate 1 of 4"))
        self.assertEqual(self.trau(name="demo")[2], "")

    def test_unproved(self):
        status, out, err = self.trau("--unproved", name="demo")
        self.assertEqual(status, 0, err)
        lines = out.splitlines()
        self.assertTrue(lines[0].startswith("UNPROVED: nothing of this run is proved."))
        self.assertEqual(lines[-1], lines[0])
        self.assertIn("end period 153 calls 4 left 0", lines)
        self.assertIn(
            "The report is octet for octet what is recorded in examples/farm/wanted.", lines
        )
        asked = self.asked.read_text()
        self.assertTrue(asked.startswith("try --data 1.up="), asked)
        self.assertIn("-- run in trau_program", asked)
        self.assertEqual(
            [name for name in os.listdir(self.folder) if name.startswith("trau-demo")], []
        )
        # Nothing is built by it, and nothing is called trau.
        self.assertFalse((self.top / "crates" / "trau_program" / "out").exists())

    def test_unproved_that_is_broken_off(self):
        status, said = self.at_terminal("--unproved", name="demo", stops_at=b"begun", FAILS="sleep")
        self.assertEqual(status, 130, said)
        self.assertEqual(
            [name for name in os.listdir(self.folder) if name.startswith("trau-demo")], []
        )

    def test_says_of_each_call_what_was_lost(self):
        report = self.top / "tools" / "report.py"
        report.write_text(
            '#!/bin/sh\necho "$PYTHONDONTWRITEBYTECODE $@" >"$ASKED.report"\necho a table\necho "call 1: Up ended; lost 18"\necho "call 2: closed"\n'
        )
        said = "\n\ncall 1: Up ended; lost 18\ncall 2: closed\n\n"
        status, out, err = self.trau("--unproved", name="demo")
        self.assertEqual(status, 0, err)
        self.assertIn("end period 153 calls 4 left 0\n\nWho was heard, ", out)
        self.assertIn(f"{said}The report is", out)
        self.built()
        self.assertIn(
            f"{said}The lines are in", self.trau(name="demo", PYTHONDONTWRITEBYTECODE="")[1]
        )
        lines = self.top / "examples" / "farm"
        self.assertEqual(
            self.asked.with_name("asked.report").read_text(), f"1 text report.txt --lines {lines}\n"
        )
        # A package's machine may have no Python.
        report.write_text("#!/no/python\n")
        status, out, err = self.trau(name="demo")
        self.assertEqual((status, err), (0, ""))
        self.assertNotIn("Who was heard", out)

    def test_a_program_by_a_path_from_here(self):
        program = self.path("here", b"#!/bin/sh\necho by here\n")
        program.chmod(0o755)
        status, out, err = self.trau(name="demo", TRAU_PROGRAM="./here")
        self.assertEqual((status, err), (0, ""))
        self.assertIn("by here", out)

    def test_help(self):
        usage = "usage: demo [FOLDER]\n       demo --model [FOLDER]\n       demo --unproved\n"
        for word in ("--help", "-h"):
            self.assertEqual(self.trau(word, name="demo"), (0, usage, ""))

    def test_leaves_no_folder_where_it_fails(self):
        self.built()
        # A limit on the size of files, as a full disk.
        script = 'trap "" XFSZ; ulimit -f 4; exec "$0" "$@"'
        for words in ([], [self.folder / "new"]):
            ended = subprocess.run(
                ["sh", "-c", script, self.top / "demo", *words],
                capture_output=True,
                text=True,
                env=self.surroundings,
                cwd=self.folder,
            )
            self.assertEqual(
                (ended.returncode, ended.stdout, ended.stderr.count("\n")), (2, "", 1), ended.stderr
            )
            self.assertRegex(
                ended.stderr, "^demo: the example lines can't be copied to .*: File too large\n$"
            )
        program = self.path("fails", b"#!/bin/sh\necho line 1 out failed\nexit 6\n")
        program.chmod(0o755)
        status, out, err = self.trau(name="demo", TRAU_PROGRAM=str(program))
        self.assertEqual((status, out), (6, "line 1 out failed\n"))
        self.assertRegex(
            err, "^demo: the run in .* ended with status 6; the folder is removed again\n$"
        )
        status, out, err = self.trau(name="demo", TMPDIR=str(self.folder / "gone"))
        self.assertEqual((status, out, err.count("\n")), (2, "", 1))
        # Standard output is no run: its lines stay, and are named.
        program.write_text("#!/bin/sh\n")
        with open("/dev/full", "w") as full:
            words = [self.top / "demo", self.folder / "a b"]
            surroundings = {**self.surroundings, "TRAU_PROGRAM": str(program)}
            ended = subprocess.run(
                words,
                stdout=full,
                stderr=subprocess.PIPE,
                text=True,
                env=surroundings,
                cwd=self.folder,
            )
        said = f"demo: standard output can't be written; the lines are in {self.folder}/a b\n"
        self.assertEqual((ended.returncode, ended.stderr), (2, said))
        self.assertTrue(
            self.trau("c d", name="demo", TRAU_PROGRAM=str(program))[1].endswith(
                " -c 1 'c d/1.out'\n"
            )
        )
        # Broken off, as by control-C.
        program.write_text("#!/bin/sh\necho begun >&2\nexec sleep 7200\n")
        status, said = self.at_terminal(name="demo", stops_at=b"begun", TRAU_PROGRAM=str(program))
        self.assertEqual(status, 130, said)
        self.assertEqual(
            [path for path in self.folder.iterdir() if path.name.startswith(("trau-demo", "new"))],
            [],
        )

    def test_refused(self):
        for words in (
            ["--unproved", "x"],
            ["--model", "--unproved"],
            ["--model", "a", "b"],
            ["--what"],
            ["a", "b"],
        ):
            status, out, err = self.trau(*words, name="demo")
            self.assertEqual((status, out), (2, ""))
            self.assertIn("usage: demo [FOLDER]", err)
        (self.tools / "rt").unlink()
        missing = "demo: the Rattle toolchain's command rt isn't on the path\n"
        self.assertEqual(self.trau("--unproved", name="demo"), (2, "", missing))


class TheModel(Started):
    """The example by the model, alone and before the program."""

    FIRST = "Four calls are run by the model: the readable second program, in Python (model/README.md); the proved one gives the same octets."
    NONE = "demo: no program is built, and the Rattle toolchain's command rt, which proves and builds it, isn't on the path"
    SAME = "All that went out, and the report, is octet for octet what is recorded in examples/farm/wanted."

    def setUp(self):
        super().setUp()
        shutil.copytree(
            TOP / "model", self.top / "model", ignore=shutil.ignore_patterns("__pycache__", "tests")
        )
        shutil.copytree(
            EXAMPLES / "farm" / "wanted",
            self.top / "examples" / "farm" / "wanted",
            dirs_exist_ok=True,
        )

    def assert_by_the_model(self, out, alone=True):
        """That a demo ran the calls by the model, said so first, said of each call who was heard, and last how to listen."""
        lines = out.splitlines()
        self.assertEqual(lines[0], self.FIRST)
        self.assertEqual(
            [line[:8] for line in lines if re.match(r"call \d: .* speech \d+, lost \d+", line)],
            [f"call {k}: " for k in range(1, 5)],
        )
        (listen,) = (
            number
            for number, line in enumerate(lines)
            if line.startswith("To listen to what call 1 sends to the exchange: play ")
        )
        self.assertEqual(lines[listen - 1], self.SAME)
        self.assertEqual(listen == len(lines) - 1, alone)

    def test_where_there_is_no_toolchain(self):
        (self.tools / "rt").unlink()
        status, out, err = self.trau(name="demo")
        self.assertEqual((status, err), (0, f"{self.NONE}\n"))
        self.assert_by_the_model(out)

    def test_where_it_is_asked_for(self):
        for words, changes in ((["--model", "new"], {}), ([], {"TRAU_PROGRAM": "model"})):
            status, out, err = self.trau(*words, name="demo", **changes)
            self.assertEqual((status, err), (0, ""))
            self.assert_by_the_model(out)
            self.assertFalse(self.asked.exists())
        self.assertEqual(
            (self.folder / "new" / "1.out").read_bytes(),
            (EXAMPLES / "farm" / "wanted" / "1.out").read_bytes(),
        )
        self.built()
        self.assert_by_the_model(self.trau("--model", name="demo")[1])

    def runs(self, script):
        """A program that runs this script in the folder of its run, after it has written the recorded answers there."""
        program = self.path(
            "program", f"#!/bin/sh\ncp {TOP}/examples/farm/wanted/*.* .\n{script}\n".encode()
        )
        program.chmod(0o755)
        return {"TRAU_PROGRAM": str(program)}

    def test_the_program_runs_the_same_calls(self):
        program = self.runs(f"exec cat {TOP}/examples/farm/wanted/report.txt")
        status, out, err = self.trau("new", name="demo", **program)
        self.assertEqual((status, err), (0, ""))
        self.assert_by_the_model(out, alone=False)
        same = "The program that TRAU_PROGRAM names ran the same calls, in new/program, and gave the same octets"
        self.assertEqual(out.splitlines()[-1], f"{same}: all lines that went out, and the report.")

    def test_where_the_programs_differ(self):
        wanted = TOP / "examples" / "farm" / "wanted"
        program = self.runs(f"echo >>1.out; rm 2.down; exec cat {wanted}/report.txt")
        status, out, err = self.trau(name="demo", **program)
        self.assertEqual((status, err), (1, ""))
        self.assertTrue(out.endswith(" and gave other octets than the model: 1.out 2.down\n"), out)

    def test_the_model_comes_before_the_proof(self):
        # The stand-in for the program writes no lines.
        status, out, err = self.trau("new", name="demo")
        self.assertEqual(
            (status, err.count("now the program itself is proved and built")), (1, 1), err
        )
        self.assertIn("trau: proved and built: 4 crates", err)
        self.assert_by_the_model(out, alone=False)
        self.assertIn(
            "\nThe proved program ran the same calls, in new/program, and gave other octets than the model: 1.down 1.out ",
            out,
        )
        # Once it is built, nothing is said of that.
        self.assertEqual(self.trau("again", name="demo")[2], "")

    def test_what_is_left_of_a_proof_that_fails(self):
        status, out, err = self.trau("new", name="demo", FAILS="proof")
        self.assertEqual(status, 125)
        self.assertIn("fn high::f: not proved", err)
        self.assert_by_the_model(out + "\n", alone=False)
        self.assertTrue((self.folder / "new" / "1.out").exists())
        self.assertFalse((self.folder / "new" / "program").exists())
        status, _, err = self.trau("again", name="demo", **self.runs("exit 6"))
        self.assertEqual(
            (status, err),
            (
                6,
                "demo: the run in again/program ended with status 6; the folder is removed again\n",
            ),
        )
        self.assertEqual(
            sorted(path.name for path in (self.folder / "again").iterdir() if path.is_dir()), []
        )

    def test_by_the_script(self):
        shutil.copy(EXAMPLES / "7.up", self.folder)
        self.assertEqual(
            self.trau("relay", "7", TRAU_PROGRAM="model"), (0, "relay frames 312\n", "")
        )
        note = "trau: this is the model in Python, which TRAU_PROGRAM names: unproved and slow\n"
        self.assertEqual(
            self.at_terminal("relay", "7", TRAU_PROGRAM="model"), (0, f"{note}relay frames 312\n")
        )
        said = "program: the model in Python, unproved and slow, which TRAU_PROGRAM names"
        self.assertEqual(self.trau("--version", TRAU_PROGRAM="model")[1].splitlines()[1], said)
        (self.tools / "rt").unlink()
        self.assertTrue(
            self.trau("run")[2].endswith(
                "; TRAU_PROGRAM=model starts the model, unproved and slow\n"
            )
        )

    def test_where_it_cant_be_started(self):
        (self.tools / "python3").unlink()
        (self.tools / "python3").write_text("#!/bin/sh\nexit 1\n")
        (self.tools / "python3").chmod(0o755)
        said = "the model needs python3 on the path, 3.9 or later (Debian: apt-get install python3)"
        self.assertEqual(self.trau("--model", name="demo"), (2, "", f"demo: {said}\n"))
        status, out, err = self.trau(name="demo", **self.runs("echo a report"))
        self.assertEqual((status, err), (0, f"demo: {said}; so the program alone runs the calls\n"))
        self.assertTrue(out.startswith("Four calls were run by the program.\n"), out)
        (self.tools / "rt").unlink()
        self.assertEqual(self.trau(name="demo"), (2, "", f"{self.NONE}, and {said}\n"))
        shutil.rmtree(self.top / "model")
        self.assertEqual(
            self.trau(name="demo"), (2, "", f"{self.NONE}, and there is no model here\n")
        )
        said = "trau: TRAU_PROGRAM is 'model', and no program is there\n"
        self.assertEqual(self.trau("relay", "7", TRAU_PROGRAM="model"), (125, "", said))

    def test_a_package_has_none(self):
        shutil.rmtree(self.top / "model")
        program = self.top / "trau_program"
        program.write_text("#!/bin/sh\necho the package\n")
        program.chmod(0o755)
        said = "demo: --model is of a clone; demo without it runs the package's program\n"
        self.assertEqual(self.trau("--model", name="demo"), (2, "", said))
        self.assertTrue(
            self.trau(name="demo", TRAU_PROGRAM="model")[1].startswith(
                "Four calls were run by the program.\n"
            )
        )


if __name__ == "__main__":
    unittest.main()
