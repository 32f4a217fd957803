"""Tests of how tools end where standard output or a disk fails: one line on standard error, status 2, and no traceback."""

import contextlib
import io
import os
import resource
import shlex
import shutil
import signal
import subprocess
import sys
import unittest
from concurrent.futures import ThreadPoolExecutor
from pathlib import Path
from unittest import mock

from support import DATA, PLAIN_PATH, TOOLS, TOP, InFolder
from test_timeline import lay

from trau import programs
from trau.command_line import ends as tool_ends
from trau.command_line.words import Refusal

COMMANDS = ("lines.py", "orders.py", "report.py", "shard.py", "timeline.py", "watch.py")

# Each tool with words for which it prints on standard output; {} is a folder with a run.
PRINTS = (
    "lines.py idle 1 {}/7.pcm",
    "lines.py idle 1000 -",
    "lines.py look {}/1.up",
    "lines.py frames {}/1.up",
    "lines.py --help",
    "orders.py check {}/orders.txt",
    "orders.py strip {}/orders.txt",
    "report.py text {}/report.txt",
    "report.py losses {}",
    "report.py compare {} {}",
    "report.py compare {}/1.up {}/1.up",
    "report.py --help",
    "timeline.py {} {}/run.svg",
    "watch.py {} --once",
    "shard.py cut {} {}/cut --parts 2",
    "trau_words.py man",
    "package --help",
)


def limited(octets):
    """Lets no file of the process that begins grow beyond so many octets, as a disk that is full there."""
    return lambda: resource.setrlimit(resource.RLIMIT_FSIZE, (octets, octets))


class Ends(InFolder):
    def setUp(self):
        super().setUp()
        lay("mixed", self.folder)

    def words(self, line):
        tool, *words = shlex.split(line.replace("{}", shlex.quote(str(self.folder))))
        return [sys.executable, str(TOOLS / tool), *words]

    def assert_one_line(self, line, ended):
        tool = line.split()[0]
        self.assertEqual((ended.returncode, ended.stderr.count("\n")), (2, 1), (line, ended.stderr))
        self.assertTrue(ended.stderr.startswith(f"{tool}: "), ended.stderr)

    def assert_all_end(self, wanted, output=None, before=()):
        """Each tool with its standard output at a file, or with words before it, ends with one line that says this."""

        def end(line):
            words = [*before, *self.words(line)]
            return subprocess.run(words, stdout=output, stderr=subprocess.PIPE, text=True)

        with ThreadPoolExecutor(4) as pool:
            for line, ended in zip(PRINTS, pool.map(end, PRINTS)):
                self.assert_one_line(line, ended)
                self.assertIn(wanted, ended.stderr)

    def test_full(self):
        with open("/dev/full", "w") as full:
            self.assert_all_end("standard output: No space left on device", full)

    def test_broken(self):
        reads, writes = os.pipe()
        os.close(reads)
        self.assert_all_end("standard output: Broken pipe", writes)
        os.close(writes)

    def test_closed(self):
        before = sorted(self.folder.iterdir())
        self.assert_all_end("standard output is closed", before=["sh", "-c", 'exec "$@" >&-', "sh"])
        self.assertEqual(before, sorted(self.folder.iterdir()))

    def test_head(self):
        # More text than a pipe holds, so that head ends first.
        self.path("many.txt", b"0 open x\n" * 50_000)
        lined = f"{shlex.join(self.words('orders.py check {}/many.txt'))} | head -n 1"
        ended = subprocess.run(["sh", "-c", lined], capture_output=True, text=True)
        self.assertEqual(ended.stdout.count("\n"), 1)
        self.assertEqual(ended.stderr, "orders.py: standard output: Broken pipe\n")

    def test_other_streams_that_are_closed(self):
        for closed, line, wanted in (
            ("<&-", "lines.py uplink - {}/9.up", "lines.py: standard input is closed\n"),
            ("<&-", "orders.py check -", "orders.py: standard input is closed\n"),
        ):
            ended = subprocess.run(
                ["sh", "-c", f'exec "$@" {closed}', "sh", *self.words(line)],
                capture_output=True,
                text=True,
            )
            self.assertEqual((ended.returncode, ended.stdout, ended.stderr), (2, "", wanted))
        # What would go to a closed standard error doesn't go to standard output.
        for line in ("report.py text {}/gone", "report.py text"):
            ended = subprocess.run(
                ["sh", "-c", 'exec "$@" 2>&-', "sh", *self.words(line)],
                capture_output=True,
                text=True,
            )
            self.assertEqual((ended.returncode, ended.stdout, ended.stderr), (2, "", ""))

    def test_status_1_of_compare_says_that_runs_differ(self):
        other = self.folder / "other"
        other.mkdir()
        lay("clean", other)
        words = self.words("report.py compare {} {}/other")
        self.assertEqual(subprocess.run(words, capture_output=True).returncode, 1)
        with open("/dev/full", "w") as full:
            ended = subprocess.run(words, stdout=full, stderr=subprocess.PIPE, text=True)
        self.assert_one_line("report.py", ended)

    def test_a_full_disk(self):
        wanted = ": File too large\n"
        for line, octets, name in (
            (f"lines.py uplink {DATA}/speech.gsm {{}}/9.up", 100, "9.up"),
            (f"lines.py unpack {DATA}/osmo.pcap {{}}/calls", 100, "calls"),
            ("timeline.py {} {}/run.svg", 100, "run.svg"),
            ("orders.py strip {}/orders.txt {}/stripped.txt", 100, "stripped.txt"),
            ("shard.py cut {} {}/cut --parts 2", 10, "cut/0/orders.txt"),
            ("shard.py cut {} {}/cut --parts 2", 400, "cut/0/run.sh"),
            ("shard.py cut {} {}/cut --parts 1 --copy", 2000, r"cut/0/\d\.(?:up|pcm)"),
        ):
            ended = subprocess.run(
                self.words(line), capture_output=True, text=True, preexec_fn=limited(octets)
            )
            self.assert_one_line(line, ended)
            self.assertRegex(ended.stderr, f"^{line.split()[0]}: {self.folder}/{name}{wanted}$")
            self.assertFalse((self.folder / name.split("/")[0]).exists())

    def test_names_that_are_no_text(self):
        name = os.fsencode(self.folder) + b"/\xff.gsm"
        Path(os.fsdecode(name)).write_bytes(bytes(7))
        for streams in ({}, {"PYTHONIOENCODING": "ascii"}):
            ended = subprocess.run(
                [sys.executable, TOOLS / "lines.py", "look", name],
                capture_output=True,
                env={**os.environ, **streams},
            )
            self.assertEqual((ended.returncode, ended.stderr), (0, b""))

    def installed(self, tool, *words):
        """The status, standard output and standard error of a tool that is started by the name that it is installed with."""
        name = self.folder / f"trau-{Path(tool).stem}"
        name.symlink_to(TOOLS / tool)
        ended = subprocess.run(
            [name, *words], input="# a call\n", capture_output=True, text=True, cwd=self.folder
        )
        name.unlink()
        return ended.returncode, ended.stdout, ended.stderr

    def test_names_that_tools_are_installed_with(self):
        shutil.copy(DATA / "speech.gsm", self.path("lines.py"))
        said = "lines.py: 40 frames of libgsm; trau-lines uplink lines.py NEW.up\n"
        self.assertEqual(self.installed("lines.py", "look", "lines.py"), (0, said, ""))
        said = "1.up: is an uplink; trau-lines listen 1.up NEW.wav makes sound of it, and trau relay a downlink, if no frame is lost\n"
        self.assertEqual(
            self.installed("lines.py", "gsm", "1.up", "1.gsm"), (2, "", f"trau-lines: {said}")
        )
        said = "trau-lines: lines.py: is 40 frames of libgsm, and no A-law; trau-lines uplink lines.py NEW.up\n"
        self.assertEqual(
            self.installed("lines.py", "pcm", "lines.py", "7.pcm", "--raw"), (2, "", said)
        )
        status, said, _ = self.installed("orders.py", "check", "-")
        self.assertEqual(
            (status, said.split("\n")[0]),
            (1, "line 1: a comment; trau-orders strip leaves out comments and empty lines"),
        )
        self.assertIn(
            "\nexample: trau-report text report.txt --json\n",
            self.installed("report.py", "--help")[1],
        )
        self.assertEqual(
            self.installed("../gateway/gateway.py", "--help")[1][:38],
            "usage: trau-gateway [-h] run|check ...",
        )
        status, said, err = self.installed("../gateway/gateway.py", "what")
        self.assertEqual((status, said, err[:36]), (2, "", "trau-gateway: argument run|check: in"))
        said = "trau-watch: none: no run in this folder: there is no orders.txt\n"
        self.assertEqual(self.installed("watch.py", "none"), (1, "", said))

    def test_the_second_program(self):
        words = [sys.executable, TOOLS / "build_for.py"]
        ended = subprocess.run([*words, "--help"], capture_output=True, text=True)
        self.assertEqual((ended.returncode, ended.stderr), (0, ""))
        self.assertTrue(
            ended.stdout.startswith("usage: build_for.py [-h] TOP CRATE KIND\n"), ended.stdout
        )
        surroundings = {**os.environ, "PATH": PLAIN_PATH}
        ended = subprocess.run(
            [*words, ".", "trau_program", "x86-64-v3"],
            capture_output=True,
            text=True,
            env=surroundings,
        )
        said = "build_for.py: the Rattle toolchain's command rt isn't on the path\n"
        self.assertEqual((ended.returncode, ended.stdout, ended.stderr), (2, "", said))

    def test_what_nobody_foresaw(self):
        @tool_ends.tool("a tool")
        def main(words):
            print("begun")
            return {}[words[0]]

        status, out, err = self.run_tool(main, "missing")
        self.assertEqual((status, out), (tool_ends.UNFORESEEN, "begun\n"))
        self.assertRegex(err, r"^Traceback (?s:.*)\nKeyError: 'missing'\n$")
        # It isn't hidden by standard output that fails too.
        script = "import sys\nfrom trau.command_line import ends\n@ends.tool('a tool')\ndef main(words):\n    print()\n    1 / 0\nsys.exit(main([]))\n"
        with open("/dev/full", "w") as full:
            surroundings = {**os.environ, "PYTHONPATH": str(TOP / "python"), "PYTHONUNBUFFERED": ""}
            ended = subprocess.run(
                [sys.executable, "-c", script],
                stdout=full,
                stderr=subprocess.PIPE,
                text=True,
                env=surroundings,
            )
        self.assertEqual(
            (ended.returncode, ended.stderr.splitlines()[-1]),
            (70, "ZeroDivisionError: division by zero"),
        )

    def test_what_nobody_foresaw_while_a_tool_loads(self):
        broken = self.path("broken")
        broken.mkdir()
        (broken / "argparse.py").write_text("1 / 0\n")
        surroundings = {**os.environ, "PYTHONPATH": str(broken)}
        for tool in (*COMMANDS, "../gateway/gateway.py"):
            ended = subprocess.run(
                [sys.executable, TOOLS / tool, "--help"],
                capture_output=True,
                text=True,
                env=surroundings,
            )
            self.assertEqual(
                (ended.returncode, ended.stdout, ended.stderr.count("ZeroDivisionError")),
                (70, "", 1),
                (tool, ended.stderr),
            )

    def test_an_interrupt_while_a_tool_loads(self):
        # A module of the tool that takes long to load, in place of the standard library's.
        late = self.path("late")
        late.mkdir()
        (late / "argparse.py").write_text(
            "import time\nprint('loads', flush=True)\ntime.sleep(60)\n"
        )
        for tool in COMMANDS:
            loading = subprocess.Popen(
                [sys.executable, TOOLS / tool, "--help"],
                env={**os.environ, "PYTHONPATH": str(late)},
                stdout=subprocess.PIPE,
                stderr=subprocess.PIPE,
                preexec_fn=lambda: signal.signal(signal.SIGINT, signal.SIG_DFL),
            )
            self.assertEqual(loading.stdout.readline(), b"loads\n")
            loading.send_signal(signal.SIGINT)
            self.assertEqual(
                (loading.communicate()[1], loading.returncode), (b"", -signal.SIGINT), tool
            )

    def test_a_replaced_file_keeps_its_mode(self):
        line, sound = self.folder / "1.out", self.path("1.wav", b"older")
        for mode in (0o600, 0o640, 0o444):
            sound.chmod(mode)
            ended = subprocess.run(
                self.words(f"lines.py sound {line} {sound}"), capture_output=True
            )
            self.assertEqual((ended.returncode, sound.stat().st_mode & 0o777), (0, mode))
            self.assertEqual(sound.read_bytes()[:4], b"RIFF")

    def test_control_characters_of_words(self):
        for words in ("lines.py look x --a\nb", "report.py text a\x1bb c", "lines.py a\x1b[2Jb"):
            words = self.words(shlex.join(words.split(" ")))
            ended = subprocess.run(words, capture_output=True, text=True)
            self.assertEqual((ended.returncode, ended.stderr.count("\n")), (2, 1), ended.stderr)
            self.assertNotIn("\x1b", ended.stderr)

    def test_several_things_of_which_one_is_refused(self):
        done = []

        def does(item):
            if isinstance(item, Exception):
                raise item
            done.append(item)

        for items, status, lines in (
            ((1, 2), 0, 0),
            ((Refusal("no"), 3, MemoryError(), 4), 2, 2),
            ((OSError(5, "bad", "x"), 5), 2, 1),
            ((ValueError("unforeseen"), Refusal("no"), 6), 70, None),
        ):
            said = io.StringIO()
            with contextlib.redirect_stderr(said):
                self.assertEqual(tool_ends.for_each("lines.py", items, does), status)
            if lines is not None:
                self.assertEqual(said.getvalue().count("\n"), lines)
        self.assertEqual(done, [1, 2, 3, 4, 5, 6])
        with self.assertRaises(BrokenPipeError):  # standard output
            tool_ends.for_each("lines.py", [BrokenPipeError()], does)

    def test_an_interrupt_at_a_program_s_edges(self):
        with mock.patch.object(programs.importlib, "import_module") as module:
            module.return_value.main.side_effect = KeyboardInterrupt
            self.assertEqual(programs.started("recordings.lines"), 130)

    def test_an_interrupt(self):
        self.path("report.txt", b"")
        # A shell without job control starts what it puts into the background with interrupts left aside.
        watching = subprocess.Popen(
            self.words("watch.py {} --plain --patience 1000000"),
            stdout=subprocess.PIPE,
            stderr=subprocess.PIPE,
            preexec_fn=lambda: signal.signal(signal.SIGINT, signal.SIG_DFL),
        )
        watching.stdout.readline()
        watching.send_signal(2)
        self.assertEqual((watching.wait(), watching.stderr.read()), (130, b""))
        watching.stdout.close()
        watching.stderr.close()


if __name__ == "__main__":
    unittest.main()
