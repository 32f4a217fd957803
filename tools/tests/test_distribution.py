"""What pip installs of this clone: the commands of pyproject.toml, and each file of the Python package.
And that no module of the package edits sys.path."""

import importlib.util
import os
import re
import subprocess
import sys
import tarfile
import tempfile
import unittest
from pathlib import Path

from support import EXAMPLES, TOP, InFolder

from trau import programs
from trau.packing import trau_deb, trau_package

COMMANDS = trau_package.COMMANDS
HAS_PIP = all(map(importlib.util.find_spec, ("ensurepip", "setuptools", "wheel")))
# The environment of a user, to whom the clone means nothing.
PLAIN = {name: value for name, value in os.environ.items() if not name.startswith("PYTHON")}
# The folders of small program files, which find the package by sys.path.
PROGRAMS = ("tools", "model", "suite", "gateway", "clib/examples", "bench")
# What setuptools leaves where nobody tells it otherwise.
LEFT = (TOP / "build", TOP / "dist", TOP / "python" / "trau.egg-info")


def run(*words, **more):
    """A command that has ended, and what it printed."""
    return subprocess.run(words, capture_output=True, text=True, **{"env": PLAIN, **more})


def files_of_package():
    """The files that git knows below python/trau, by their paths below python."""
    return trau_package.git("-C", "python", "ls-files", "trau").splitlines()


class Metadata(unittest.TestCase):
    def test_the_commands_are_those_of_the_packages(self):
        table = (TOP / "pyproject.toml").read_text().partition("[project.scripts]\n")[2]
        found = re.findall(r'^(.+) = "(.+)"$', table.partition("\n\n")[0], re.M)
        wanted = [(command, f"trau.programs:{name}") for command, name in COMMANDS.items()]
        self.assertEqual(found, wanted)
        for name in programs.COMMANDS:
            self.assertTrue(callable(getattr(programs, name)), name)

    def test_an_old_setuptools(self):
        with tempfile.TemporaryDirectory() as folder:
            Path(folder, "setuptools.py").write_text('__version__ = "52.0.0"\n')
            words = [sys.executable, TOP / "setup.py", "--version"]
            ended = run(*words, cwd=TOP, env={**PLAIN, "PYTHONPATH": folder})
        said = "trau: setuptools 61 or later is needed, and 52.0.0 is here\n"
        self.assertEqual((ended.returncode, ended.stdout, ended.stderr), (1, "", said))


class ThePath(unittest.TestCase):
    def test_only_programs_of_the_clone_edit_it(self):
        names = trau_package.git("ls-files", "*.py", *PROGRAMS).splitlines()
        texts = {name: (TOP / name).read_text(errors="replace") for name in names}
        editing = {name for name, text in texts.items() if re.search(r"\bsys\.path\b", text)}
        self.assertIn("tools/lines.py", editing)
        elsewhere = {
            name
            for name in editing
            if "/tests/" not in name and os.path.dirname(name) not in PROGRAMS
        }
        self.assertEqual(elsewhere, set())


@unittest.skipUnless(HAS_PIP, "python3-venv, python3-setuptools or python3-wheel isn't installed")
class Installed(InFolder):
    @classmethod
    def setUpClass(cls):
        folder = tempfile.TemporaryDirectory()
        cls.addClassCleanup(folder.cleanup)
        cls.home = Path(folder.name) / "venv"
        cls.left = [path for path in LEFT if path.exists()]
        made = run(sys.executable, "-m", "venv", "--system-site-packages", cls.home)
        assert made.returncode == 0, made
        words = ["--no-build-isolation", "--no-deps", "--no-index", "--quiet", str(TOP)]
        installed = run(cls.home / "bin" / "python3", "-m", "pip", "install", *words)
        assert installed.returncode == 0, installed

    def run_command(self, name, *words, **more):
        """A command of the package, started in the test's folder."""
        return run(self.home / "bin" / name, *words, cwd=self.folder, **more)

    def test_each_file_of_the_package(self):
        (package,) = self.home.glob("lib/python3*/site-packages/trau")
        found = (path for path in package.rglob("*") if path.is_file() and path.suffix != ".pyc")
        names = sorted(str(path.relative_to(package.parent)) for path in found)
        self.assertEqual(names, files_of_package())

    def test_nothing_is_left_in_the_clone(self):
        self.assertEqual([path for path in LEFT if path.exists()], self.left)

    def test_the_version(self):
        words = "from importlib.metadata import version; print(version('trau'))"
        ended = self.run_command("python3", "-c", words)
        self.assertEqual(ended.stdout, trau_deb.versions()[0][0] + "\n")

    def test_the_commands(self):
        found = {path.name for path in (self.home / "bin").glob("trau*")}
        self.assertEqual(found, set(COMMANDS))
        for name in COMMANDS:
            ended = self.run_command(name, "--help")
            self.assertEqual((ended.returncode, ended.stderr), (0, ""), name)
            self.assertTrue(ended.stdout.startswith(f"usage: {name} "), ended.stdout)

    def test_what_they_write(self):
        self.path("1.up", (EXAMPLES / "7.up").read_bytes())
        self.path("orders.txt", b"0 open 1\n")
        ended = self.run_command("trau-lines", "idle", "312", "1.pcm")
        self.assertEqual((ended.returncode, ended.stdout), (0, "idle periods 312\n"))
        ended = self.run_command("trau-model", "run", input="0 open 1\n")
        self.assertEqual((ended.returncode, ended.stdout[:11]), (0, "order 1 ok\n"))
        self.path("report.txt", ended.stdout.encode())
        ended = self.run_command("trau-report", "text", "report.txt")
        self.assertEqual((ended.returncode, ended.stderr), (0, ""))
        self.assertIn("\ncall 1: ", ended.stdout)
        # The script of the page is a file of the package.
        ended = self.run_command("trau-timeline", ".", "page.html")
        self.assertEqual((ended.returncode, ended.stderr), (0, ""))
        self.assertIn("<script>", (self.folder / "page.html").read_text())

    def test_the_model_refuses_words(self):
        for words in ([], ["relya", "7"], ["--help", "run"]):
            ended = self.run_command("trau-model", *words)
            self.assertEqual((ended.returncode, ended.stdout), (1, "usage\n"))
            self.assertRegex(ended.stderr, r"\Atrau: .*; trau help lists them\n\Z")

    def test_a_source_distribution(self):
        words = "import sys, setuptools.build_meta as made; made.build_sdist(sys.argv[1])"
        ended = run(self.home / "bin" / "python3", "-c", words, self.folder, cwd=TOP)
        self.assertEqual(ended.returncode, 0, ended.stderr)
        (packed,) = self.folder.glob("*.tar.gz")
        with tarfile.open(packed) as tar:
            names = {name.partition("/")[2] for name in tar.getnames()}
        wanted = {f"python/{name}" for name in files_of_package()}
        self.assertLessEqual(wanted | {"setup.py", "pyproject.toml", "docs/CHANGELOG.md"}, names)


if __name__ == "__main__":
    unittest.main()
