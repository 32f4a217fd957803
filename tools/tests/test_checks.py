"""Tests of what the gate says of its own checks: the last line, what is skipped and when that is a failure, and the packages that it installs,
with stand-ins for Debian's commands."""

import contextlib
import importlib.machinery
import importlib.util
import io
import os
import re
import shutil
import subprocess
import unittest
from unittest import mock

from support import PLAIN_PATH, TOP, InFolder

CHECKS = TOP / "checks"
LISTED = [
    line.split()[0]
    for line in (CHECKS / "packages.txt").read_text().splitlines()
    if not line.startswith("#")
]
# A test with --long may want what isn't listed; and what Debian always has needn't be.
BESIDE = {"chromium", "dpkg"}
# What a test or a script says that it skips for want of, and the words of it that are no packages.
SKIP = re.compile(
    r"""(?:\bskip(?:Unless|If|Test)\(.*?"|echo "skipped [^:\n]*: )([^"\n]*) isn't installed"""
)
WORDS = {"or", "no", "is", "built", "library"}

DPKG_QUERY = """#!/bin/sh
for word; do
    ! grep -qx "$word" installed || echo "installed $word"
done
"""
APT_GET = """#!/bin/sh
echo "$@" >>asked
[ ! -e broken ] || { echo "E: no network"; exit 100; }
case "$*" in
*install*) for word; do case $word in sox | black) echo "$word" >>installed ;; esac; done ;;
esac
"""


def load():
    """The program checks/all as a module."""
    loader = importlib.machinery.SourceFileLoader("checks_all", str(CHECKS / "all"))
    module = importlib.util.module_from_spec(importlib.util.spec_from_loader("checks_all", loader))
    loader.exec_module(module)
    return module


ALL = load()


class TheEnd(unittest.TestCase):
    SAID = "ok a: 3 tests\nskipped a: python3-dpkt isn't installed (2)\nskipped a: no terminal: none (1)\n"

    def end(self, is_ci, *ended, left_out=None):
        """The number of failures, and the last lines."""
        out = io.StringIO()
        with contextlib.redirect_stdout(out), mock.patch.object(ALL, "IS_CI", is_ci):
            failures = ALL.say_end(ended, left_out)
        return failures, out.getvalue().splitlines()

    def test_skips(self):
        ended = ALL.Ended("checks/tools.sh", 1.0, 0, self.SAID)
        failures, lines = self.end(False, ended)
        self.assertEqual(
            (failures, lines[0], lines[-1]), (0, "== skipped: 2", "1 passed, 0 failed")
        )
        self.assertIn("skipped checks/tools.sh: a: python3-dpkt isn't installed (2)", lines)
        failures, lines = self.end(True, ended)
        self.assertEqual((failures, lines[-1]), (1, "1 passed, 1 failed"))
        self.assertIn("FAILED checks/tools.sh: a: python3-dpkt isn't installed (2)", lines)
        self.assertIn("skipped checks/tools.sh: a: no terminal: none (1)", lines)
        self.assertIn("== checks that failed: checks/tools.sh", lines)

    def test_failures(self):
        ended = [
            ALL.Ended("checks/a.sh", 1.0, 0, "ok one\nok two\n"),
            ALL.Ended("checks/b.sh", 1.0, 1, "FAILED three\nok four\nFAILED five\n"),
            ALL.Ended("checks/c.sh", 1.0, 2, "no program\n"),
        ]
        failures, lines = self.end(False, *ended, left_out="the proofs")
        self.assertEqual((failures, lines[-1]), (3, "3 passed, 3 failed"))
        self.assertIn("== checks that failed: checks/b.sh checks/c.sh", lines)
        self.assertIn("== left out: the proofs", lines)
        for command in ALL.LONG:
            self.assertIn(command, lines)
            self.assertTrue((TOP / command.split()[0]).exists())


class Skips(InFolder):
    SAID = """test_a (test_x.A.test_a) ... skipped "python3-dpkt isn't installed"
test_b (test_x.A.test_b)
What it is. ... skipped "python3-dpkt isn't installed"
test_c (test_x.A.test_c) ... a word of the test
skipped 'no terminal'
test_d (test_x.A.test_d) ... ok
"""

    def test_what_is_said_of_them(self):
        self.path("said", self.SAID.encode())
        words = ["bash", "-c", f". {CHECKS}/path; say_skipped test_x said"]
        ended = subprocess.run(words, cwd=self.folder, capture_output=True, text=True)
        said = "skipped test_x: no terminal (1)\nskipped test_x: python3-dpkt isn't installed (2)\n"
        self.assertEqual(
            (ended.returncode, "".join(sorted(ended.stdout.splitlines(True)))),
            (0, said),
            ended.stderr,
        )

    def test_each_reason_names_a_package(self):
        for path in [*TOP.glob("*/tests/*.py"), *CHECKS.glob("*.sh")]:
            if path.name == "test_checks.py":
                continue
            for reason in SKIP.findall(path.read_text()):
                names = set(re.findall(r"[a-z][a-z0-9.+-]+", reason)) - WORDS
                self.assertLessEqual(names, {*LISTED, *BESIDE}, path.name)


class Packages(InFolder):
    def said(self, user, **changes):
        """The status and the output of checks/packages on a machine with these commands, for a user of this number."""
        for name, text in (
            ("dpkg-query", DPKG_QUERY),
            ("apt-get", APT_GET),
            ("id", f"#!/bin/sh\necho {user}\n"),
            ("sleep", "#!/bin/sh\n"),
        ):
            self.path(name, text.encode()).chmod(0o755)
        (self.folder / "checks").mkdir(exist_ok=True)
        (self.folder / "checks" / "packages").write_text((CHECKS / "packages").read_text())
        (self.folder / "checks" / "packages.txt").write_text(
            "# A list.\nsox   # sounds\nbash\nblack # layout\n"
        )
        surroundings = {
            "PATH": f"{self.folder}:{PLAIN_PATH}",
            "TMPDIR": str(self.folder),
            **changes,
        }
        ended = subprocess.run(
            ["sh", "checks/packages"],
            cwd=self.folder,
            env=surroundings,
            capture_output=True,
            text=True,
        )
        return ended.returncode, ended.stdout.splitlines()

    def asked(self):
        """What apt-get was asked for."""
        path = self.folder / "asked"
        return path.read_text().splitlines() if path.exists() else []

    def test_nothing_is_missing(self):
        self.path("installed", b"sox\nbash\nblack\n")
        self.assertEqual(self.said(0), (0, ["ok packages: all of checks/packages.txt"]))
        self.assertEqual(self.asked(), [])

    def test_a_user_is_told(self):
        self.path("installed", b"bash\n")
        command = "apt-get install --no-install-recommends sox black (as root)"
        self.assertEqual(
            self.said(1000),
            (1, [f"checks/packages: this installs what the checks lack: {command}"]),
        )
        self.assertEqual(self.asked(), [])

    def test_root_installs(self):
        self.path("installed", b"bash\n")
        wanted = ["checks/packages: installs sox black", "ok packages: all of checks/packages.txt"]
        self.assertEqual(self.said(0), (0, wanted))
        update, install = self.asked()
        self.assertTrue(update.endswith(" update"))
        self.assertTrue(install.endswith(" --no-install-recommends install sox black"), install)
        for words in (update, install):
            self.assertIn("DPkg::Lock::Timeout=600", words)
            self.assertNotIn("unsafe", words)
        self.path("installed", b"bash\n")
        self.assertEqual(self.said(0, CI="true")[0], 0)
        self.assertIn("--force-unsafe-io", self.asked()[-1])

    def test_no_network(self):
        self.path("installed", b"bash\n")
        self.path("broken", b"")
        status, said = self.said(0)
        self.assertEqual((status, len(self.asked())), (1, 3))
        self.assertEqual(
            said[1:3], ["E: no network", "checks/packages: couldn't install sox black"]
        )


class PythonPrograms(InFolder):
    @unittest.skipUnless(shutil.which("mypy"), "mypy isn't installed")
    def test_setuptools_without_types(self):
        cache = str(self.folder / "cache")
        words = ["mypy", "--no-site-packages", "--cache-dir", cache, "setup.py"]
        ended = subprocess.run(words, cwd=TOP, capture_output=True, text=True)
        self.assertEqual((ended.returncode, ended.stderr), (0, ""), ended.stdout)

    def test_git_fails(self):
        words = ["bash", CHECKS / "python.sh"]
        elsewhere = {**os.environ, "GIT_DIR": str(self.folder / "gone")}
        ended = subprocess.run(words, env=elsewhere, capture_output=True, text=True)
        self.assertEqual((ended.returncode, ended.stdout), (128, ""))
        self.assertIn("fatal: not a git repository", ended.stderr)


class TheList(unittest.TestCase):
    def test_names(self):
        self.assertEqual(len(LISTED), len(set(LISTED)))
        for name in LISTED:
            self.assertRegex(name, r"^[a-z0-9][a-z0-9.+-]+$")

    def test_a_plain_rt_ci_comes_first(self):
        """Nothing but `cd` and `set` comes before it."""
        lines = [
            line
            for line in (TOP / ".ci" / "run").read_text().splitlines()
            if line and not line.startswith("#")
        ]
        before = lines[: lines.index("rt ci")]
        self.assertEqual({line.split()[0] for line in before}, {"set", "cd"})
        self.assertTrue(os.access(TOP / ".ci" / "run", os.X_OK))


if __name__ == "__main__":
    unittest.main()
