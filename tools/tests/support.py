"""What the tests of the tools share: the repository's folders, a tool's run, a folder of its own for each test, and
the frames of a downlink."""

import contextlib
import io
import os
import shutil
import subprocess
import sys
import tempfile
import unittest
from pathlib import Path

TOOLS = Path(__file__).resolve().parents[1]
TOP = TOOLS.parent
EXAMPLES = TOP / "examples"
CODEC = TOP / "checks" / "vectors"
DATA = TOOLS / "tests" / "data"


from trau.rules.search import FRAME_OF_DOWNLINK

# Under a limit on the size of files, as some tests set it, Python would keep a part of what it compiles, and every later start would read it.
os.environ["PYTHONDONTWRITEBYTECODE"] = "1"

# The system's commands, without the toolchain and without anything that is installed by hand.
PLAIN_PATH = "/usr/bin:/bin"


def has_locks():
    """Whether flock tells that another process has locked a folder."""
    with tempfile.TemporaryDirectory() as folder:
        words = ["flock", "-n", "-E", "75", folder]
        found = shutil.which("flock", path=PLAIN_PATH)
        return (
            found is not None
            and subprocess.run([*words, *words, "true"], stderr=subprocess.DEVNULL).returncode == 75
        )


HAS_LOCKS = has_locks()


def is_program(name):
    """Whether this is a built program; the model is a script."""
    return os.access(name, os.X_OK) and Path(name).read_bytes().startswith(b"\x7fELF")


def frames_of_downlink(bits):
    """The frames of a downlink, wherever they begin, each with its time bits where it has them."""
    return (found.group() for found in FRAME_OF_DOWNLINK.finditer(bits))


def put_python(folder):
    """Puts the Python of these tests into a folder of a path, as python3: the system's may be missing, or an old one."""
    (folder / "python3").symlink_to(sys.executable)


class InFolder(unittest.TestCase):
    """A test with an empty folder of its own."""

    def setUp(self):
        folder = tempfile.TemporaryDirectory()
        self.addCleanup(folder.cleanup)
        # Without links, as the tools name it.
        self.folder = Path(folder.name).resolve()

    def path(self, name, content=None):
        """A file of the folder, with this content if any."""
        path = self.folder / name
        if content is not None:
            path.write_bytes(content)
        return path

    def run_tool(self, main, *words):
        """The status of a tool, and what it said on standard output and standard error."""
        out, err = io.StringIO(), io.StringIO()
        with contextlib.redirect_stdout(out), contextlib.redirect_stderr(err):
            try:
                status = main([str(word) for word in words])
            except SystemExit as end:
                status = end.code
        return status, out.getvalue(), err.getvalue()

    def assert_refused(self, main, words, part):
        """The tool has status 2, says one line with this part on standard error, and changes no file."""
        before = {path: path.read_bytes() for path in self.folder.iterdir() if path.is_file()}
        status, out, err = self.run_tool(main, *words)
        self.assertEqual((status, out), (2, ""), err)
        self.assertIn(part, err)
        self.assertEqual((err.count("\n"), err[-1]), (1, "\n"), err)
        after = {path: path.read_bytes() for path in self.folder.iterdir() if path.is_file()}
        self.assertEqual(before, after)
