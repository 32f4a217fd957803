"""Tests of tools/package and of the script that installs what it makes."""

import gzip
import hashlib
import itertools
import os
import re
import shutil
import socket
import subprocess
import tarfile
import tempfile
import unittest
from pathlib import Path
from typing import NamedTuple
from unittest import mock

from support import EXAMPLES, PLAIN_PATH, TOOLS, TOP, InFolder, is_program, put_python

from trau.packing import man_pages
from trau.packing import trau_deb
from trau.packing import trau_package


# Without TRAU_PROGRAM no program is packed, so that these tests prove nothing. Nor is the model.
HAS_PROGRAM = is_program(os.environ.get("TRAU_PROGRAM", ""))


def is_built(kind):
    """Whether the program for a kind of processor is built."""
    return subprocess.run([TOP / "trau"], env={**os.environ, "TRAU_IS_BUILT": kind}).returncode == 0


def exported(library):
    """The functions that a shared library exports, in their order."""
    words = ["nm", "-D", "--defined-only", "--without-symbol-versions", library]
    said = subprocess.run(words, capture_output=True, text=True, check=True).stdout
    return sorted(re.findall(r" T (\w+)", said))


def even_port():
    """An even port of UDP that nobody has just now."""
    while True:
        with socket.socket(socket.AF_INET, socket.SOCK_DGRAM) as one:
            one.bind(("127.0.0.1", 0))
            if one.getsockname()[1] % 2 == 0:
                return one.getsockname()[1]


def carried(gateway, recording, surroundings):
    """The status of a gateway that carries a call for a second, and what it says on standard error. (Somebody may take a port meanwhile.)"""
    calls = recording.with_suffix(".calls")
    while True:
        shutil.rmtree(recording, ignore_errors=True)
        peer = "127.0.0.1:9"
        calls.write_text(f"open 1 gsm {even_port()} {peer} pcm {even_port()} {peer}\n")
        words = [gateway, "run", recording, "--address", "127.0.0.1", "--seconds", "1"]
        ended = subprocess.run([*words, "--calls", calls], capture_output=True, env=surroundings)
        if b"in use" not in ended.stdout:
            return ended.returncode, ended.stderr


SECOND = f"trau_program.{trau_package.KIND}"
COMMANDS = ("trau", *trau_package.COMMANDS)


class Built(NamedTuple):
    """What is built, and so packed: the C library and the second program."""

    library: bool
    second: bool

    def note(self):
        """What is said on standard error where one program alone is packed."""
        if trau_package.is_given() or self.second:
            return ""
        return f"package: no program for {trau_package.KIND} is built, so none is packed; tools/build.py --both builds it\n"


def what_is_built():
    library = bool(os.environ.get("TRAU_CLIB")) or trau_package.library_is_built()
    return Built(library, not trau_package.is_given() and is_built(trau_package.KIND))


def packed(*words):
    """What tools/package said of a new folder, and what was built then. Other checks build both at the same time; if one was built meanwhile,
    the packages are made once more."""
    folder = words[-1]
    folder.mkdir(exist_ok=True)
    while True:
        before = what_is_built()
        ended = subprocess.run([TOOLS / "package", *words], capture_output=True, text=True)
        if what_is_built() == before:
            assert (ended.returncode, ended.stderr) == (0, before.note()), ended
            return ended.stdout, before
        for path in folder.iterdir():
            path.unlink()


def twice(test):
    """What a test's class made, or what is made anew if more is built by now, and what is made of the same once more."""
    made, built = test.made, test.built
    for number in itertools.count():
        again, then = test.make(test.folder / f"again {number}")
        if then == built:
            return made, again
        made, built = again, then


HAS_LIBRARY = what_is_built().library
with_compiler = unittest.skipUnless(
    HAS_LIBRARY and shutil.which("cc") and shutil.which("pkg-config"),
    "no C library is built, or gcc or pkgconf isn't installed",
)
if not HAS_LIBRARY:
    # Without a compiler tools/package leaves the library out, where it would prove and build it.
    os.environ["CC"] = "/no/compiler"


class Versions(unittest.TestCase):
    def test_the_version_of_pkg_config_is_the_packages(self):
        for library in trau_deb.C_LIBRARIES:
            lines = (TOP / "clib" / f"{library.name}.pc").read_text().splitlines()
            self.assertIn(f"Version: {trau_deb.versions()[0][0]}", lines, library.name)


class Modules(unittest.TestCase):
    def test_all_commands_are_linked(self):
        # `install` links what has a man page, and so does dpkg.
        pages = {f"usr/share/man/man1/{name}.1.gz": b"" for name in COMMANDS}
        wanted = {f"usr/bin/{name}": f"../lib/trau/python/{name}" for name in COMMANDS[1:]}
        wanted["usr/bin/trau"] = "../lib/trau/trau"
        links = trau_deb.links(pages)
        self.assertEqual({name: links[name] for name in links if "/bin/" in name}, wanted)

    def test_what_the_scripts_read_is_packed(self):
        packed = {
            path.name
            for path in TOOLS.iterdir()
            if re.fullmatch(trau_package.FOLDERS["tools"], path.name)
        }
        self.assertLessEqual({"report.py", "orders.py", "help.txt", "pages.txt"}, packed)


@unittest.skipUnless(HAS_PROGRAM, "TRAU_PROGRAM names no built program")
class Package(InFolder):
    @classmethod
    def setUpClass(cls):
        folder = tempfile.TemporaryDirectory()
        cls.addClassCleanup(folder.cleanup)
        cls.made, cls.built = cls.make(Path(folder.name))

    def setUp(self):
        super().setUp()
        self.commands = self.path("commands")
        self.commands.mkdir()
        put_python(self.commands)

    @staticmethod
    def make(folder):
        """The package's file, and what was built then."""
        said, built = packed(folder)
        (made,) = folder.iterdir()
        content = made.read_bytes()
        without = "" if built.library else "package without the C library, which isn't built\n"
        wanted = (
            f"package {made} octets {len(content)} sha256 {hashlib.sha256(content).hexdigest()}\n"
        )
        assert said == without + wanted, said
        return made, built

    def unpack(self):
        """The package's folder."""
        with tarfile.open(self.made) as tar:
            tar.extractall(self.folder)
        return self.folder / self.made.name[: -len(".tar.gz")]

    def said(self, *words, given=b"", folder=None, **changes):
        """The status, standard output and standard error, on a machine without the toolchain."""
        surroundings = {
            "PATH": f"{self.commands}:{PLAIN_PATH}",
            "TMPDIR": str(self.folder),
            **changes,
        }
        ended = subprocess.run(
            words, input=given, capture_output=True, env=surroundings, cwd=folder or self.folder
        )
        return ended.returncode, ended.stdout.decode(), ended.stderr.decode()

    def test_the_same_octets_again(self):
        made, again = twice(self)
        self.assertEqual(made.read_bytes(), again.read_bytes())

    def test_what_is_in_it(self):
        package = self.unpack()
        sums = (package / "SHA256SUMS").read_text().splitlines()
        names = {line[66:] for line in sums}
        there = {str(path.relative_to(package)) for path in package.rglob("*") if path.is_file()}
        self.assertEqual(names | {"SHA256SUMS"}, there)
        for line in sums:
            self.assertEqual(
                hashlib.sha256((package / line[66:]).read_bytes()).hexdigest(), line[:64]
            )
        wanted = (
            "trau_program",
            "man/trau.1",
            "man/trau-lines.1",
            "man/trau-gateway.1",
            "trau.bash",
            "tools/orders.py",
            "examples/farm/orders.txt",
        )
        for name in (
            *wanted,
            "tools/pages.txt",
            "README.md",
            "docs/OPERATORS.md",
            "docs/CHANGELOG.md",
        ):
            self.assertIn(name, names)
        modules = trau_package.git("ls-files", "python/trau").splitlines()
        self.assertEqual(sorted(name for name in names if name.startswith("python/trau/")), modules)
        for name in modules:
            self.assertEqual((package / name).read_bytes(), (TOP / name).read_bytes(), name)
        self.assertEqual(SECOND in names, self.built.second)
        self.assertFalse((package / "crates" / "trau_program").exists())

    @unittest.skipUnless(HAS_LIBRARY, "no C library is built")
    def test_the_library(self):
        package = self.unpack()
        for name in trau_package.LIBRARY_FILES:
            self.assertTrue((package / "clib" / "out" / name).is_file(), name)
        gsm = self.said(package / "clib" / "with", "sh", "-c", "echo $LD_LIBRARY_PATH")
        self.assertEqual(gsm, (0, f"{package}/clib/out/lib/trau-gsm\n", ""))
        down, new = EXAMPLES / "farm" / "wanted" / "2.down", self.folder / "2.wav"
        # Without the program, which the package's own trau doesn't start.
        (package / "trau_program").unlink()
        status, out, err = self.said(package / "tools" / "lines.py", "listen", down, new)
        self.assertEqual((status, err), (0, ""))
        self.assertEqual(
            out, "listen samples 16000 found speech 91 silence 8 idle 0 other 0 outside 324\n"
        )

    def test_the_commands_of_its_readme(self):
        package = self.unpack()
        text = (package / "README.md").read_text().split("## Hear a call")[1]
        block = re.search(r"(?:^    .*\n)+", text, re.M)[0]
        lines = [line[4:] for line in block.splitlines()]
        commands = [line[2:] for line in lines if line.startswith("$ ")]
        wanted = [line for line in lines if not line.startswith("$ ")]
        self.assertEqual((len(commands), len(wanted)), (4, 6))
        ended = self.said("sh", "-ec", "\n".join(commands), folder=package)
        self.assertEqual(ended, (0, "\n".join(wanted) + "\n", ""))

    def test_links_of_its_documents_lead_to_files(self):
        package = self.unpack()
        documents = list(package.rglob("*.md"))
        self.assertGreater(len(documents), 20)
        for document in documents:
            for link in re.findall(r"\]\(([^)#:\s]+)[^):]*\)", document.read_text()):
                self.assertTrue((document.parent / link).is_file(), (document, link))

    def test_from_its_own_folder(self):
        package = self.unpack()
        status, out, err = self.said(package / "trau", "--version")
        self.assertEqual((status, err), (0, ""))
        given = "the one that TRAU_PROGRAM named when it was packed\n"
        self.assertIn("\nprogram: " + (given if trau_package.is_given() else "for x86-64-v"), out)
        self.assertRegex(
            out,
            r"^trau [0-9a-f]+(-changed)? of \d{4}-\d\d-\d\d, " + re.escape(trau_package.origin()),
        )
        status, out, err = self.said(package / "demo")
        self.assertEqual((status, err), (0, ""))
        self.assertIn("octet for octet what is recorded in examples/farm/wanted", out)
        self.assertEqual(self.said(package / "demo", "--unproved")[0], 2)
        # What its README says of the model is of a clone.
        said = "demo: --model is of a clone; demo without it runs the package's program\n"
        self.assertEqual(self.said(package / "demo", "--model"), (2, "", said))
        self.assertRegex(
            (package / "README.md").read_text(),
            r"In a clone the model [^:]*:\n\n    \$ \./demo --model",
        )

    def test_the_gateway(self):
        package = self.unpack()
        status, out, err = self.said(package / "gateway" / "gateway.py", "--help")
        self.assertEqual((status, err), (0, ""))
        self.assertFalse((package / "gateway" / "tests").exists())
        recording = self.path("recording")
        recording.mkdir()
        (recording / "orders.txt").write_text("")
        (recording / "clock.txt").write_text("0 end 0\n")
        status, out, err = self.said(package / "gateway" / "gateway.py", "check", recording)
        self.assertEqual((status, out, err), (0, "calls 0 differ 0\n", ""))

    def test_the_installed_gateway(self):
        prefix = self.folder / "prefix"
        self.assertEqual(self.said(self.unpack() / "install", "--prefix", prefix)[0], 0)
        gateway, recording = prefix / "bin" / "trau-gateway", self.folder / "recording"
        status, out, err = self.said(gateway, "--help")
        self.assertEqual(
            (status, err, out.startswith("usage: trau-gateway "), "gateway.py" in out),
            (0, "", True, False),
        )
        self.assertEqual(self.said(gateway, "what")[2][:27], "trau-gateway: argument run|")
        page = (prefix / "share" / "man" / "man1" / "trau-gateway.1").read_text()
        self.assertIn("trau\\-gateway run [\\-h] [\\-\\-calls FILE]", page)
        if self.built.library:
            surroundings = {"PATH": f"{self.commands}:{PLAIN_PATH}", "TMPDIR": str(self.folder)}
            self.assertEqual(carried(gateway, recording, surroundings), (0, b""))
            status, out, err = self.said(gateway, "check", recording)
            self.assertEqual((status, out[-17:], err), (0, "calls 1 differ 0\n", ""))

    def test_install_and_remove(self):
        package, prefix = self.unpack(), self.folder / "a prefix"
        install = package / "install"
        status, out, err = self.said(install, "--prefix", prefix)
        self.assertEqual((status, err), (0, ""))
        self.assertEqual(out.count("install: "), 2)
        trau = prefix / "bin" / "trau"
        for name in ("7.up", "farm/1.up", "farm/1.pcm"):
            (self.folder / name.split("/")[-1]).write_bytes((EXAMPLES / name).read_bytes())
        self.assertEqual(self.said(trau, "relay", "7"), (0, "relay frames 312\n", ""))
        self.assertEqual(self.said(trau, "help"), (0, (TOOLS / "help.txt").read_text(), ""))
        status, out, _ = self.said(
            "sh", "-c", 'ulimit -f 1 && exec "$0" run', trau, given=b"0 open 1"
        )
        self.assertEqual((status, "line 1 down failed\n" in out), (6, True))
        status, out, _ = self.said(
            prefix / "bin" / "trau-orders", "check", "-", given=b"0 open 1\r\n"
        )
        self.assertEqual((status, out.splitlines()[1:]), (1, ["orders 1 bad 1 warnings 0"]))
        self.assertEqual(
            self.said(prefix / "bin" / "trau-lines", "idle", "3", "9.pcm"),
            (0, "idle periods 3\n", ""),
        )
        down = (self.folder / "7.down").read_bytes()
        model = prefix / "bin" / "trau-model"
        self.assertEqual(self.said(model, "relay", "7"), (0, "relay frames 312\n", ""))
        self.assertEqual((self.folder / "7.down").read_bytes(), down)
        self.assertEqual({path.name for path in (prefix / "bin").iterdir()}, set(COMMANDS))
        for name in trau_package.COMMANDS:
            status, out, err = self.said(prefix / "bin" / name, "--help", PYTHONSAFEPATH="1")
            self.assertEqual((status, out.partition(f"usage: {name} ")[0], err), (0, "", ""))
        pages = prefix / "share" / "man" / "man1"
        self.assertIn(".TH TRAU 1", (pages / "trau.1").read_text())
        self.assertIn("trau\\-lines [\\-h] COMMAND", (pages / "trau-lines.1").read_text())
        self.assertIn(
            "complete -F",
            (prefix / "share" / "bash-completion" / "completions" / "trau").read_text(),
        )
        # Whoever runs it, as root or a user, nothing compiled stays in its folder.
        self.assertEqual([*prefix.rglob("*.pyc"), *package.rglob("*.pyc")], [])
        # Over what is installed, then from there, and away with it; other files stay.
        (prefix / "bin" / "other").write_text("")
        self.assertEqual(self.said(install, f"--prefix={prefix}")[0], 0)
        installed = prefix / "lib" / "trau" / "install"
        self.assertEqual(self.said(installed, "--prefix", prefix)[0], 2)
        self.assertEqual(
            self.said(installed, "--remove", "--prefix", prefix),
            (0, f"install: trau is removed from {prefix}\n", ""),
        )
        self.assertEqual(
            [str(path.relative_to(prefix)) for path in prefix.rglob("*") if path.is_file()],
            ["bin/other"],
        )
        self.assertEqual(list((prefix / "bin").iterdir()), [prefix / "bin" / "other"])

    def test_over_an_earlier_package(self):
        # Its commands led to other files of lib/trau.
        package, prefix = self.unpack(), self.folder / "prefix"
        install, link = package / "install", prefix / "bin" / "trau-lines"
        self.assertEqual(self.said(install, "--prefix", prefix)[0], 0)
        for words, leads_to in (([], "../lib/trau/python/trau-lines"), (["--remove"], None)):
            link.unlink()
            link.symlink_to("../lib/trau/tools/lines.py")
            self.assertEqual(self.said(install, *words, "--prefix", prefix)[::2], (0, ""))
            self.assertEqual(os.readlink(link) if link.is_symlink() else None, leads_to)

    def test_where_nothing_can_be_written(self):
        package, prefix = self.unpack(), self.folder / "prefix"
        install = package / "install"
        # One line, and only of the first failure.
        prefix.write_text("a file")
        status, out, err = self.said(install, "--prefix", prefix)
        self.assertEqual((status, out, err.count("\n")), (2, "", 1))
        self.assertIn(f"install: no way to write below {prefix}: mkdir: ", err)
        prefix.unlink()
        # Where the disk is full, here by a limit on the size of files, an earlier package stays as it was.
        self.assertEqual(self.said(install, "--prefix", prefix)[0], 0)
        before = {path: path.lstat().st_ino for path in prefix.rglob("*")}
        status, out, err = self.said(
            "sh", "-c", 'trap "" XFSZ; ulimit -f 8; exec "$0" --prefix "$1"', install, prefix
        )
        self.assertEqual((status, out, err.count("\n")), (2, "", 1))
        self.assertIn("File too large", err)
        self.assertEqual({path: path.lstat().st_ino for path in prefix.rglob("*")}, before)

    def test_what_is_in_the_way(self):
        package, prefix = self.unpack(), self.folder / "prefix"
        install, link, home = package / "install", prefix / "bin" / "trau", prefix / "lib" / "trau"
        page, completion = (
            prefix / "share" / "man" / "man1" / "trau-report.1",
            prefix / "share" / "bash-completion" / "completions" / "trau",
        )
        for other in (link, home, page, completion):
            other.parent.mkdir(parents=True)
            other.write_text("of somebody else")
            said = f"install: {other} is there already, and no package made it; remove it first\n"
            self.assertEqual(self.said(install, "--prefix", prefix), (2, "", said))
            self.assertEqual([path for path in prefix.rglob("*") if path.is_file()], [other])
            shutil.rmtree(prefix)
        # What was made anew after the installation stays.
        self.assertEqual(self.said(install, "--prefix", prefix)[0], 0)
        link.unlink()
        link.symlink_to(package / "trau")
        for other in (page, completion):
            other.write_text("of somebody else")
        self.assertEqual(self.said(install, "--remove", "--prefix", prefix)[0], 0)
        self.assertEqual(
            {path for path in prefix.rglob("*") if not path.is_dir()}, {link, page, completion}
        )

    def test_a_folder_beside_that_is_somebody_elses(self):
        package, prefix = self.unpack(), self.folder / "prefix"
        other = prefix / "lib" / "trau.new" / "file"
        other.parent.mkdir(parents=True)
        other.write_text("of somebody else")
        self.assertEqual(self.said(package / "install", "--prefix", prefix)[0], 0)
        self.assertEqual(other.read_text(), "of somebody else")
        self.assertEqual({path.name for path in (prefix / "lib").iterdir()}, {"trau", "trau.new"})

    def test_everybody_may_use_what_is_installed(self):
        package, prefix = self.unpack(), self.folder / "prefix"
        # As tar unpacks it and the shell makes folders under such a umask.
        for path in package.rglob("*"):
            path.chmod(path.stat().st_mode & ~0o077)
        status, out, err = self.said(
            "sh", "-c", 'umask 077; exec "$0" --prefix "$1"', package / "install", prefix
        )
        self.assertEqual((status, err), (0, ""))
        modes = {path: path.stat().st_mode & 0o777 for path in (prefix, *prefix.rglob("*"))}
        runs = {path for path in modes if path.is_dir() or os.access(path, os.X_OK)}
        self.assertEqual(
            {
                path: mode
                for path, mode in modes.items()
                if mode != (0o755 if path in runs else 0o644)
            },
            {},
        )
        self.assertLessEqual(
            {
                prefix / "bin" / "trau",
                prefix / "bin" / "trau-lines",
                prefix / "lib" / "trau" / "trau_program",
            },
            runs,
        )

    def test_below_a_folder_of_a_packager(self):
        package = self.unpack()
        status, out, _ = self.said(
            package / "install", "--prefix", "/usr", DESTDIR=str(self.folder / "root")
        )
        self.assertEqual(status, 0)
        self.assertIn("the program is /usr/bin/trau", out)
        self.assertEqual(
            self.said(self.folder / "root" / "usr" / "bin" / "trau")[:2], (1, "usage\n")
        )

    def test_in_a_clone(self):
        prefix = self.folder / "prefix"
        status, out, err = self.said(TOOLS / "install", "--prefix", prefix)
        said = "this script installs the package that it lies in, and no package is here; tools/package of a clone makes one, with it in"
        self.assertEqual((status, out, err, prefix.exists()), (2, "", f"install: {said}\n", False))

    def test_without_the_library(self):
        other = self.path("other")
        other.mkdir()
        ended = subprocess.run(
            [TOOLS / "package", "--without-library", other], capture_output=True, text=True
        )
        self.assertEqual(
            (ended.returncode, ended.stdout.splitlines()[0]), (0, "package without the C library")
        )
        with tarfile.open(next(other.iterdir())) as tar:
            self.assertEqual([name for name in tar.getnames() if "/clib/out/" in name], [])
            tar.extractall(other)
        clib = next(path for path in other.iterdir() if path.is_dir()) / "clib"
        status, out, err = self.said(
            "sh", "-c", f"sed 's|/usr/|/no/|g' {clib}/with >{clib}/there; sh {clib}/there true"
        )
        lacks = "this package has no C library, and libtrau-fr1 isn't installed; TRAU_CLIB names another folder that has one"
        self.assertEqual((status, out), (2, ""))
        self.assertEqual(
            err, f"clib/with: there is no {clib}/out/lib/trau-gsm/libgsm.so.1: {lacks}\n"
        )
        status, out, err = self.said(clib / "with", "--help")
        self.assertEqual(
            (status, "on the C library of this package.\n" in out, "clib/build" in out),
            (0, True, False),
        )

    def test_refused(self):
        package, prefix = self.unpack(), self.folder / "prefix"
        for words in (["--what"], ["--prefix"], ["here"]):
            status, out, err = self.said(package / "install", *words)
            self.assertEqual((status, out), (2, ""))
            self.assertIn("./install [--prefix FOLDER]", err)
        self.assertEqual(self.said(package / "install", "--remove", "--prefix", prefix)[0], 2)
        (package / "man" / "trau.1").write_text("changed")
        status, out, err = self.said(package / "install", "--prefix", prefix)
        self.assertEqual((status, out), (2, ""))
        self.assertIn("man/trau.1: FAILED", err)
        self.assertIn("the package isn't whole", err)
        self.assertFalse(prefix.exists())
        for words, part in (
            ([self.folder / "gone"], "isn't a folder"),
            ([], "FOLDER"),
            (["--what"], "FOLDER"),
        ):
            ended = subprocess.run([TOOLS / "package", *words], capture_output=True, text=True)
            self.assertEqual((ended.returncode, ended.stdout, ended.stderr.count("\n")), (2, "", 1))
            self.assertIn(part, ended.stderr)


LIBRARY_PACKAGES = "libtrau-fr1", "libtrau-fr-dev", "libtrau-call1", "libtrau-call-dev"
FUNCTIONS = {"trau_fr": 24, "trau_call": 7}  # of the libraries


@unittest.skipUnless(HAS_PROGRAM, "TRAU_PROGRAM names no built program")
@unittest.skipUnless(shutil.which("dpkg-deb"), "dpkg isn't installed")
class Debian(InFolder):
    @classmethod
    def setUpClass(cls):
        folder = tempfile.TemporaryDirectory()
        cls.addClassCleanup(folder.cleanup)
        cls.made, cls.built = cls.make(Path(folder.name))

    @staticmethod
    def make(folder):
        """The files of the packages, by the packages' names, and what was built then."""
        said, built = packed("--deb", folder)
        made = {path.name.partition("_")[0]: path for path in folder.glob("*.deb")}
        assert all(
            f"package {path} octets {path.stat().st_size} sha256 " in said for path in made.values()
        ), said
        return made, built

    def unpack(self, *names):
        """The folder of these packages' files."""
        root = self.folder / "root"
        for name in names:
            subprocess.run(["dpkg-deb", "-x", self.made[name], root], check=True)
        return root

    def test_names(self):
        wanted = {"trau", *LIBRARY_PACKAGES} if self.built.library else {"trau"}
        self.assertEqual(set(self.made), wanted)

    def fields(self, made):
        """The fields of a package."""
        return subprocess.run(
            ["dpkg-deb", "-f", made], capture_output=True, text=True, check=True
        ).stdout

    @unittest.skipUnless(HAS_LIBRARY, "no C library is built")
    def test_the_libraries(self):
        version = trau_deb.versions()[0][0]
        for name in LIBRARY_PACKAGES:
            for field in ("Source: trau\n", f"Version: {version}\n", "Multi-Arch: same\n"):
                self.assertIn(field, self.fields(self.made[name]))
        libraries = self.unpack(*LIBRARY_PACKAGES) / trau_deb.LIBRARIES
        self.assertTrue((libraries / "trau-gsm" / "libgsm.so.1").is_file())
        for library in trau_deb.C_LIBRARIES:
            name, needs = library.name, f"Depends: {library.shared()} (= {version})"
            self.assertIn(needs, self.fields(self.made[library.headers()]))
            shared = f"lib{name}.so.1"
            for path in (shared, f"{trau_package.V3}/{shared}", f"lib{name}.a"):
                self.assertEqual((libraries / path).stat().st_mode & 0o777, 0o644, path)
            self.assertEqual(os.readlink(libraries / f"lib{name}.so"), shared)
            told = self.control_of(library, version)
            self.assertEqual(len(told), FUNCTIONS[name])
            if shutil.which("nm"):
                self.assertEqual(told, exported(libraries / shared))

    def control_of(self, library, version):
        """The functions that the package of a shared library names to dpkg, whose further files it looks at."""
        control = self.folder / library.name
        subprocess.run(["dpkg-deb", "-e", self.made[library.shared()], control], check=True)
        wanted = f"lib{library.name} 1 {library.shared()} (>= {version})\n"
        self.assertEqual((control / "shlibs").read_text(), wanted)
        self.assertEqual((control / "triggers").read_text(), "activate-noawait ldconfig\n")
        text = (control / "symbols").read_text()
        return re.findall(rf"^ (trau\w+)@{library.name.upper()}_1 ", text, re.M)

    def program_of(self, root, source, library):
        """The program that pkg-config's words of an installed library make of a source file."""
        words = ["pkg-config", "--cflags", "--libs", library.name]
        surroundings = {
            **os.environ,
            "PKG_CONFIG_PATH": str(root / trau_deb.LIBRARIES / "pkgconfig"),
            "PKG_CONFIG_SYSROOT_DIR": str(root),
        }
        asked = subprocess.run(words, capture_output=True, text=True, check=True, env=surroundings)
        made = self.path(f"program of {library.name}")
        subprocess.run(["cc", "-o", made, source, *asked.stdout.split()], check=True)
        return made

    @with_compiler
    def test_a_program_of_the_codec(self):
        root = self.unpack("libtrau-fr1", "libtrau-fr-dev")
        # The example of the header, which encodes standard input.
        header = (root / "usr" / "include" / "trau_fr.h").read_text()
        example = re.search(r"^ \*     (#include <stdio.h>.*?^ \*     \}$)", header, re.M | re.S)[1]
        source = self.path("example.c", re.sub(r"^ \* ? ? ? ? ?", "", example, flags=re.M).encode())
        ended = subprocess.run(
            [self.program_of(root, source, trau_deb.CODEC)],
            input=bytes(640),
            capture_output=True,
            check=True,
            env={"LD_LIBRARY_PATH": str(root / trau_deb.LIBRARIES)},
        )
        self.assertEqual((len(ended.stdout), ended.stdout[0] >> 4), (66, 0xD))

    @with_compiler
    def test_a_program_of_live_calls(self):
        root = self.unpack("libtrau-call1", "libtrau-call-dev")
        made = self.program_of(root, TOP / "clib" / "examples" / "call.c", trau_deb.CALL)
        # Ports that the system chooses; nobody sends to them.
        ended = subprocess.run(
            [made, *"0 9 0 9 3".split()],
            capture_output=True,
            check=True,
            env={"LD_LIBRARY_PATH": str(root / trau_deb.LIBRARIES)},
        )
        up, pcm = ended.stdout[:40], ended.stdout[40:200]
        self.assertEqual((len(ended.stdout), up[:2], pcm), (3 * 400, bytes(2), b"\xd5" * 160))

    @unittest.skipUnless(HAS_LIBRARY, "no C library is built")
    def test_a_tool_on_the_installed_library(self):
        root = self.unpack("libtrau-fr1", "trau")
        (root / "usr" / "lib" / "trau" / "trau_program").unlink()
        words = [
            root / "usr" / "bin" / "trau-lines",
            "listen",
            EXAMPLES / "farm" / "wanted" / "2.down",
            self.path("2.wav"),
        ]
        surroundings = {"PATH": PLAIN_PATH, "LD_LIBRARY_PATH": str(root / trau_deb.LIBRARIES)}
        ended = subprocess.run(words, capture_output=True, text=True, env=surroundings)
        self.assertEqual(
            (ended.returncode, ended.stderr, ended.stdout[:21]), (0, "", "listen samples 16000 ")
        )

    @unittest.skipUnless(HAS_LIBRARY, "no C library is built")
    def test_the_gateway_on_the_installed_library(self):
        root = self.unpack("libtrau-fr1", "trau")
        surroundings = {"PATH": PLAIN_PATH, "LD_LIBRARY_PATH": str(root / trau_deb.LIBRARIES)}
        gateway, recording = root / "usr" / "bin" / "trau-gateway", self.folder / "recording"
        self.assertEqual(carried(gateway, recording, surroundings), (0, b""))

    def test_what_is_in_it(self):
        made = self.made["trau"]
        version = trau_deb.versions()[0][0]
        self.assertTrue(made.name.startswith(f"trau_{version}_"))
        fields = self.fields(made)
        for field in (
            f"Version: {version}",
            "Depends: libc6 (>= 2.34)",
            "Recommends: python3 (>= 3.9), libtrau-fr1",
            "Suggests: python3-dpkt",
        ):
            self.assertIn(field, fields)
        root = self.unpack("trau")
        surroundings = {"PATH": f"{root}/usr/bin:{PLAIN_PATH}", "TMPDIR": str(self.folder)}
        for words, told in (
            (["trau", "--version"], "trau "),
            (["trau", "help", "relay"], "trau relay C"),
            (["trau-lines", "--help"], "usage: trau-lines "),
            (["trau-watch", "--help"], "usage: trau-watch "),
            (["trau-model", "--help"], "usage: trau-model "),
            (["trau-gateway", "run", "--help"], "usage: trau-gateway run "),
            ([root / "usr" / "lib" / "trau" / "demo"], "Four calls"),
        ):
            ended = subprocess.run(
                words, capture_output=True, text=True, env=surroundings, cwd=self.folder
            )
            self.assertEqual(
                (ended.returncode, ended.stdout.startswith(told)),
                (0, True),
                (words, ended.stdout, ended.stderr),
            )
        self.assertEqual(list(root.rglob("*.pyc")), [])
        for name in COMMANDS:
            self.assertTrue((root / "usr" / "bin" / name).exists(), name)
            page = gzip.decompress(
                (root / "usr" / "share" / "man" / "man1" / f"{name}.1.gz").read_bytes()
            ).decode()
            self.assertTrue(page.startswith(f".TH {name.upper()} 1 "))
        self.assertTrue((root / "usr" / "lib" / "trau" / "docs" / "FILES.md").is_file())
        modules = trau_package.git("ls-files", "python/trau").splitlines()
        home = root / "usr" / "lib" / "trau"
        self.assertEqual([name for name in modules if not (home / name).is_file()], [])

    def test_nothing_compiled_stays(self):
        # The script that dpkg runs before it removes the files, here of another folder.
        compiled = self.folder / "python" / "trau" / "__pycache__"
        compiled.mkdir(parents=True)
        (compiled / "module.pyc").write_text("")
        control = self.folder / "control"
        subprocess.run(["dpkg-deb", "-e", self.made["trau"], control], check=True)
        prerm = (control / "prerm").read_text()
        self.assertTrue(os.access(control / "prerm", os.X_OK))
        here = prerm.replace("/usr/lib/trau/python", str(self.folder / "python"))
        self.assertNotEqual(here, prerm)
        subprocess.run(["sh", "-c", here], check=True)
        self.assertEqual(list((self.folder / "python").rglob("*")), [compiled.parent])

    def test_the_same_octets_again(self):
        made, again = twice(self)
        for name, path in made.items():
            self.assertEqual(path.read_bytes(), again[name].read_bytes(), name)

    @unittest.skipUnless(shutil.which("lintian"), "lintian isn't installed")
    def test_lintian_finds_no_errors(self):
        ended = subprocess.run(
            ["lintian", "--fail-on", "error", *self.made.values()], capture_output=True, text=True
        )
        self.assertEqual((ended.returncode, ended.stdout), (0, ""))

    def test_versions(self):
        for text, why in (
            ("# Changelog\n", "there is no version"),
            ("## soon\n- x\n", "isn't a version and a date"),
        ):
            with mock.patch.object(trau_deb, "read_file", lambda path: text.encode()):
                with self.assertRaisesRegex(trau_deb.Refusal, why):
                    trau_deb.versions()
        said = trau_deb.changelog("A <a@b.example>")
        self.assertRegex(said, r"^trau \(\d+\.\d+\.\d+\) unstable; urgency=medium\n\n  \* ")
        self.assertRegex(said, r"\n -- A <a@b.example>  \w{3}, \d\d \w{3} \d{4} 12:00:00 \+0000\n$")


class TheLibrary(InFolder):
    def found(self, is_given, compiler, status):
        """The library's files where it isn't built yet, and clib/build ends with this status."""
        ended = mock.Mock(returncode=status)
        with mock.patch.dict(os.environ), mock.patch.object(
            trau_package, "library_is_built", return_value=False
        ):
            os.environ.pop("TRAU_CLIB", None)
            with mock.patch.object(trau_package, "is_given", return_value=is_given):
                with mock.patch.object(trau_package.shutil, "which", return_value=compiler):
                    with mock.patch.object(
                        trau_package.subprocess, "run", return_value=ended
                    ) as builds:
                        return trau_package.proved_library(), builds.called

    def test_left_out(self):
        self.assertEqual(self.found(True, "/usr/bin/cc", 0), ({}, False))
        self.assertEqual(self.found(False, None, 0), ({}, False))

    def test_not_built(self):
        with self.assertRaisesRegex(trau_deb.Refusal, "no C library that is proved and built"):
            self.found(False, "/usr/bin/cc", 2)

    def test_a_given_folder(self):
        with mock.patch.dict(os.environ, TRAU_CLIB=str(self.folder)):
            with self.assertRaisesRegex(trau_deb.Refusal, "include/trau_fr.h"):
                trau_package.proved_library()
            for name in trau_package.LIBRARY_FILES:
                (self.folder / name).parent.mkdir(parents=True, exist_ok=True)
                (self.folder / name).write_bytes(name.encode())
            found = trau_package.proved_library()
        self.assertEqual(
            found, {f"clib/out/{name}": name.encode() for name in trau_package.LIBRARY_FILES}
        )
        with mock.patch.dict(os.environ, TRAU_CLIB=str(self.folder), TRAU_PROGRAM=""):
            self.assertEqual(trau_package.origin(), "with a C library that TRAU_CLIB named")


class WhatIsPacked(unittest.TestCase):
    def test_the_model_isnt(self):
        model = str(TOP / "model" / "trau")
        with mock.patch.dict(os.environ, TRAU_PROGRAM=model):
            with self.assertRaisesRegex(trau_deb.Refusal, f"{model}: isn't a built program"):
                trau_package.proved_programs()


@unittest.skipUnless(shutil.which("groff"), "groff-base isn't installed")
class ManPagesOfTools(unittest.TestCase):
    def test_no_warnings(self):
        for name, tool in trau_package.COMMANDS.items():
            page = man_pages.man_page(name, "trau x", "2026-01-01")
            ended = subprocess.run(
                ["groff", "-man", "-ww", "-Tascii", "-P-cbou"],
                input=page.encode(),
                capture_output=True,
            )
            self.assertEqual((ended.returncode, ended.stderr), (0, b""), name)
            text = " ".join(ended.stdout.decode().split())
            self.assertIn(f"{name.upper()}(1)", text)
            self.assertNotIn(f"{tool}.py", text)


if __name__ == "__main__":
    unittest.main()
