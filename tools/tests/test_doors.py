"""Tests of the doors between crates: a module of a crate's proofs is public exactly if another crate cites it, and a module of a group
exactly if it is cited outside of the group. The file of one that another crate cites opens with what it offers. So the lemmas of all
others may be renamed within their crate. None is left over: each is cited, or has worked rows."""

import re
import unittest

from support import TOP

CRATES = TOP / "crates"
CITED = re.compile(r"\bRattle\.(\w+)\.proofs\.([\w.]*\w)")
NAMED = re.compile(r"\busing\(crate::proofs::([\w:]+)::\w+\)")
DECLARED = re.compile(r"^(pub )?mod (\w+)$", re.M)
MADE = re.compile(r"The[A-Z]")  # begins the names of modules that the toolchain makes of a type, which no file declares


def citations():
    """Where modules of proofs are cited and which, each as its crate and path; of a file in specs or src the crate alone."""
    for kind in ("proofs/**/*.antt", "specs/**/*.antt", "src/**/*.rt"):
        for file in CRATES.glob(f"*/{kind}"):
            above, folder, *names = file.relative_to(CRATES).with_suffix("").parts
            at = (above, *names) if folder == "proofs" else (above,)
            text = file.read_text(encoding="utf-8")
            for crate, path in CITED.findall(text):
                cited = (crate, *path.split("."))
                if (CRATES / crate).is_dir() and not any(map(MADE.match, cited)):
                    yield at, cited
            yield from ((at, (above, *path.split("::"))) for path in NAMED.findall(text))


def declared_modules():
    """The modules that the crates' proofs declare, as crates and paths, each with whether it is public."""
    found = {}
    for file in CRATES.glob("*/proofs/**/*.antt"):
        crate, _, *names = file.relative_to(CRATES).with_suffix("").parts
        outer = [] if names == ["Lib"] else names
        for public, module in DECLARED.findall(file.read_text(encoding="utf-8")):
            found[(crate, *outer, module)] = bool(public)
    return found


def opened(at, cited):
    """The modules that have to be public for a citation there: the cited one and those that it is in, up to one that the place is in too."""
    for length in range(2, len(cited) + 1):
        group = cited[: length - 1]
        if at[: len(group)] != group:
            yield cited[:length]


class Doors(unittest.TestCase):
    @classmethod
    def setUpClass(cls):
        cls.citations = list(citations())
        cls.declared = declared_modules()

    def test_public(self):
        """A module is public exactly if it, or a module in it, is cited from where it would be hidden."""
        public = {module for module, is_public in self.declared.items() if is_public}
        self.assertEqual(
            public, {module for at, cited in self.citations for module in opened(at, cited)}
        )

    def test_none_is_left_over(self):
        """Each module, or one in it, is cited, or its name says that it has worked rows, which the check computes."""
        cited = {
            cited[:length] for _, cited in self.citations for length in range(2, len(cited) + 1)
        }
        rows = {module for module in self.declared if module[-1] in ("Rows", "Worked")}
        self.assertEqual(self.declared.keys() - cited - rows, set())


if __name__ == "__main__":
    unittest.main()
