"""The crates: their heads name their layers and definitions, comments end by one column, laws have readers and are cited by their
whole paths, and no folder of proofs is long."""

import re
import unittest
from pathlib import Path
from typing import Dict, Iterator, List

ROOT = Path(__file__).resolve().parents[2]
CRATES = sorted(path.parent for path in (ROOT / "crates").glob("*/src"))
# The last column of a comment.
WIDTH = 120
# How many files of lemmas are in one folder at most.
FILES = 20
COMMENT = re.compile(r"\s*(//|--)")
# What can't be wrapped: a row of a table.
ROW = re.compile(r"\s*//[/!] \|")


def layers() -> Dict[str, str]:
    """The layer of each crate, by the table of docs/ARCHITECTURE.md."""
    found: Dict[str, str] = {}
    layer = ""
    for line in (ROOT / "docs" / "ARCHITECTURE.md").read_text(encoding="utf-8").splitlines():
        heading = re.match(r"\| \*\*(.+?)\*\* \|", line)
        row = re.match(r"\| `(\w+)` \|", line)
        if heading:
            layer = heading.group(1)
        elif row and layer:
            found.setdefault(row.group(1), layer)
    return found


def sources(crate: Path) -> Iterator[Path]:
    """The files of a crate in Rattle, without what was built."""
    for folder in ("src", "specs", "proofs"):
        yield from sorted((crate / folder).rglob("*.rt"))
        yield from sorted((crate / folder).rglob("*.antt"))


class Crates(unittest.TestCase):
    """What a reader can rely on in each crate."""

    def test_heads_name_their_layers(self) -> None:
        layer_of = layers()
        for crate in CRATES:
            root = crate / "src" / "lib.rt"
            if not root.exists():
                root = crate / "src" / "main.rt"
            named: List[str] = re.findall(
                r"^//! Layer: (.+)\.$", root.read_text(encoding="utf-8"), re.MULTILINE
            )
            self.assertEqual(named, [layer_of[crate.name]], crate.name)

    def test_heads_name_their_definitions(self) -> None:
        for crate in CRATES:
            roots = [crate / "src" / name for name in ("lib.rt", "main.rt")]
            text = next(root for root in roots if root.exists()).read_text(encoding="utf-8")
            head = "".join(re.findall(r"^//!.*\n", text, re.MULTILINE))
            files = {path.name for path in (crate / "specs").glob("*.antt")} - {"Lib.antt"}
            self.assertEqual({name for name in files if name not in head}, set(), crate.name)

    def test_comments_end_by_one_column(self) -> None:
        for crate in CRATES:
            for source in sources(crate):
                lines = source.read_text(encoding="utf-8").splitlines()
                wide = [
                    line
                    for line in lines
                    if len(line) > WIDTH and COMMENT.match(line) and not ROW.match(line)
                ]
                self.assertEqual(wide, [], source.relative_to(ROOT).as_posix())

    def test_laws_are_cited_by_their_paths(self) -> None:
        laws = {
            name
            for crate in CRATES
            if (crate / "src" / "laws.rt").exists()
            for name in re.findall(
                r"^(?:pub(?:\(crate\))? )?fn (\w+)",
                (crate / "src" / "laws.rt").read_text(encoding="utf-8"),
                re.MULTILINE,
            )
        }
        self.assertIn("the_newest_is_the_last", laws)
        for crate in CRATES:
            for source in sorted((crate / "src").rglob("*.rt")):
                text = source.read_text(encoding="utf-8")
                called = set(re.findall(r"^\s*(?:\w+\.)*(\w+)\(.*\);$", text, re.MULTILINE))
                own = set(re.findall(r"\bfn (\w+)", text))
                self.assertEqual((called - own) & laws, set(), source.relative_to(ROOT).as_posix())

    def test_laws_have_readers(self) -> None:
        code = [
            path.read_text(encoding="utf-8")
            for crate in CRATES
            for path in (crate / "src").rglob("*.rt")
        ]
        called = {name for text in code for name in re.findall(r"::laws::(\w+)\(", text)}
        page = (ROOT / "docs" / "PROVED.md").read_text(encoding="utf-8")
        named = set(re.findall(r"`(\w+)`", page))
        for crate in CRATES:
            laws = crate / "src" / "laws.rt"
            if laws.exists():
                own = re.findall(r"^pub fn (\w+)", laws.read_text(encoding="utf-8"), re.MULTILINE)
                self.assertEqual(set(own) - called - named, set(), crate.name)

    def test_folders_of_proofs_are_short(self) -> None:
        for crate in CRATES:
            for folder in [crate / "proofs", *(crate / "proofs").rglob("*/")]:
                files = [path for path in folder.glob("*.antt") if path.name[0].isupper()]
                self.assertLessEqual(len(files), FILES, folder.relative_to(ROOT).as_posix())


if __name__ == "__main__":
    unittest.main()
