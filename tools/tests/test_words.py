"""Tests of trau_words.py: its commands, options, statuses and orders are those of the documents, help.txt is what it makes, and
the man page and the completion are taken by the programs that read them."""

import re
import shutil
import subprocess
import unittest

from support import TOOLS, TOP, InFolder

from trau.rules.orders import FORMS
from trau.packing import trau_words
from trau.rules import profile

DOCS = TOP / "docs"


def integers(text):
    """The numbers of a text, in order."""
    return [int(digits) for digits in re.findall(r"\d+", text)]


def rows(text, cells):
    """The rows of a table whose first cells match these patterns, as the groups of all of them."""
    pattern = r"^\| *" + r" *\| *".join(cells) + r" *\|"
    return re.findall(pattern, text, re.M)


class Documents(unittest.TestCase):
    def test_commands(self):
        pages = {path.stem: path.read_text() for path in (DOCS / "commands").glob("*.md")}
        self.assertEqual(set(pages), {command.name for command in trau_words.COMMANDS})
        table = (DOCS / "COMMANDS.md").read_text()
        for command in trau_words.COMMANDS:
            self.assertRegex(table, rf"\[?`trau {command.name}( C)?( W)?`")
            shown = re.search(r"^    trau (.*)$", pages[command.name], re.M)[1].split()
            self.assertEqual(shown[0], command.name)
            if command.words.startswith("C"):
                self.assertEqual(shown[1:], command.words.split())
                # Each side that the help names is on the command's page.
                for side in re.findall(r"C\.(\w+)", command.does):
                    self.assertIn(f"`C.{side}`", pages[command.name])

    def test_options(self):
        for command, options in trau_words.OPTIONS_OF.items():
            text = (DOCS / "commands" / f"{command}.md").read_text()
            found = {
                name: values
                for name, *values in rows(
                    text, ["`(--\\w+)`", "([\\d,]+) to ([\\d,]+)", "([\\d,]+)"]
                )
            }
            wanted = {
                option.name: [f"{number:,}" for number in option.values[:3]] for option in options
            }
            self.assertEqual(found, wanted, command)

    def test_statuses(self):
        # Each is told once, in one table, with its commands; a text that two commands tell in their own words is told of both.
        statuses = {status.number: status for status in trau_words.STATUSES}
        text = (DOCS / "COMMANDS.md").read_text()
        table = rows(
            text[text.index("## Statuses") : text.index("## What the lines")],
            ["(\\d+)", "[^|]+", "([^|]+?)", "([^|]+?)"],
        )
        self.assertEqual([int(number) for number, *_ in table], list(statuses))
        for number, text, _ in table:
            for word in re.findall(
                r"`(usage|orders [^`]*|no memory|relay refused N|decode refused N)`", text
            ):
                self.assertIn(word, statuses[int(number)].text, number)
        for command in trau_words.COMMANDS:
            found = {
                int(number)
                for number, _, names in table
                if names == "all" or f"`{command.name}`" in names
            }
            self.assertEqual(found - {125}, set(command.statuses), command.name)
        for page in [TOP / "README.md", *(DOCS / "commands").glob("*.md")]:
            self.assertNotIn("| Status | Meaning |", page.read_text(), page.name)

    def test_numbers_of_the_profile(self):
        # Each is in its crate as a definition and as a constant, and in core/profile.py, by these names.
        text = (DOCS / "ARCHITECTURE.md").read_text()
        table = rows(
            text[text.index("| Crate | Definitions |") : text.index("**What must change")],
            ["`(\\w+)`", "(.*?)"],
        )
        self.assertTrue(table)
        for crate, cell in table:
            specs, src = (
                "\n".join(path.read_text() for path in (TOP / "crates" / crate).glob(each))
                for each in ("specs/*.antt", "src/*.rt")
            )
            for name in re.findall(r"\w+", cell):
                with self.subTest(crate=crate, name=name):
                    wanted = integers(str(getattr(profile, name.upper())))
                    self.assertEqual(
                        integers(re.search(rf"^{name} = (.*)$", specs, re.M)[1]), wanted
                    )
                    self.assertEqual(
                        integers(re.search(rf"\bconst {name.upper()}: .* = (.*);$", src, re.M)[1]),
                        wanted,
                    )

    def test_the_version(self):
        newest = re.search(r"^## ([\d.]+), ", (DOCS / "CHANGELOG.md").read_text(), re.M)[1]
        for name in ("README.md", "docs/INSTALL.md", "docs/LIBRARY.md"):
            self.assertEqual(
                set(re.findall(r"(?:of version |_)(\d+\.\d+\.\d+)", (TOP / name).read_text())),
                {newest},
                name,
            )

    def test_orders(self):
        text = (DOCS / "OPERATORS.md").read_text()
        table = text[text.index("| Order |") : text.index("## When")]
        shown = {" ".join(words.split()[1:2]) for words in re.findall(r"`(S [^`]+)`", table)}
        self.assertEqual(shown, {words.split()[1] for words, _ in trau_words.ORDERS})
        self.assertEqual(shown, set(FORMS))

    def test_help(self):
        self.assertEqual(
            (TOOLS / "help.txt").read_text(),
            trau_words.help_text(),
            "tools/trau_words.py help >tools/help.txt",
        )
        self.assertEqual(
            (TOOLS / "pages.txt").read_text(),
            trau_words.pages_text(),
            "tools/trau_words.py pages >tools/pages.txt",
        )
        for text in (trau_words.help_text(), trau_words.pages_text()):
            self.assertTrue(all(len(line) < 80 for line in text.splitlines()))
        for made in (
            trau_words.help_text(),
            trau_words.man_page("trau x", "2026-01-01").replace("\\-", "-"),
        ):
            for word in [command.name for command in trau_words.COMMANDS] + [
                option.name for option in trau_words.OPTIONS_OF["drill"]
            ]:
                self.assertIn(word, made)


class ManPage(InFolder):
    @unittest.skipUnless(shutil.which("groff"), "groff-base isn't installed")
    def test_no_warnings(self):
        page = trau_words.man_page("trau x", "2026-01-01").encode()
        ended = subprocess.run(
            ["groff", "-man", "-ww", "-Tascii", "-P-cbou"], input=page, capture_output=True
        )
        self.assertEqual((ended.returncode, ended.stderr), (0, b""))
        text = " ".join(ended.stdout.decode().split())
        self.assertIn("TRAU(1)", text)
        self.assertIn("trau run [--workers N] [--batch N] [--slice N] [--periods N] <ORDERS", text)
        run_ends = "The period at which the run ends, required by save; resume goes on to its mark's if that is greater"
        self.assertIn(f"{run_ends} (1 to 4,294,967,295, else 4,294,967,295).", text)
        self.assertIn(
            "2 Line N of the orders or of the mark isn't in the grammar: orders line N, save line N.",
            text,
        )


@unittest.skipUnless(shutil.which("bash"), "bash isn't installed")
class Completion(InFolder):
    def completed(self, *words):
        """What bash makes of the last word of these."""
        self.path("completion", trau_words.completion().encode())
        script = '. ./completion; COMP_WORDS=("$@"); COMP_CWORD=$(($# - 1)); _trau; echo "${COMPREPLY[*]}"'
        ended = subprocess.run(
            ["bash", "-c", script, "bash", "trau", *words],
            cwd=self.folder,
            capture_output=True,
            text=True,
        )
        self.assertEqual((ended.returncode, ended.stderr), (0, ""))
        return ended.stdout.split()

    def test_words(self):
        for name in ("7.up", "12.up", "8.pcm", "7.down", "x.up"):
            self.path(name, b"")
        self.assertEqual(self.completed("r"), ["run", "resume", "relay"])
        self.assertEqual(self.completed("--"), ["--help", "--version", "--no-lock"])
        self.assertEqual(
            self.completed("run", "--"), ["--workers", "--batch", "--slice", "--periods"]
        )
        self.assertEqual(self.completed("run", "--workers", "2", "--b"), ["--batch"])
        self.assertEqual(self.completed("run", "--workers", ""), [])
        self.assertEqual(self.completed("save", "--periods", "3", "--w"), ["--workers"])
        self.assertEqual(self.completed("resume", "--p"), ["--periods"])
        self.assertEqual(self.completed("d"), ["drill", "decode"])
        self.assertEqual(
            self.completed("drill", "--"),
            ["--workers", "--batch", "--slice", "--periods", "--seed", "--calls"],
        )
        self.assertEqual(self.completed("drill", "--seed", ""), [])
        self.assertEqual(
            self.completed("live", "--"), ["--seed", "--calls", "--periods", "--callers", "--inbox"]
        )
        self.assertEqual(self.completed("relay", ""), ["12", "7"])
        self.assertEqual(self.completed("encode", ""), ["8"])
        self.assertEqual(self.completed("frames", "7", ""), [])
        self.assertEqual(self.completed("follow", "7"), ["7"])
        self.assertEqual(self.completed("what", ""), [])


if __name__ == "__main__":
    unittest.main()
