"""Tests of the text of the model and of the package that it shares with the tools: each function
says what it is, and by which document. (Its types: checks/python.sh.)"""

import ast
import re
import sys
import unittest
from typing import Iterator, List, Tuple, Union

from material import TOP

Function = Union[ast.FunctionDef, ast.AsyncFunctionDef]
PACKAGE = TOP / "python" / "trau"
MODULES = sorted([*(PACKAGE / "model").glob("*.py"), *(PACKAGE / "rules").glob("*.py")])
STANDARD = frozenset(getattr(sys, "stdlib_module_names", ()))
CITED = re.compile(r'(docs/[A-Za-z/]+\.md)((?:,? (?:and )?"[^"]+")*)')


def functions(tree: ast.Module) -> Iterator[Function]:
    """The functions of a module and the methods of its classes; those within functions aren't among
    them."""
    for node in tree.body:
        members = node.body if isinstance(node, ast.ClassDef) else [node]
        yield from (
            one for one in members if isinstance(one, (ast.FunctionDef, ast.AsyncFunctionDef))
        )


def headings(name: str) -> List[str]:
    """The headings of a document."""
    return [
        row.lstrip("# ") for row in (TOP / name).read_text().splitlines() if row.startswith("#")
    ]


def cited(text: str) -> List[Tuple[str, List[str]]]:
    """The documents that a text cites, each with the headings that it names."""
    return [
        (name, re.findall('"([^"]+)"', names))
        for name, names in CITED.findall(re.sub(r"\s+", " ", text))
    ]


class Text(unittest.TestCase):
    """All modules of both."""

    def test_there_are_modules(self) -> None:
        self.assertGreater(len(MODULES), 30)

    def test_each_function_has_a_docstring(self) -> None:
        for path in MODULES:
            for function in functions(ast.parse(path.read_text())):
                if function.name != "__init__":
                    self.assertTrue(
                        ast.get_docstring(function), "%s of %s" % (function.name, path.name)
                    )

    def test_each_module_and_class_has_a_docstring(self) -> None:
        for path in MODULES:
            tree = ast.parse(path.read_text())
            self.assertTrue(ast.get_docstring(tree), path.name)
            for node in tree.body:
                if isinstance(node, ast.ClassDef):
                    self.assertTrue(ast.get_docstring(node), "%s of %s" % (node.name, path.name))

    def test_documents_that_are_cited_have_these_headings(self) -> None:
        for path in MODULES:
            for name, named in cited(path.read_text()):
                self.assertTrue((TOP / name).exists(), "%s in %s" % (name, path.name))
                for heading in named:
                    self.assertIn(heading, headings(name), "%s in %s" % (name, path.name))

    @unittest.skipUnless(STANDARD, "only Python 3.10 and later list their standard library")
    def test_the_standard_library_alone(self) -> None:
        for path in MODULES:
            for node in ast.walk(ast.parse(path.read_text())):
                found = [one.name for one in node.names] if isinstance(node, ast.Import) else []
                found += (
                    [node.module or ""]
                    if isinstance(node, ast.ImportFrom) and node.level == 0
                    else []
                )
                self.assertLessEqual(
                    {one.split(".")[0] for one in found}, STANDARD | {"trau"}, path.name
                )


if __name__ == "__main__":
    unittest.main()
