"""The structure of the package python/trau: each class has a name of its own, so that a name says which class it is in every module;
and rules and model import nothing of the tools."""

import ast
import unittest
from collections import defaultdict
from pathlib import Path
from typing import DefaultDict, Dict, List, Set

PACKAGE = Path(__file__).resolve().parents[2] / "python" / "trau"
# What the modules of a sub-package may import of the others. The programs of the model read words as all programs do.
MAY_IMPORT = {"rules": {"rules"}, "model": {"rules", "model", "command_line"}}


def modules_by_class(package: Path) -> Dict[str, List[str]]:
    """The modules of a package that define each public class at their top."""
    found: DefaultDict[str, List[str]] = defaultdict(list)
    for path in sorted(package.rglob("*.py")):
        for node in ast.parse(path.read_text(encoding="utf-8")).body:
            if isinstance(node, ast.ClassDef) and not node.name.startswith("_"):
                found[node.name].append(path.relative_to(package).as_posix())
    return found


def imported(module: Path) -> Set[str]:
    """The sub-packages of trau that a module imports from."""
    names: Set[str] = set()
    for node in ast.walk(ast.parse(module.read_text(encoding="utf-8"))):
        if isinstance(node, ast.Import):
            names.update(each.name for each in node.names)
        elif isinstance(node, ast.ImportFrom) and node.module:
            names.update(f"{node.module}.{each.name}" for each in node.names)
    return {name.split(".")[1] for name in names if name.startswith("trau.")}


class Structure(unittest.TestCase):
    """Names of classes, and imports."""

    def test_one_class_a_name(self) -> None:
        found = modules_by_class(PACKAGE)
        self.assertIn("FrameKind", found)
        twice = {name: modules for name, modules in found.items() if len(modules) > 1}
        self.assertEqual(twice, {})

    def test_rules_and_model_import_no_tools(self) -> None:
        for folder, allowed in MAY_IMPORT.items():
            modules = sorted((PACKAGE / folder).rglob("*.py"))
            self.assertTrue(modules)
            for module in modules:
                self.assertLessEqual(imported(module), allowed, module.name)


if __name__ == "__main__":
    unittest.main()
