"""Single edits of the model, by its syntax tree, and the first case that catches each: each constant
by one, table entries among them, and each comparison turned."""

import ast
import importlib
import importlib.abc
import importlib.machinery
import multiprocessing
import signal
import sys
from pathlib import Path
from types import CodeType, FrameType, ModuleType
from typing import Callable, Dict, Iterator, List, NamedTuple, Optional, Sequence, Tuple, Type

from trau.suite.generator import Expected

PACKAGE = Path(__file__).resolve().parents[1]
# The operations that a module's edits show in, the fastest first.
CODEC = ("encode", "decode")
CALL = ("call-alaw", "call-mulaw")
# What the encoder doesn't run of the codec.
DECODER_ALONE = ("short_term_synthesis", "FullRateDecoder")
LAWS = ("alaw-expand", "mulaw-expand", "alaw-compress", "mulaw-compress", "recode")
LINE = ("write-uplink", "read-uplink", "write-downlink", "read-downlink", "kind", "search")
OPERATIONS_OF: Dict[str, Tuple[str, ...]] = {
    "model.codec": (*CODEC, "send"),
    "model.receive": ("conceal", "receive"),
    "model.transmit": ("send",),
    "recordings.code_word": ("kind", "mark"),
    "rules.arithmetic": CODEC,
    "rules.frame": (*LINE, "mark", *CALL),
    "rules.g711": (*LAWS, *CALL),
    "rules.noise": ("conceal",),
    "rules.parameters": ("decode", "decode-wav", "encode-wav", "conceal"),
    "rules.preprocessing": ("encode",),
    "rules.profile": ("conceal", *LINE, *LAWS, "send", *CALL),
    "rules.search": ("search", "count", "call-alaw"),
}
# What must be imported anew after an edit.
EDITED_PACKAGES = ("trau.rules", "trau.model", "trau.recordings", "trau.suite.reference")
TURNED: Dict[Type[ast.cmpop], Type[ast.cmpop]] = {
    ast.Lt: ast.LtE,
    ast.LtE: ast.Lt,
    ast.Gt: ast.GtE,
    ast.GtE: ast.Gt,
    ast.Eq: ast.NotEq,
    ast.NotEq: ast.Eq,
    ast.Is: ast.IsNot,
    ast.IsNot: ast.Is,
    ast.In: ast.NotIn,
    ast.NotIn: ast.In,
}
MOST_SECONDS = 30  # of processor time, for a case that takes less than one


class Edit(NamedTuple):
    """An edit: its module without `trau.`, the function or constant, the node by its number in the
    module's tree, and what it was and is."""

    module: str
    place: str
    node: int
    before: str
    after: str

    def name(self) -> str:
        """A name that lasts while the code around is the same."""
        return f"{self.module}.{self.place}: {self.before} -> {self.after}"


class Tried(NamedTuple):
    """An edit, and the case that caught it first; None if none did."""

    edit: Edit
    case: Optional[str]


class EndlessEdit(Exception):
    """An edit with which a case doesn't end."""


def tree_of(module: str) -> ast.Module:
    """A module's syntax tree."""
    path = PACKAGE / f"{module.replace('.', '/')}.py"
    return ast.parse(path.read_text(encoding="utf-8"))


def edited(node: ast.AST) -> Optional[ast.AST]:
    """The node after its edit; None if it has none."""
    if isinstance(node, ast.Constant) and type(node.value) is int:
        return ast.Constant(node.value + 1)
    if isinstance(node, ast.Compare) and len(node.ops) == 1 and type(node.ops[0]) in TURNED:
        return ast.Compare(node.left, [TURNED[type(node.ops[0])]()], node.comparators)
    return None


def children(node: ast.AST) -> Iterator[ast.AST]:
    """The parts of a node that run: no docstrings, annotations or decorators."""
    for name, value in ast.iter_fields(node):
        if name not in ("annotation", "returns", "decorator_list"):
            yield from (
                each
                for each in (value if isinstance(value, list) else [value])
                if isinstance(each, ast.AST)
            )


def places_of(tree: ast.Module) -> Iterator[Tuple[ast.AST, str, ast.AST]]:
    """Each node that has an edit, with the name of its function or constant and with the expression
    around it."""

    def within(
        node: ast.AST, place: str, around: ast.AST
    ) -> Iterator[Tuple[ast.AST, str, ast.AST]]:
        if isinstance(node, (ast.FunctionDef, ast.ClassDef)):
            place = f"{place}.{node.name}".lstrip(".")
        elif isinstance(node, ast.Assign) and not place:
            place = ast.unparse(node.targets[0])
        if edited(node) is not None:
            yield node, place, around
        for child in children(node):
            is_small = isinstance(node, ast.expr) and not isinstance(node, ast.Constant)
            yield from within(child, place, node if is_small else child)

    return within(tree, "", tree)


def edits_of(module: str) -> List[Edit]:
    """All edits of a module."""
    tree = tree_of(module)
    numbers = {id(node): number for number, node in enumerate(ast.walk(tree))}
    found: Dict[str, int] = {}
    edits = []
    for node, place, around in places_of(tree):
        changed = edited(node)
        assert changed is not None
        before, after = ast.unparse(node), ast.unparse(changed)
        if around is not node and len(ast.unparse(around)) < 60:
            before = f"{before} in {ast.unparse(around)}"
        edit = Edit(module, place, numbers[id(node)], before, after)
        found[edit.name()] = found.get(edit.name(), 0) + 1
        if found[edit.name()] > 1:
            edit = edit._replace(after=f"{after} (number {found[edit.name()]})")
        edits.append(edit)
    return edits


def names_of_profile() -> List[str]:
    """The names of the profile's constants that the other modules take."""
    trees = [tree_of(module) for module in OPERATIONS_OF if module != "rules.profile"]
    nodes = [node for tree in trees for node in ast.walk(tree)]
    imported = [
        name.name
        for node in nodes
        if isinstance(node, ast.ImportFrom) and node.module == "trau.rules.profile"
        for name in node.names
    ]
    return imported + [
        node.attr
        for node in nodes
        if isinstance(node, ast.Attribute) and ast.unparse(node.value) == "profile"
    ]


def all_edits() -> List[Edit]:
    """All edits; of the profile those of constants that the other modules take."""
    used = names_of_profile()
    edits = [edit for module in OPERATIONS_OF for edit in edits_of(module)]
    return [edit for edit in edits if edit.module != "rules.profile" or edit.place in used]


def code_of(edit: Edit) -> CodeType:
    """The module's code with the edit."""
    tree = tree_of(edit.module)
    target = list(ast.walk(tree))[edit.node]

    class Exchange(ast.NodeTransformer):
        """Puts the edited node in the place of the old one."""

        def visit(self, node: ast.AST) -> ast.AST:
            """This node, or the edited one."""
            changed = edited(node) if node is target else None
            return self.generic_visit(node) if changed is None else changed

    Exchange().visit(tree)
    code: CodeType = compile(ast.fix_missing_locations(tree), edit.name(), "exec")
    return code


class EditedModule(importlib.abc.MetaPathFinder, importlib.abc.Loader):
    """Finds and loads one module with its edit."""

    def __init__(self, edit: Edit) -> None:
        self.name, self.code = f"trau.{edit.module}", code_of(edit)

    def find_spec(
        self, name: str, path: object, target: object = None
    ) -> Optional[importlib.machinery.ModuleSpec]:
        """Of the edited module."""
        return importlib.machinery.ModuleSpec(name, self) if name == self.name else None

    def create_module(self, spec: importlib.machinery.ModuleSpec) -> Optional[ModuleType]:
        """As the system does it."""
        return None

    def exec_module(self, module: ModuleType) -> None:
        """Runs the edited code."""
        exec(self.code, module.__dict__)


def answers_with(edit: Edit) -> Dict[str, Callable[[bytes], bytes]]:
    """The model's answers with an edit, in a process that is for this edit alone."""
    for name in list(sys.modules):
        if name.startswith(EDITED_PACKAGES):
            del sys.modules[name]
    sys.meta_path.insert(0, EditedModule(edit))
    answers: Dict[str, Callable[[bytes], bytes]] = importlib.import_module(
        "trau.suite.reference"
    ).ANSWERS
    return answers


def end_case(number: int, frame: Optional[FrameType]) -> None:
    """Ends a case that takes too much of the processor."""
    raise EndlessEdit


EXPECTED: List[Expected] = []  # what a process that tries edits compares with


def cases_for(edit: Edit) -> List[Expected]:
    """The cases in which an edit can show, the shortest of each operation first."""
    is_decoder = edit.module == "model.codec" and edit.place.startswith(DECODER_ALONE)
    return [
        each
        for operation in (("decode",) if is_decoder else OPERATIONS_OF[edit.module])
        for each in sorted(
            (one for one in EXPECTED if one.case.operation == operation),
            key=lambda one: len(one.case.given),
        )
    ]


def tried(edit: Edit) -> Tried:
    """Tries the cases with an edit until one catches it: by another answer, or by none."""
    cases = cases_for(edit)
    signal.signal(signal.SIGVTALRM, end_case)
    signal.setitimer(signal.ITIMER_VIRTUAL, MOST_SECONDS)
    try:
        answers = answers_with(edit)
    except Exception:
        return Tried(edit, cases[0].case.name())
    for each in cases:
        signal.setitimer(signal.ITIMER_VIRTUAL, MOST_SECONDS)
        try:
            if answers[each.case.operation](each.case.given) != each.answer:
                return Tried(edit, each.case.name())
        except Exception:
            return Tried(edit, each.case.name())
    return Tried(edit, None)


def try_all(edits: Sequence[Edit], expected: Sequence[Expected], jobs: int) -> Iterator[Tried]:
    """Tries edits, each in a process of its own, so many at a time."""
    EXPECTED[:] = expected
    context = multiprocessing.get_context("fork")
    with context.Pool(jobs, maxtasksperchild=1) as pool:
        yield from pool.imap_unordered(tried, edits, chunksize=1)
