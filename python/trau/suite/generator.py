"""Cases with their expected results, made anew and compared with the sums that the repository
keeps."""

import hashlib
import multiprocessing
from pathlib import Path
from typing import Dict, List, NamedTuple, Sequence

from trau.command_line.ends import naming
from trau.command_line.words import Refusal

from trau.suite.cases import Case, all_cases
from trau.suite.forms import forms_of
from trau.suite.reference import ANSWERS
from trau.suite.rule_list import FOLDER

SUMS = FOLDER / "SHA256SUMS"


class Expected(NamedTuple):
    """A case, and the answer that is expected."""

    case: Case
    answer: bytes


def model_answer(case: Case) -> bytes:
    """The model's answer."""
    return ANSWERS[case.operation](case.given)


def with_answers(cases: Sequence[Case], jobs: int) -> List[Expected]:
    """The cases with the model's answers, by so many processes."""
    if jobs == 1:
        return [Expected(case, model_answer(case)) for case in cases]
    with multiprocessing.Pool(jobs) as pool:
        return list(map(Expected, cases, pool.map(model_answer, cases, chunksize=4)))


def files_of(each: Expected) -> Dict[str, bytes]:
    """The files of a case by their names."""
    name = each.case.name().replace("/", "-", 1)
    return {f"{name}.{end}": octets for end, octets in forms_of(each.case, each.answer).items()}


def sums_of(expected: Sequence[Expected]) -> str:
    """The SHA-256 of all files, as `sha256sum` writes them."""
    lines = [
        f"{hashlib.sha256(octets).hexdigest()}  {name}\n"
        for each in expected
        for name, octets in files_of(each).items()
    ]
    return "".join(lines)


def compare_sums(expected: Sequence[Expected]) -> None:
    """Raises Refusal if a file isn't the one whose sum the repository keeps."""
    known = set(SUMS.read_text(encoding="utf-8").splitlines())
    made = sums_of(expected).splitlines()
    other = [line for line in made if line not in known]
    if other:
        raise Refusal(f"{SUMS}: {len(other)} files differ, the first {other[0].split()[1]}")


def expected_cases(jobs: int, words: Sequence[str] = ()) -> List[Expected]:
    """All cases, or those whose names begin with one of these words, as the sums have them."""
    chosen = [case for case in all_cases() if not words or case.name().startswith(tuple(words))]
    if not chosen:
        raise Refusal(f"there is no case {' or '.join(words)}")
    expected = with_answers(chosen, jobs)
    compare_sums(expected)
    return expected


def write_all(folder: Path, expected: Sequence[Expected]) -> int:
    """Writes all files and their sums into a folder; how many files there are."""
    count = 0
    with naming(folder):
        folder.mkdir(parents=True, exist_ok=True)
    for each in expected:
        for name, octets in files_of(each).items():
            with naming(folder / name):
                (folder / name).write_bytes(octets)
            count += 1
    with naming(folder / SUMS.name):
        (folder / SUMS.name).write_text(sums_of(expected), encoding="utf-8")
    return count
