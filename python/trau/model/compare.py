"""Runs a trial by two programs, and says where octets, text and status differ."""

import os
import resource
import shutil
import subprocess
import tempfile
from pathlib import Path
from typing import Dict, List, Mapping, NamedTuple, Optional

from trau.model.trials import FULL_DEVICE, TOP, Entry, Folder, Link, Step, Trial

TRAU = TOP / "trau"
MODEL = TOP / "model/trau"
# A program that doesn't end within this many seconds has no answer.
PATIENCE = 1800


def is_built(program: Path) -> bool:
    """Whether the script `trau` has a program that it can start at once, without proving and
    building it first."""
    return (
        subprocess.run(
            [str(program)], env={**os.environ, "TRAU_IS_BUILT": "yes"}, stdin=subprocess.DEVNULL
        ).returncode
        == 0
    )


class StepResult(NamedTuple):
    """What a step gave: the status (None: it didn't end), what was printed, and each file of its
    folder (None: a link, folder or device)."""

    status: Optional[int]
    text: bytes
    files: Mapping[str, Optional[bytes]]


def lay(files: Mapping[str, Entry], folder: Path) -> None:
    """Puts the files of a trial into a new folder."""
    folder.mkdir()
    for name, entry in files.items():
        if isinstance(entry, Link):
            (folder / name).symlink_to(entry.target)
        elif isinstance(entry, Folder):
            (folder / name).mkdir()
        else:
            (folder / name).write_bytes(entry)


def contents(folder: Path) -> Dict[str, Optional[bytes]]:
    """The files of a folder with their octets; links, folders and devices only by name."""
    return {
        path.name: path.read_bytes() if path.is_file() and not path.is_symlink() else None
        for path in sorted(folder.iterdir())
    }


def status_of(program: Path, step: Step, folder: Path, reads: int, writes: int) -> Optional[int]:
    """The status of a program that is run in a folder with these descriptors as standard streams;
    None where it doesn't end in time."""

    def limit() -> None:
        if step.most_octets is not None:
            resource.setrlimit(resource.RLIMIT_FSIZE, (step.most_octets, step.most_octets))

    try:
        return subprocess.run(
            [str(program), *step.words],
            cwd=folder,
            stdin=reads,
            stdout=writes,
            env={**os.environ, "PYTHONDONTWRITEBYTECODE": "1"},
            preexec_fn=limit,
            timeout=PATIENCE,
        ).returncode
    except subprocess.TimeoutExpired:
        return None


def run_step(program: Path, step: Step, before: bytes, folder: Path) -> StepResult:
    """What a program gives for a step; `before` is what the step before printed."""
    printed = folder.with_name(folder.name + ".text")
    given = folder.with_name(folder.name + ".stdin")
    given.write_bytes(step.marked(before) + (step.stdin or b""))
    reads = os.open(folder if step.stdin is None else given, os.O_RDONLY)
    writes = os.open(
        FULL_DEVICE if step.to_full_device else printed, os.O_WRONLY | os.O_CREAT, 0o666
    )
    try:
        status = status_of(program, step, folder, reads, writes)
    finally:
        os.close(reads)
        os.close(writes)
    return StepResult(status, printed.read_bytes() if printed.exists() else b"", contents(folder))


def answers(program: Path, trial: Trial, folder: Path) -> List[StepResult]:
    """What a program gives for each step of a trial, each in a folder of its own."""
    folder.mkdir(parents=True)
    found: List[StepResult] = []
    for place, step in enumerate(trial.steps):
        lay(trial.files, folder / str(place))
        found.append(run_step(program, step, found[-1].text if found else b"", folder / str(place)))
    return found


def differences(trial: Trial, program: Path, model: Path, keep: Optional[Path] = None) -> List[str]:
    """What differs between a program's answers and the model's, a line each. `keep` is a folder for
    the files where any does."""
    with tempfile.TemporaryDirectory() as name:
        folder = Path(name)
        both = [
            answers(which, trial, folder / part)
            for which, part in ((program, "trau"), (model, "model"))
        ]
        found = [
            line
            for step, one, other in zip(trial.steps, *both)
            for line in step_differences(step, one, other)
        ]
        if found and keep is not None:
            shutil.copytree(folder, keep, symlinks=True)
    return found


def step_differences(step: Step, one: StepResult, other: StepResult) -> List[str]:
    """What differs between the program's answer and the model's."""
    found = (
        [] if one.status == other.status else [f"status {one.status}, of the model {other.status}"]
    )
    found += octets_differ("text", one.text, other.text)
    for name in sorted(one.files.keys() | other.files.keys()):
        if (name in one.files) != (name in other.files):
            found.append(f"{name} is only made by {'trau' if name in one.files else 'the model'}")
        else:
            found += octets_differ(name, one.files[name], other.files[name])
    words = " ".join(step.words).encode("ascii", "backslashreplace").decode()
    return [f"{words}: {line}" for line in found]


def octets_differ(name: str, one: Optional[bytes], other: Optional[bytes]) -> List[str]:
    """Where two lists of octets differ first."""
    if one == other:
        return []
    if one is None or other is None:
        return [f"{name} is a file of one alone"]
    place = next(
        (place for place, (a, b) in enumerate(zip(one, other)) if a != b), min(len(one), len(other))
    )
    if name == "text":
        number = one[:place].count(b"\n")
        lines = [
            (text.decode("latin-1").split("\n") + [""] * (number + 1))[number]
            for text in (one, other)
        ]
        return [f"line {number + 1} of the text is '{lines[0]}', of the model '{lines[1]}'"]
    return [f"{name}: octet {place} differs, of {len(one)} and of {len(other)}"]
