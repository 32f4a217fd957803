"""Lines of frames as sound. The frames of a downlink are decoded by the C library, if it is built.
An uplink is run by the program `trau` with an idle Pcm line, so that losses and pauses sound as in
a call. Where only the other of the two is built, it does the work, and where none is, the model
does; all give the same. Nothing here has a program proved and built."""

import os
import shutil
import subprocess
import tempfile
from array import array
from pathlib import Path
from types import ModuleType
from typing import Dict, List, NamedTuple, Optional, Sequence, Tuple

from trau.command_line.ends import complain, naming
from trau.command_line.files import read_file
from trau.command_line.words import Refusal
from trau.recordings import file_kinds, gsm_files, recordings
from trau.recordings.excerpts import excerpts_of
from trau.recordings.heard_uplinks import (
    heard_of_uplink,
    said_of_counts,
    samples_of,
    without_losses,
)
from trau.rules.frame import FrameKind, UpFrame, octets_of, write_up
from trau.rules.g711 import Law, compress_all, expand_all
from trau.rules.parameters import SILENCE, bits_of_parameters, gsm_of_data
from trau.rules.profile import FRAME_BITS, FRAME_OCTETS, PCM_OCTETS
from trau.runs import run_texts

TREATMENTS = {"speech": "keep", "silence": "noise", "idle": "quiet", "other": "skip"}


def program_beside() -> str:
    """The script `trau` of the repository or package that has these tools, or else the program of
    that name on the path."""
    beside = Path(__file__).resolve().parents[3] / "trau"
    return str(beside) if beside.is_file() else "trau"


def program_named(word: str) -> str:
    """The program that a word names, as it is started from other folders: a path becomes a whole
    one."""
    return os.path.abspath(word) if "/" in word else word


def is_stale(folder: Path) -> bool:
    """Whether what clib/build made in this folder is of other sources than the present ones."""
    build = folder / "build"
    if os.environ.get("TRAU_CLIB") or not build.is_file() or not (folder / "out").is_dir():
        return False
    return subprocess.run([build], env={**os.environ, "TRAU_IS_BUILT": "ask"}).returncode != 0


def library_beside() -> Optional[ModuleType]:
    """The Python module of the C library that clib/build made or that is installed, or None."""
    beside = Path(__file__).resolve().parents[3] / "clib"
    if is_stale(beside):
        return None
    try:
        from trau import trau_fr
    except (ImportError, OSError, AttributeError):
        return None
    return trau_fr


def from_here() -> Dict[str, str]:
    """The environment for a program that is started in another folder: TRAU_PROGRAM may name a path
    from this one. The word `model` is none."""
    named = os.environ.get("TRAU_PROGRAM")
    return (
        {**os.environ, "TRAU_PROGRAM": os.path.abspath(named)}
        if named and named != "model"
        else dict(os.environ)
    )


def said_by_program(trau: str, words: Sequence[str], folder: str, given: bytes = b"") -> bytes:
    """What the program prints on standard output for these words and this standard input, in a
    folder of lines."""
    with naming(Path(trau)):
        ended = subprocess.run(
            [trau, *words], cwd=folder, input=given, stdout=subprocess.PIPE, env=from_here()
        )
    if ended.returncode:
        said = ended.stdout.decode("latin-1").strip().replace("\n", ", ")
        raise Refusal(f"{trau} {words[0]}: status {ended.returncode}{f', {said}' if said else ''}")
    return ended.stdout


def write_line(path: Path, octets: bytes) -> None:
    """Writes a line that the program reads."""
    with naming(path):
        path.write_bytes(octets)


def decoded_by_program(frames: List[str], trau: str) -> bytes:
    """The A-law that `trau decode` makes of frames, D1 to D260 each."""
    with tempfile.TemporaryDirectory() as folder:
        write_line(
            Path(folder, "1.up"),
            b"".join(octets_of(write_up(UpFrame(FrameKind.SPEECH, data=data))) for data in frames),
        )
        said_by_program(trau, ["decode", "1"], folder)
        return read_file(Path(folder, "1.out"))


def is_ready(trau: str) -> bool:
    """Whether this program can be started at once: the script `trau` proves and builds one that
    isn't there. One that TRAU_PROGRAM names is never built."""
    if os.environ.get("TRAU_PROGRAM"):
        return True
    found = shutil.which(trau)
    asks = {**os.environ, "TRAU_IS_BUILT": "ask"}
    nowhere = subprocess.DEVNULL
    return (
        found is not None
        and not subprocess.run(
            [found], env=asks, stdin=nowhere, stdout=nowhere, stderr=nowhere
        ).returncode
    )


def ready_program(trau: Optional[str]) -> Optional[str]:
    """The program that is named or, if none is, the one that can be started at once, if any."""
    found = trau or program_beside()
    return found if trau or is_ready(found) else None


MODEL_AT_WORK = (
    "neither the program trau nor the C library is built; the model decodes, some 100 to 300 frames"
    " a second"
)


def library_or_model() -> Optional[ModuleType]:
    """The C library, or None for the model, of which it says that it is at work."""
    library = library_beside()
    if not library:
        complain("lines.py", MODEL_AT_WORK)
    return library


def decoded(frames: List[str], trau: Optional[str]) -> bytes:
    """The A-law of frames (D1 to D260 each), by this program, or if none is named, by the library
    if there is one."""
    program = trau if trau or library_beside() else ready_program(trau)
    if program:
        return decoded_by_program(frames, program)
    samples = samples_of([gsm_of_data(data) for data in frames], library_or_model())
    return compress_all(Law.A, samples)


def frames_of_downlink(name: Path, octets: bytes) -> Tuple[List[str], str]:
    """The frames that are decoded of a downlink, and what was found. A period of other bits, as
    before the first frame, is silence, so that the time stays; shifts of the timing, which are
    shorter, are left out."""
    found = gsm_files.treated_downlink(name, octets, TREATMENTS)
    frames: List[str] = []
    for before, data in found.frames:
        frames += before // FRAME_BITS * [bits_of_parameters(SILENCE)]
        frames.append(data)
    return frames, f"found {found.said}"


def alaw_of_downlink(name: Path, octets: bytes, trau: Optional[str]) -> Tuple[bytes, str]:
    """What is heard of a downlink, and what was found."""
    frames, said = frames_of_downlink(name, octets)
    return decoded(frames, trau), said


def is_uplink(name: Path, octets: bytes) -> bool:
    """Whether a line is an uplink, by its frames or, where these show nothing, by its name."""
    found = file_kinds.frames_in(excerpts_of(octets))
    return found.up >= found.down if found else recordings.name_within(name).suffix == ".up"


def alaw_by_run(octets: bytes, trau: str) -> Tuple[bytes, str]:
    """What a run sends to the exchange of an uplink alone, and the report's counts of what its
    periods gave. Its Pcm line is idle."""
    idle = bytes([Law.A.idle()]) * PCM_OCTETS * (len(octets) // FRAME_OCTETS)
    with tempfile.TemporaryDirectory() as folder:
        write_line(Path(folder, "1.up"), octets)
        write_line(Path(folder, "1.pcm"), idle)
        text = said_by_program(trau, ["run"], folder, b"0 open 1\n")
        counts = run_texts.report_of(Path("report"), text).calls[1].counts
        return read_file(Path(folder, "1.out")), said_of_counts(counts)


def check_periods(name: Path, octets: bytes) -> None:
    """Refuses an uplink without a whole period."""
    if len(octets) < FRAME_OCTETS:
        raise Refusal(
            f"{name}: {len(octets)} octets are no whole period of an uplink, which has {FRAME_OCTETS}"
        )


def alaw_of_uplink(name: Path, octets: bytes, trau: Optional[str]) -> Tuple[bytes, str]:
    """What is heard of an uplink, and what its periods gave."""
    check_periods(name, octets)
    program = ready_program(trau)
    if program:
        return alaw_by_run(octets, program)
    heard = heard_of_uplink(octets)
    return heard.octets(library_or_model()), said_of_counts(heard.counts)


def alaw_of_line(name: Path, octets: bytes, trau: Optional[str]) -> Tuple[bytes, str]:
    """What is heard of a line of frames, and what was found."""
    return (alaw_of_uplink if is_uplink(name, octets) else alaw_of_downlink)(name, octets, trau)


def linear_of_line(name: Path, octets: bytes) -> Tuple["array[int]", str]:
    """The decoder's own samples of a line of frames, 13 bits in 16, and what was found."""
    if is_uplink(name, octets):
        check_periods(name, octets)
        heard = heard_of_uplink(octets)
        return heard.samples(library_or_model()), said_of_counts(heard.counts)
    frames, said = frames_of_downlink(name, octets)
    return samples_of([gsm_of_data(data) for data in frames], library_or_model()), said


class WantedSound(NamedTuple):
    """How a line is made sound of: by which program, if one is named; with the decoder's own
    samples or those of A-law; and with silence in place of what is made for lost speech or not."""

    trau: Optional[str]
    is_linear: bool
    losses_are_quiet: bool


def samples_of_line(name: Path, octets: bytes, wanted: WantedSound) -> Tuple["array[int]", str]:
    """What is heard of a line of frames in samples, and what was found."""
    if wanted.is_linear:
        samples, said = linear_of_line(name, octets)
    else:
        alaw, said = alaw_of_line(name, octets, wanted.trau)
        samples = array("h", expand_all(Law.A, alaw))
    if wanted.losses_are_quiet and is_uplink(name, octets):
        samples = without_losses(samples, octets)
    return samples, said


def samples_of_side(name: Path, octets: bytes, law: Law, wanted: WantedSound) -> "array[int]":
    """What is heard of a line of a call: octets of a law by its name, else frames."""
    if recordings.name_within(name).suffix in (".pcm", ".out"):
        return array("h", expand_all(law, octets))
    return samples_of_line(name, octets, wanted)[0]


def side_by_side(left: "array[int]", right: "array[int]") -> "array[int]":
    """The samples of two channels in turn, as a stereo file has them; the shorter one ends with
    silence."""
    size = max(len(left), len(right))
    both = array("h", bytes(4 * size))
    both[: 2 * len(left) : 2] = left
    both[1 : 2 * len(right) : 2] = right
    return both
