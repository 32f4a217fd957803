"""The recorded answers of this repository, each made anew by the model: file by file, which octets
it has to have.

Their inputs are recorded lines, orders and words; of `checks/follow` the downlinks that the model
makes of the recorded farms. A tool draws the picture of the farm of examples.
"""

import subprocess
import sys
from pathlib import Path
from tempfile import TemporaryDirectory
from typing import Callable, Dict, List, NamedTuple, Sequence, Tuple

from trau.rules.lines import name_of

from trau.model.outside import MemoryDesk, MemoryLines
from trau.model.top import top
from trau.model.trials import TOP

Files = Dict[Path, bytes]
VECTORS = TOP / "checks/vectors"
FARMS = TOP / "checks/farms"


class Ran(NamedTuple):
    """What a command gave: its status, its text, and what it wrote, by the lines' file names."""

    status: int
    text: bytes
    lines: Dict[str, bytes]


def run_command(words: Sequence[str], incoming: Dict[str, bytes], stdin: bytes = b"") -> Ran:
    """Runs a command of the model over lines in memory, which have file names; a line that isn't
    there fails."""
    lines = MemoryLines({place_of(name): octets for name, octets in incoming.items()})
    desk = MemoryDesk(stdin)
    status = top(words, lines, desk)
    written = {name_of(call, side): octets for (call, side), octets in lines.written.items()}
    return Ran(status, desk.text.encode("ascii"), written)


def place_of(name: str) -> Tuple[int, str]:
    """The call and the side of a line's file name."""
    call, side = name.split(".")
    return int(call), side


def lines_in(folder: Path) -> Dict[str, bytes]:
    """The incoming lines that a folder has."""
    return {
        path.name: path.read_bytes()
        for path in sorted(folder.glob("*"))
        if path.suffix in (".up", ".pcm")
    }


def checksum(octets: bytes) -> bytes:
    """The line that the command `cksum` prints of standard input: POSIX's sum, and the number of
    octets."""
    return subprocess.run(["cksum"], input=octets, check=True, stdout=subprocess.PIPE).stdout


# Farms and faults


def mixed_incoming() -> Tuple[Dict[str, bytes], bytes]:
    """The incoming lines and the orders of the farm of examples."""
    folder = TOP / "examples/farm"
    return {
        name: octets
        for name, octets in lines_in(folder).items()
        if name[0] in "1234" and name[1] == "."
    }, (folder / "orders.txt").read_bytes()


def harsh_incoming() -> Tuple[Dict[str, bytes], bytes]:
    """The incoming lines and the orders of the harsh farm, whose uplinks are among the vectors."""
    uplinks = {f"{call}.up": (VECTORS / f"farm-{call}.up").read_bytes() for call in range(1, 6)}
    return {**lines_in(FARMS / "harsh"), **uplinks}, (FARMS / "harsh/orders.txt").read_bytes()


def files_of(ran: Ran, folder: Path) -> Files:
    """The outgoing lines of a run and its report, in a folder."""
    return {
        **{folder / name: octets for name, octets in ran.lines.items()},
        folder / "report.txt": ran.text,
    }


def mixed_farm() -> Files:
    """examples/farm/wanted, and the picture that tools/README.md shows of it."""
    incoming, orders = mixed_incoming()
    ran = run_command(["run"], incoming, orders)
    return {
        **files_of(ran, TOP / "examples/farm/wanted"),
        TOP / "tools/farm.svg": picture_of(incoming, orders, ran),
    }


def picture_of(incoming: Dict[str, bytes], orders: bytes, ran: Ran) -> bytes:
    """The picture that tools/timeline.py draws of a run, which is laid into a folder for it."""
    with TemporaryDirectory() as name:
        folder = Path(name)
        for path, octets in {
            **files_of(ran, folder),
            **{folder / line: octets for line, octets in incoming.items()},
        }.items():
            path.write_bytes(octets)
        (folder / "orders.txt").write_bytes(orders)
        picture = folder / "picture.svg"
        subprocess.run(
            [sys.executable, str(TOP / "tools/timeline.py"), str(folder), str(picture)],
            check=True,
            stdout=subprocess.DEVNULL,
        )
        return picture.read_bytes()


def harsh_farm() -> Files:
    """checks/farms/harsh; its report is with the uplinks."""
    incoming, orders = harsh_incoming()
    ran = run_command(["run"], incoming, orders)
    files = {FARMS / "harsh" / name: octets for name, octets in ran.lines.items()}
    return {**files, VECTORS / "farm-report.txt": ran.text}


def farm_in(folder: Path) -> Files:
    """A recorded farm that has its own incoming lines."""
    return files_of(
        run_command(["run"], lines_in(folder), (folder / "orders.txt").read_bytes()), folder
    )


def fault_in(folder: Path) -> Files:
    """A recorded run in which a line fails, and its status."""
    ran = run_command(["run"], lines_in(folder), (folder / "orders.txt").read_bytes())
    return {**files_of(ran, folder), folder / "status": b"%d\n" % ran.status}


# Commands without lines


def words_in(folder: Path) -> List[List[str]]:
    """The command lines of a folder, by line."""
    return [line.split() for line in (folder / "words.txt").read_text().splitlines()]


def text_number(folder: Path, number: int) -> Files:
    """The text of a recorded command line, or its sum where that is what is recorded."""
    text = run_command(words_in(folder)[number], {}).text
    summed = folder / f"{number}.cksum"
    return {summed: checksum(text)} if summed.exists() else {folder / f"{number}.txt": text}


def program() -> Files:
    """What the program prints when the toolchain runs it."""
    folder = TOP / "crates/trau_program"
    return {folder / "stdout": run_command((folder / "args").read_text().split(), {}).text}


# Marks, slots, base stations


def mark_at(period: int) -> Files:
    """The mark of the harsh farm at a period."""
    incoming, orders = harsh_incoming()
    return {
        TOP
        / f"checks/save/{period}.mark": run_command(
            ["save", "--periods", str(period)], incoming, orders
        ).text
    }


def saved_sizes(periods: Sequence[int]) -> Files:
    """How many octets of each outgoing line of the harsh farm are written before each mark."""
    incoming, orders = harsh_incoming()
    whole = run_command(["run"], incoming, orders).lines
    lines = []
    for period in periods:
        front = run_command(["save", "--periods", str(period)], incoming, orders).lines
        lines += [f"{period} {name} {len(front.get(name, b''))}\n" for name in sorted(whole)]
    return {TOP / "checks/save/octets.txt": "".join(lines).encode()}


def slots() -> Files:
    """checks/slots: a slot that is cut, and channels that are put together."""
    folder = TOP / "checks/slots"
    cut, joined = (run_command([word, "5"], lines_in(folder)) for word in ("split", "merge"))
    lines = {folder / name: octets for ran in (cut, joined) for name, octets in ran.lines.items()}
    return {**lines, folder / "split.txt": cut.text, folder / "merge.txt": joined.text}


def followed() -> Files:
    """Downlinks of recorded farms, as a base station hears them, and what it sends up."""
    harsh, mixed = (
        run_command(["run"], *given()).lines for given in (harsh_incoming, mixed_incoming)
    )
    here = TOP / "checks/follow"
    files: Files = {}
    for down, want, text, heard, sent in (
        (harsh["1.down"], "0", "harsh-1-0.txt", None, here / "harsh-1-0.down"),
        (mixed["1.down"], "316", "mixed-1-316.txt", None, here / "mixed-1-316.down"),
        (
            harsh["3.down"],
            "100",
            "harsh-3-100.txt",
            VECTORS / "follow-100.down",
            VECTORS / "follow-100.up",
        ),
        (mixed["2.down"], "4", "mixed-2-4.txt", VECTORS / "follow-4.down", VECTORS / "follow-4.up"),
    ):
        ran = run_command(["follow", "7", want], {"7.up": down})
        files.update({here / text: ran.text, sent: ran.lines["7.down"]})
        if heard is not None:
            files.update({heard: down, heard.with_suffix(".txt"): places_in(ran.text)})
    return files


def places_in(text: bytes) -> bytes:
    """Of each frame in the text of `follow` its place, and 1 for speech or 0 for an idle frame."""
    words = [line.split() for line in text.decode().splitlines()[:-1]]
    return "".join(f"{place} {int(word == 'speech')}\n" for place, word in words).encode()


# Answers of libgsm, which the model is compared with and never replaces


def codec_answers() -> Files:
    """What `decode` and `encode` make of the recorded speech."""
    files: Files = {}
    for name in ("speech-en-m3", "speech-loud-m7", "harsh"):
        decoded = run_command(["decode", "7"], {"7.up": (VECTORS / f"{name}.up").read_bytes()})
        encoded = run_command(["encode", "7"], {"7.pcm": (VECTORS / f"{name}.pcm").read_bytes()})
        files.update(
            {
                VECTORS / f"{name}.out": decoded.lines["7.out"],
                VECTORS / f"{name}.down": encoded.lines["7.down"],
            }
        )
    return files


class Group(NamedTuple):
    """Recorded answers that are made together: what makes them, of what, and whether they may be
    replaced by the model's."""

    make: Callable[..., Files]
    arguments: Tuple[object, ...] = ()
    is_replaced: bool = True


def groups() -> List[Group]:
    """All recorded answers, the ones that take longest first."""
    drills = [
        Group(text_number, (folder, place))
        for folder in FOLDERS_OF_TEXTS
        for place in range(len(words_in(folder)))
    ]
    faults = [
        Group(fault_in, (folder,))
        for folder in sorted((TOP / "checks/faults").iterdir())
        if folder.is_dir()
    ]
    periods = sorted(int(path.stem) for path in (TOP / "checks/save").glob("*.mark"))
    farms = [
        Group(mixed_farm),
        Group(harsh_farm),
        Group(farm_in, (FARMS / "clean",)),
        Group(farm_in, (FARMS / "mulaw",)),
    ]
    marks = [Group(saved_sizes, (periods,))] + [Group(mark_at, (period,)) for period in periods]
    return (
        drills
        + farms
        + faults
        + marks
        + [Group(program), Group(followed), Group(slots), Group(codec_answers, (), False)]
    )


FOLDERS_OF_TEXTS = (TOP / "checks/drill", TOP / "checks/live")


def made(group: Group) -> Files:
    """The files of a group, made anew."""
    return group.make(*group.arguments)
