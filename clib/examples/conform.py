#!/usr/bin/env python3
"""Runs test sequences of GSM 06.10 over the C library: files .inp, .cod and .out in the form in which ETSI publishes them.

FOLDER has them. Of each name NAME.inp and NAME.cod test the encoder, NAME.cod and NAME.out the decoder, each from its reset state. A file is
words of 16 bits: 160 samples a frame in .inp and .out, and in .cod the 76 parameters in the order of table 1.1. For each test one line says
whether it is equal, or where it differs first. The status is 1 if one differs, 2 if there is none or a file can't be read.
"""

import argparse
import sys
from array import array
from pathlib import Path
from typing import Dict, List, NoReturn, Optional, Sequence

sys.path.insert(0, str(Path(__file__).resolve().parents[2] / "python"))

RATIOS = ("LARc 1", "LARc 2", "LARc 3", "LARc 4", "LARc 5", "LARc 6", "LARc 7", "LARc 8")
RATIO_WIDTHS = (6, 6, 5, 5, 4, 4, 3, 3)
BLOCK = ("Nc", "bc", "Mc", "xmaxc", *(f"xMc {i}" for i in range(13)))
BLOCK_WIDTHS = (7, 2, 2, 6, *(3,) * 13)
NAMES = (*RATIOS, *(f"{name} of block {j}" for j in (1, 2, 3, 4) for name in BLOCK))
WIDTHS = (*RATIO_WIDTHS, *BLOCK_WIDTHS * 4)
MAGIC = 0b1101
HOMING_SAMPLE = 8


def fail(why: str) -> NoReturn:
    print(f"conform.py: {why}", file=sys.stderr)
    sys.exit(2)


try:
    from trau import trau_fr
except OSError as missing:
    fail(f"no library: {missing}")


def words_of(file: Path, size: int, order: str) -> "List[array[int]]":
    """The frames of a file, so many words each."""
    words = array("h")
    try:
        data = file.read_bytes()
    except OSError as error:
        fail(f"{file}: {error.strerror}")
    if not data or len(data) % (2 * size):
        fail(f"{file}: {len(data)} octets aren't frames of {2 * size}")
    words.frombytes(data)
    if order != sys.byteorder:
        words.byteswap()
    return [words[at : at + size] for at in range(0, len(words), size)]


def packed(parameters: Sequence[int], where: str) -> bytes:
    """The 33 octets of a frame."""
    number = MAGIC
    for name, value, width in zip(NAMES, parameters, WIDTHS):
        if not 0 <= value < 1 << width:
            fail(
                f"{where}: {name} is {value}, and has {width} bits (is --byte-order the right one?)"
            )
        number = number << width | value
    return number.to_bytes(trau_fr.OCTETS, "big")


def unpacked(octets: bytes) -> List[int]:
    """The 76 parameters of a frame."""
    number, values = int.from_bytes(octets, "big"), []
    for width in reversed(WIDTHS):
        values.append(number & ((1 << width) - 1))
        number >>= width
    return values[::-1]


HOMING_INPUT = array("h", [HOMING_SAMPLE] * trau_fr.SAMPLES)
HOMING_FRAME = trau_fr.Encoder().encode(HOMING_INPUT)


class Coder:
    """An encoder and a decoder of a frame at a time. With homing, each starts again after its homing frame, and a decoder that has just
    started gives the encoder's homing frame for its own."""

    def __init__(self, homing: bool) -> None:
        self.homing, self.decoded = homing, 0
        self.encoder, self.decoder = trau_fr.Encoder(), trau_fr.Decoder()

    def encode(self, samples: "array[int]") -> List[int]:
        parameters = unpacked(self.encoder.encode(samples))
        if self.homing and samples == HOMING_INPUT:
            self.encoder = trau_fr.Encoder()
        return parameters

    def decode(self, octets: bytes) -> List[int]:
        if not self.homing or octets != HOMING_FRAME:
            self.decoded += 1
            return list(self.decoder.decode(octets))
        samples = self.decoder.decode(octets) if self.decoded else HOMING_INPUT
        self.decoder, self.decoded = trau_fr.Decoder(), 0
        return list(samples)


def difference(
    wanted: Sequence[Sequence[int]], got: Sequence[Sequence[int]], names: Sequence[str]
) -> Optional[str]:
    """Where two lists of frames differ first."""
    for k, (frame, other) in enumerate(zip(wanted, got)):
        for name, value, given in zip(names, frame, other):
            if value != given:
                return f"frame {k}: {name} is {value} in the sequence and {given} of the library"
    if len(wanted) != len(got):
        return f"the sequence has {len(wanted)} frames, and its input {len(got)}"
    return None


def tests_of(files: Dict[str, Path], asked: argparse.Namespace) -> Dict[str, Optional[str]]:
    """What of a sequence can be tested: of each test where it differs first."""
    found, coder = {}, Coder(asked.homing)
    codes = words_of(files[".cod"], len(WIDTHS), asked.byte_order)
    if ".inp" in files:
        got = [
            coder.encode(frame)
            for frame in words_of(files[".inp"], trau_fr.SAMPLES, asked.byte_order)
        ]
        found[f"encoder, {len(codes)} frames"] = difference(codes, got, NAMES)
    if ".out" in files:
        samples = words_of(files[".out"], trau_fr.SAMPLES, asked.byte_order)
        heard = [
            coder.decode(packed(frame, f"{files['.cod']}, frame {k}"))
            for k, frame in enumerate(codes)
        ]
        found[f"decoder, {len(codes)} frames"] = difference(
            samples, heard, [f"sample {i}" for i in range(trau_fr.SAMPLES)]
        )
    return found


def sequences_in(folder: Path) -> Dict[str, Dict[str, Path]]:
    """The files of each sequence by their endings, in small or capital letters."""
    found: Dict[str, Dict[str, Path]] = {}
    try:
        files = sorted(
            file for file in folder.iterdir() if file.suffix.lower() in (".inp", ".cod", ".out")
        )
    except OSError as error:
        fail(f"{folder}: {error.strerror}")
    for file in files:
        found.setdefault(file.stem.lower(), {})[file.suffix.lower()] = file
    return {name: files for name, files in found.items() if ".cod" in files and len(files) > 1}


def main() -> int:
    parser = argparse.ArgumentParser(
        prog="conform.py", description=__doc__, formatter_class=argparse.RawTextHelpFormatter
    )
    parser.add_argument("folder", metavar="FOLDER", type=Path, help="the folder of the sequences")
    parser.add_argument(
        "--byte-order",
        choices=("little", "big"),
        default="little",
        help="of the words (default little)",
    )
    parser.add_argument(
        "--homing",
        action="store_true",
        help="coder and decoder have homing frames, which the library hasn't",
    )
    asked = parser.parse_args()
    sequences = sequences_in(asked.folder)
    if not sequences:
        fail(f"{asked.folder}: no NAME.cod with NAME.inp or NAME.out")
    differ = 0
    for name, files in sequences.items():
        for test, where in tests_of(files, asked).items():
            print(f"{name} {test}: {'equal' if where is None else 'differs at ' + where}")
            differ += where is not None
    return 1 if differ else 0


if __name__ == "__main__":
    sys.exit(main())
