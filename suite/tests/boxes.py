"""Boxes for the tests of check.py: the model with one rule turned by an edit of its source, and the lines that it makes of an input of loud
speech with losses and pauses."""

import ast
import enum
import importlib
import importlib.abc
import importlib.machinery
import multiprocessing
from multiprocessing.connection import Connection
import sys
from functools import lru_cache
from types import ModuleType
from typing import Dict, List, NamedTuple, Optional, Sequence, Tuple

from trau.model.codec import FullRateEncoder
from trau.rules.frame import FrameKind, UpFrame, octets_of, write_up
from trau.rules.g711 import Law, compress_all
from trau.rules.parameters import SILENCE, Block, Parameters, bits_of_parameters
from trau.suite import sounds
from trau.suite.edits import EDITED_PACKAGES, PACKAGE
from trau.suite.operations import DESCRIPTOR, GOOD, IDLE, LOST, LOST_DUE
from trau.suite.random_source import NamedSource

SAMPLES = 160
KINDS = {
    GOOD: FrameKind.SPEECH,
    DESCRIPTOR: FrameKind.VALID_SID,
    LOST: FrameKind.UNUSABLE,
    LOST_DUE: FrameKind.UNUSABLE,
    IDLE: FrameKind.IDLE,
}


class Turn(NamedTuple):
    """An edit: a module without `trau.`, a text of its source, and what stands there in the box."""

    module: str
    before: str
    after: str


class BoxModule(importlib.abc.MetaPathFinder, importlib.abc.Loader):
    """Finds and loads the modules of a box."""

    def __init__(self, turns: Sequence[Turn]) -> None:
        self.sources: Dict[str, str] = {}
        for turn in turns:
            name = f"trau.{turn.module}"
            path = PACKAGE / f"{turn.module.replace('.', '/')}.py"
            source = self.sources.get(name) or path.read_text(encoding="utf-8")
            assert source.count(turn.before) == 1, (turn, source.count(turn.before))
            self.sources[name] = source.replace(turn.before, turn.after)
            ast.parse(self.sources[name])

    def find_spec(
        self, name: str, path: object, target: object = None
    ) -> Optional[importlib.machinery.ModuleSpec]:
        """Of the turned modules."""
        return importlib.machinery.ModuleSpec(name, self) if name in self.sources else None

    def create_module(self, spec: importlib.machinery.ModuleSpec) -> Optional[ModuleType]:
        """As the system does it."""
        return None

    def exec_module(self, module: ModuleType) -> None:
        """Runs the turned source."""
        exec(compile(self.sources[module.__name__], module.__name__, "exec"), module.__dict__)


class Given(NamedTuple):
    """What a box is given: its uplink, its line from the exchange, and the law of the latter."""

    up: bytes
    pcm: bytes
    law: str = "alaw"


class Side(enum.Enum):
    """The line that a box makes."""

    OUT = enum.auto()
    DOWN = enum.auto()


def line_of(turns: Sequence[Turn], given: Given, side: Side) -> bytes:
    """A line of a box, in a process that is for it alone if there are edits."""
    if turns:
        for name in list(sys.modules):
            if name.startswith(EDITED_PACKAGES):
                del sys.modules[name]
        sys.meta_path.insert(0, BoxModule(turns))
    call = importlib.import_module("trau.model.call")
    law = importlib.import_module("trau.rules.g711").Law(given.law)
    periods = min(len(given.up) // 40, len(given.pcm) // 160)
    made = call.Call(7, law, periods, call.uplink(7, given.up), given.pcm, (), ())
    if side is Side.OUT:
        line: bytes = call.out_line(made)
        return line
    downlink = importlib.import_module("trau.model.downlink")
    frames = downlink.made_frames(periods, downlink.asked_shifts(made.up.frames), [])
    bits = [call.write_down(frame) for frame in call.down_frames(made, frames)]
    down: bytes = call.octets_of(downlink.down_bits(frames, bits, periods))
    return down


def _send(pipe: Connection, turns: Sequence[Turn], given: Given, side: Side) -> None:
    """Sends the line."""
    pipe.send(line_of(turns, given, side))


def box(turns: Sequence[Turn], given: Given, side: Side) -> bytes:
    """A line of a box."""
    if not turns:
        return line_of((), given, side)
    context = multiprocessing.get_context("fork")
    mine, its = context.Pipe()
    process = context.Process(target=_send, args=(its, turns, given, side))
    process.start()
    its.close()
    line: bytes = mine.recv()
    process.join()
    return line


@lru_cache(maxsize=None)
def speech(name: str, frames: int, loudness: int = 6000) -> Tuple[Parameters, ...]:
    """Frames of something like speech."""
    samples = sounds.voice(NamedSource(name), frames, loudness)
    encoder = FullRateEncoder()
    return tuple(
        encoder.encode(samples[k : k + SAMPLES]).parameters
        for k in range(0, SAMPLES * frames, SAMPLES)
    )


@lru_cache(maxsize=None)
def descriptors(name: str, count: int) -> Tuple[Parameters, ...]:
    """Silence descriptors of noises of several levels."""
    source = NamedSource(name)
    found = []
    for _ in range(count):
        peak = source.choice((300, 800, 2000, 5000))
        samples = sounds.resonated(
            sounds.noise(source, SAMPLES * 3, peak),
            source.within(-3000, 3000),
            source.within(0, 2500),
        )
        encoder = FullRateEncoder()
        frame = [
            encoder.encode(samples[k : k + SAMPLES]).parameters
            for k in range(0, SAMPLES * 3, SAMPLES)
        ][-1]
        block = Block(0, 0, 0, frame.blocks[0].xmaxc, (0,) * 13)
        found.append(Parameters(frame.larc, (block,) * 4))
    return tuple(found)


def uplink(
    name: str,
    digits: str,
    dtxd: bool = False,
    fields: Optional[Dict[int, int]] = None,
    loudness: int = 6000,
) -> bytes:
    """An uplink whose periods are these digits; a lost frame has the bits of silence."""
    voice, noises = iter(speech(name, digits.count(GOOD), loudness)), iter(
        descriptors(name, digits.count(DESCRIPTOR))
    )
    bits = []
    for k, digit in enumerate(digits):
        parameters = (
            next(voice) if digit == GOOD else next(noises) if digit == DESCRIPTOR else SILENCE
        )
        frame = UpFrame(
            KINDS[digit],
            digit == LOST_DUE,
            dtxd,
            (fields or {}).get(k, 0),
            bits_of_parameters(parameters),
        )
        bits.append(write_up(frame))
    return octets_of("".join(bits))


def pcm(name: str, *lengths: int, loud: int = 6000, soft: int = 30) -> bytes:
    """Something like speech and nearly silent noise in turn, of these lengths in frames, as A-law."""
    source = NamedSource(name)
    samples: List[int] = []
    for place, length in enumerate(lengths):
        samples += (
            sounds.noise(source, SAMPLES * length, soft)
            if place % 2
            else sounds.voice(source, length, loud)
        )
    return compress_all(Law.A, samples)
