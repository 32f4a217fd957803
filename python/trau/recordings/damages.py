"""Damage to an uplink: pauses, unusable frames, zeros, alignment fields and slips of bits, at named
frames."""

import argparse
import re
from pathlib import Path
from typing import Callable, List, NamedTuple, Optional, Sequence, Set, Tuple

from trau.command_line.words import Refusal
from trau.rules.frame import SPEECH_CLASSES, FrameKind, bits_of, octets_of, read_up, write_up
from trau.rules.parameters import Block, Parameters, bits_of_parameters, parameters_of_bits
from trau.rules.profile import FRAME_BITS, TAF_PERIODS
from trau.rules.search import search


class FrameRange(NamedTuple):
    """Every `step`th number from `first` to `last`, or to the last there is."""

    first: int
    last: Optional[int]
    step: int


def part_named(word: str) -> FrameRange:
    """Reads a part `A`, `A-B` or `every:N` of a word that names frames."""
    found = re.fullmatch(r"(\d+)(?:-(\d+))?|every:(\d+)", word, re.ASCII)
    if not found:
        raise argparse.ArgumentTypeError(f"'{word}' isn't a frame A, frames A-B or every:N")
    if found[3]:
        part = FrameRange(int(found[3]) - 1, None, int(found[3]))
    else:
        part = FrameRange(int(found[1]), int(found[2] or found[1]), 1)
    if part.step == 0 or part.last is not None and part.last < part.first:
        raise argparse.ArgumentTypeError(f"'{word}' names no frames")
    return part


def frames_named(word: str) -> List[FrameRange]:
    """The numbers of frames that a word of the command line names: parts with commas between."""
    return list(map(part_named, word.split(",")))


def numbers_within(parts: Sequence[FrameRange], count: int) -> Set[int]:
    """The numbers that are named, all below `count`."""
    numbers: Set[int] = set()
    for part in parts:
        last = count - 1 if part.last is None else part.last
        if last >= count:
            raise Refusal(f"there is no frame {last}; the uplink has frames 0 to {count - 1}")
        numbers.update(range(part.first, last + 1, part.step))
    return numbers


class AtFrame(NamedTuple):
    """A value for one frame, as a word `FRAME:VALUE` gives it."""

    frame: int
    value: int


def at_frame(least: int, most: int) -> Callable[[str], AtFrame]:
    """Reads a word `FRAME:VALUE` whose value is within these ends, and not 0 where it may be
    negative."""

    def read(word: str) -> AtFrame:
        found = re.fullmatch(r"(\d+):([+-]?\d+)", word, re.ASCII)
        if not found:
            raise argparse.ArgumentTypeError(f"'{word}' isn't FRAME:NUMBER")
        value = int(found[2])
        if not least <= value <= most or least < 0 and value == 0:
            raise argparse.ArgumentTypeError(
                f"'{word}': the number isn't {least} to {most}{' without 0' * (least < 0)}"
            )
        return AtFrame(int(found[1]), value)

    return read


def silence_descriptor(speech: Parameters) -> Parameters:
    """A silence descriptor with the spectrum of a speech frame and the least of its block maxima."""
    maximum = min(block.xmaxc for block in speech.blocks)
    return speech._replace(blocks=4 * (Block(0, 0, 0, maximum, 13 * (0,)),))


def paused(frame: str, number: int, begins: bool) -> str:
    """What a speech frame becomes in a pause: a silence descriptor where the pause begins and where
    TAF is 1, else unusable."""
    taf = number % TAF_PERIODS == TAF_PERIODS - 1
    speech = read_up(frame)
    if not begins and not taf:
        return write_up(speech._replace(kind=FrameKind.UNUSABLE, taf=False))
    data = bits_of_parameters(silence_descriptor(parameters_of_bits(speech.data)))
    return write_up(speech._replace(kind=FrameKind.VALID_SID, taf=taf, data=data))


class DamagedUplink:
    """The frames of an uplink, by the numbers of the search's yields, with the bits before each."""

    def __init__(self, name: Path, octets: bytes) -> None:
        bits = bits_of(octets)
        yields = list(search(bits))
        if not yields:
            raise Refusal(f"{name}: no frame found")
        self.kinds = [each.kind() for each in yields]
        self.before: List[str] = []
        self.frames: List[str] = []
        place = 0
        for each in yields:
            self.before.append(bits[place : each.place])
            place = each.place + FRAME_BITS
            self.frames.append(bits[each.place : place])
        self.rest = bits[place:]

    def is_speech(self, number: int) -> bool:
        """Whether a yield is a speech frame, of whatever class."""
        return self.kinds[number] in SPEECH_CLASSES

    def slip(self, number: int, bits: int) -> None:
        """Puts ones before a frame, or leaves out the last bits before it."""
        if bits > 0:
            self.before[number] += bits * "1"
            return
        kept = len(self.before[number]) + bits
        if kept >= 0:
            self.before[number] = self.before[number][:kept]
        elif number > 0:
            self.before[number] = ""
            self.frames[number - 1] = self.frames[number - 1][:kept]
        else:
            raise Refusal(f"there are no {-bits} bits before frame 0 to leave out")

    def bits(self) -> str:
        """The bits of the line."""
        return (
            "".join(before + frame for before, frame in zip(self.before, self.frames)) + self.rest
        )


def damaged(name: Path, octets: bytes, asked: argparse.Namespace) -> Tuple[bytes, str]:
    """An uplink with the damages that the words ask for, done in the order of the kinds, and the
    number of each."""
    line = DamagedUplink(name, octets)
    count = len(line.frames)

    def named(parts: Sequence[FrameRange]) -> Set[int]:
        """The speech frames that an option names."""
        return set(filter(line.is_speech, numbers_within(parts, count)))

    pause, drop, zero = named(asked.sid), named(asked.drop), named(asked.zero)
    for number in pause:
        line.frames[number] = paused(line.frames[number], number, number - 1 not in pause)
    for number in drop:
        line.frames[number] = write_up(
            read_up(line.frames[number])._replace(kind=FrameKind.UNUSABLE)
        )
    for number in zero:
        line.frames[number] = FRAME_BITS * "0"

    for change in (*asked.align, *asked.slip):
        if change.frame >= count:
            raise Refusal(
                f"there is no frame {change.frame}; the uplink has frames 0 to {count - 1}"
            )
    for align in asked.align:
        frame = line.frames[align.frame]
        if (
            align.frame in zero
            or not line.is_speech(align.frame)
            and line.kinds[align.frame] is not FrameKind.IDLE
        ):
            raise Refusal(f"frame {align.frame} has no alignment field")
        line.frames[align.frame] = frame[:22] + f"{align.value:06b}" + frame[28:]  # C6 to C11
    for slip in asked.slip:
        line.slip(slip.frame, slip.value)

    bits = line.bits()
    if asked.slip:
        bits += -len(bits) % FRAME_BITS * "1"
    said = f"sid {len(pause)} drop {len(drop)} zero {len(zero)} align {len(asked.align)} slip {len(asked.slip)}"
    return octets_of(bits), f"damage frames {count} {said}"
