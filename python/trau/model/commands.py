"""The commands on one call: `relay`, `decode`, `encode`, `frames`, `split`, `merge`, `follow`
(docs/commands).

What a command makes of its line is made of the whole line; only then it is written, block by block
in the order in which the command reads and writes, since a fault stops it there.
"""

from functools import partial
from typing import Callable, Dict, Iterable, List, NamedTuple, Optional, Sequence, Tuple

from trau.rules import profile
from trau.rules.frame import (
    Bits,
    DownFrame,
    FrameKind,
    bits_of,
    octets_of,
    read_up,
    write_down,
    write_up,
)
from trau.rules.g711 import Law, compress_all, expand_all
from trau.rules.lines import DOWN, OCTETS_OF_SIDE, OUT, PCM, UP
from trau.rules.parameters import bits_of_parameters, parameters_of_bits
from trau.rules.search import FRAME, end_of_text, yields_by_period
from trau.rules.slots import merge, split
from trau.rules.numbers import number

from trau.model import reasons
from trau.model.basestation import answers, heard_by_period
from trau.model.codec import FullRateDecoder, FullRateEncoder
from trau.model.outside import Desk, Given, Lines, Status


class Stopped(Exception):
    """What stops a command: its status, and the text that is still written."""

    def __init__(self, status: Status, text: str = "") -> None:
        super().__init__(text)
        self.status, self.text = status, text


def line_failure(call: int, side: str) -> Stopped:
    """A line failed (docs/commands, status 6)."""
    return Stopped(Status.LINE_FAILED, f"line {call} {side} failed\n")


def write_line(lines: Lines, call: int, side: str, octets: bytes) -> None:
    """Writes octets to a line; no octets are no write."""
    if octets and not lines.write(call, side, octets):
        raise line_failure(call, side)


def write_text(desk: Desk, text: str) -> None:
    """Writes a text to standard output; no text is no write."""
    if text and not desk.write(text):
        raise Stopped(Status.UNWRITTEN)


def read_line(lines: Lines, call: int, side: str) -> Given:
    """What an incoming line gives, to the most periods that a command takes; nothing is read behind
    them."""
    return lines.read(call, side, profile.MOST_PERIODS * OCTETS_OF_SIDE[side])


def block(octets: bytes, size: int, place: int) -> bytes:
    """The block at this place, from 0; it is shorter where the octets end inside it."""
    return octets[size * place : size * (place + 1)]


def blocks_of(octets: bytes, size: int) -> List[bytes]:
    """The whole blocks of this size."""
    return [block(octets, size, place) for place in range(len(octets) // size)]


# `relay` and `decode`: blocks of good speech frames.


def speech_of(octets: bytes) -> Optional[Bits]:
    """D1 to D260 of a block that is a good speech frame, else None (docs/commands/relay.md)."""
    bits = bits_of(octets)
    frame = read_up(bits) if FRAME.fullmatch(bits) else None
    return frame.data if frame is not None and frame.kind is FrameKind.SPEECH else None


def good_blocks(given: Given) -> List[Bits]:
    """The data bits of the blocks before the first that isn't a good speech frame
    (docs/commands/relay.md)."""
    good: List[Bits] = []
    for octets in blocks_of(given.octets, profile.FRAME_OCTETS):
        data = speech_of(octets)
        if data is None:
            break
        good.append(data)
    return good


def relayed(data: Sequence[Bits]) -> List[bytes]:
    """The downlink frames of the data bits, with SP 1 (docs/commands/relay.md)."""
    return [octets_of(write_down(DownFrame(FrameKind.SPEECH, bits))) for bits in data]


def decoded(data: Sequence[Bits]) -> List[bytes]:
    """The A-law octets of the data bits, from home (docs/commands/decode.md)."""
    decoder = FullRateDecoder()
    return [compress_all(Law.A, decoder.decode(parameters_of_bits(bits))) for bits in data]


def speech(
    word: str,
    side: str,
    make: Callable[[Sequence[Bits]], List[bytes]],
    call: int,
    lines: Lines,
    desk: Desk,
) -> str:
    """`relay C` or `decode C`, by the word: the good speech frames of an aligned uplink to the side
    on which goes what is made of the data bits of all blocks (docs/commands/relay.md,
    docs/commands/decode.md).

    What is made of a block is written before the next one is read. So a fault in writing goes
    before a refused block, and a refused block before a fault of reading behind it."""
    given = read_line(lines, call, UP)
    data = good_blocks(given)
    for octets in make(data):
        write_line(lines, call, side, octets)
    following = block(given.octets, profile.FRAME_OCTETS, len(data))
    if len(following) == profile.FRAME_OCTETS or following and not given.failed:
        raise Stopped(Status.REFUSED, f"{word} refused {len(data)}\n")
    if given.failed:
        raise line_failure(call, UP)
    return f"{word} frames {len(data)}\n"


# `encode`.


def encoded(blocks: Sequence[bytes]) -> Iterable[bytes]:
    """The downlink frames of blocks of 160 octets of A-law, from home, with SP 1
    (docs/commands/encode.md)."""
    encoder = FullRateEncoder()
    for octets in blocks:
        parameters = encoder.encode(expand_all(Law.A, octets)).parameters
        yield octets_of(write_down(DownFrame(FrameKind.SPEECH, bits_of_parameters(parameters))))


def encode(call: int, lines: Lines, desk: Desk) -> str:
    """`encode C`: a line from the exchange to downlink speech frames (docs/commands/encode.md)."""
    given = read_line(lines, call, PCM)
    blocks = blocks_of(given.octets, profile.PCM_OCTETS)
    for octets in encoded(blocks):
        write_line(lines, call, DOWN, octets)
    if given.failed:
        raise line_failure(call, PCM)
    return f"encode frames {len(blocks)} left {len(given.octets) % profile.PCM_OCTETS}\n"


# `frames`.


def frames(call: int, lines: Lines, desk: Desk) -> str:
    """`frames C`: the yields of the search on an uplink (docs/commands/frames.md)."""
    given = read_line(lines, call, UP)
    yields = [one for one in yields_by_period(bits_of(given.octets)) if one is not None]
    for one in yields:
        write_text(desk, one.line())
    if given.failed:
        raise line_failure(call, UP)
    return end_of_text(len(yields), len(given.octets))


# `split` and `merge`.


def split_slot(call: int, lines: Lines, desk: Desk) -> str:
    """`split C`: the channels of a time slot to the Down lines of four calls
    (docs/commands/split.md)."""
    given = read_line(lines, call, PCM)
    blocks = blocks_of(given.octets, profile.PCM_OCTETS)
    rest = b"" if given.failed else block(given.octets, profile.PCM_OCTETS, len(blocks))
    for octets in blocks + [rest]:
        for channel, own in enumerate(split(octets)):
            write_line(lines, call + channel, DOWN, own)
    if given.failed:
        raise line_failure(call, PCM)
    left = len(rest) % 4
    return f"split octets {len(given.octets) - left} left {left}\n"


def merge_slot(call: int, lines: Lines, desk: Desk) -> str:
    """`merge C`: the Up lines of four calls to a time slot (docs/commands/merge.md).

    All four lines are read, block by block, before anything of a block is written; the first block
    that is short on a line is the last.
    """
    given = [read_line(lines, call + channel, UP) for channel in range(profile.CHANNELS)]
    whole = min(len(one.octets) // profile.FRAME_OCTETS for one in given)
    for place in range(whole):
        write_line(
            lines,
            call,
            OUT,
            merge([block(one.octets, profile.FRAME_OCTETS, place) for one in given]),
        )
    last = [block(one.octets, profile.FRAME_OCTETS, whole) for one in given]
    for channel, one in enumerate(given):
        if one.failed and len(last[channel]) < profile.FRAME_OCTETS:
            raise line_failure(call + channel, UP)
    used = min(map(len, last))
    write_line(lines, call, OUT, merge([octets[:used] for octets in last]))
    taken = profile.CHANNELS * (profile.FRAME_OCTETS * whole + used)
    return f"merge octets {taken} left {' '.join(str(len(octets) - used) for octets in last)}\n"


# `follow`.


def follow(call: int, wanted: int, lines: Lines, desk: Desk) -> str:
    """`follow C W`: the base station's end of a downlink (docs/commands/follow.md).

    The answer of a period is written before the lines of text of its frames."""
    given = read_line(lines, call, UP)
    by_period = heard_by_period(given.octets)
    for heard, frame in zip(by_period, answers(by_period, wanted)):
        write_line(lines, call, DOWN, octets_of(write_up(frame)))
        write_text(desk, "".join(f"{one.place} {one.frame.word()}\n" for one in heard))
    if given.failed:
        raise line_failure(call, UP)
    return f"follow frames {sum(map(len, by_period))} left {len(given.octets) % profile.FRAME_OCTETS}\n"


# Words.


class CallCommand(NamedTuple):
    """A command on one call: what does it and answers the text at its end, and the least and
    greatest numbers that its words may be."""

    work: Callable[..., str]
    ranges: Sequence[Tuple[int, int]] = ((1, profile.MOST_CALLS),)


COMMANDS: Dict[str, CallCommand] = {
    "relay": CallCommand(partial(speech, "relay", DOWN, relayed)),
    "decode": CallCommand(partial(speech, "decode", OUT, decoded)),
    "encode": CallCommand(encode),
    "frames": CallCommand(frames),
    "split": CallCommand(split_slot, ((1, profile.MOST_SLOT_CALL),)),
    "merge": CallCommand(merge_slot, ((1, profile.MOST_SLOT_CALL),)),
    "follow": CallCommand(follow, ((1, profile.MOST_CALLS), (0, profile.MOST_WANTED))),
}


def asked(words: Sequence[str]) -> Optional[List[int]]:
    """The numbers that the words of a command name, a call and what `follow` asks for, or None
    where they are wrong (docs/commands)."""
    ranges = COMMANDS[words[0]].ranges
    numbers = [number(word, *ends) for word, ends in zip(words[1:], ranges)]
    found = [each for each in numbers if each is not None]
    is_wrong = (
        len(words) != 1 + len(ranges)
        or len(found) < len(ranges)
        or any(wanted % profile.WANTED_STEP for wanted in found[1:])
    )
    return None if is_wrong else found


def command(words: Sequence[str], lines: Lines, desk: Desk) -> Optional[int]:
    """Runs a command on one call and gives its status; None where the first word names none of them
    (docs/commands)."""
    if not words or words[0] not in COMMANDS:
        return None
    numbers = asked(words)
    if numbers is None:
        desk.write("usage\n")
        desk.explain(reasons.of_words(words))
        return int(Status.USAGE)
    try:
        write_text(desk, COMMANDS[words[0]].work(*numbers, lines, desk))
        return int(Status.DONE)
    except Stopped as stopped:
        if stopped.text and not desk.write(stopped.text):
            return int(Status.UNWRITTEN)
        return int(stopped.status)
