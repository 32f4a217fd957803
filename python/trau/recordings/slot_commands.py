"""The command of lines.py that takes a time slot, or a channel of it, from a recording of a whole
line."""

import argparse
import itertools

from trau.command_line.words import Refusal, number_within, option
from trau.recordings import file_kinds, recordings
from trau.recordings.commands import Content, FileCommand, MadeFile, lsb_first, partial
from trau.rules.profile import CHANNELS
from trau.rules.slots import MOST_SLOTS, channel_octets

MOST_SKIPPED = 1 << 40


def read_slot(words: argparse.Namespace) -> bytes:
    """The octets of a slot of a recorded line, which may be longer than the memory."""
    if words.slot >= words.of:
        raise Refusal(f"--slot {words.slot}: the slots of this line are 0 to {words.of - 1}")
    blocks = recordings.blocks_of(words.given, words.partial)
    first = next(blocks, b"")
    has_size = words.given.is_file() and words.given.suffix != recordings.PACKED
    size = words.given.stat().st_size if has_size else 0
    file_kinds.refuse_head(words.given, first, "no recording of a line", size)
    octets = recordings.aligned(itertools.chain([first], blocks), words.lsb_first, words.skip_bits)
    return recordings.slot_of(octets, words.slot, words.of, words.skip)


def slot(words: argparse.Namespace, given: bytes) -> MadeFile:
    """Takes one time slot from a recording of a whole line: every Nth octet, such as each 32nd one
    of an E1 line. With --channel it takes one of the slot's four channels of 16 kbit/s, an uplink
    or a downlink. Without --of the recording is of one slot, and --lsb-first turns the bits of its
    octets. Prints `slot octets N`, with --channel also `channel J left R`: the octets of the slot
    after the last four."""
    if not given:
        raise Refusal(f"{words.given}: has no octet of slot {words.slot}")
    if words.channel is None:
        return MadeFile(given, f"slot octets {len(given)}", Content.SLOT)
    channel = channel_octets(given, words.channel)
    if not channel:
        raise Refusal(
            f"{words.given}: slot {words.slot} has {len(given)} octets, and four make one of a"
            " channel"
        )
    left = len(given) % CHANNELS
    said = f"slot octets {len(channel)} channel {words.channel} left {left}"
    return MadeFile(channel, said, Content.CHANNEL)


SLOT = FileCommand(
    slot,
    "IN",
    "OUT",
    example="line.e1 1.up --slot 16 --of 32 --channel 2",
    options=(
        option(
            "--channel",
            type=number_within(0, CHANNELS - 1),
            metavar="J",
            help="the channel of the slot, 0 to 3, as `trau split` counts them",
        ),
        option(
            "--slot",
            type=number_within(0, MOST_SLOTS - 1),
            default=0,
            metavar="N",
            help="the slot, counted from 0 (default 0)",
        ),
        option(
            "--of",
            type=number_within(1, MOST_SLOTS),
            default=1,
            metavar="N",
            help="the number of slots of the line (default 1)",
        ),
        option(
            "--skip",
            type=number_within(0, MOST_SKIPPED),
            default=0,
            metavar="N",
            help="the number of octets that precede the first one of slot 0 (default 0)",
        ),
        option(
            "--skip-bits",
            type=number_within(0, 7),
            default=0,
            metavar="N",
            help="the number of bits, 0 to 7, that precede the first octet, beside those that --skip"
            " names (default 0)",
        ),
        lsb_first(),
        partial("what can be unpacked of a file that gzip packed"),
    ),
    read=read_slot,
)
