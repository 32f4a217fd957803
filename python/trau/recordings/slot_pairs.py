"""Pairs the uplinks that were unpacked of a line with the stretches of A-law or mu-law that carry
their sound."""

from pathlib import Path
from types import ModuleType
from typing import Dict, List, Sequence

from trau.command_line.files import read_part
from trau.recordings import pairs
from trau.recordings.pairs import MOST_DELAY, Decoded, SlotSound
from trau.recordings.unpacked_folder import UnpackedCall, UnpackedFolder, UnpackedLine
from trau.rules.frame import bits_of, octets_of
from trau.rules.lines import PCM, UP
from trau.rules.profile import FRAME_OCTETS, PCM_OCTETS, SAMPLES_A_SECOND
from trau.rules.search import search

MOST_PERIODS = 1000  # of a call that are compared, 20 s
# How loud an octet of A-law is, by its seven bits without the sign; the even ones are inverted.
LOUDNESS = [(octet ^ 0x55) & 0x7F for octet in range(256)]
MILLISECOND = SAMPLES_A_SECOND // 1000


def decoded(octets: bytes, offset: int, library: ModuleType) -> Decoded:
    """The sound of an uplink, whose line begins with an octet of the slot."""
    receiver, start = library.Receiver(seed=1), offset
    parts: List[bytes] = []
    good: List[bool] = []
    for each in search(bits_of(octets)):
        if not parts:
            start = offset + each.place // 2
        if each.frame is None:
            parts.append(receiver.receive_line(None))
            good.append(False)
            continue
        frame, kind, taf = library.read_uplink(octets_of(each.frame))
        parts.append(receiver.receive_line(frame, kind, taf))
        good.append(kind == library.Kind.SPEECH)
    before = range(pairs.GOOD_BEFORE + 1)
    after_good = [all(good[max(0, at - back)] for back in before) for at in range(len(good))]
    loudness = [sum(map(LOUDNESS.__getitem__, part)) for part in parts]
    return Decoded(start, b"".join(parts), loudness, after_good)


def sound_of(path: Path, line: UnpackedLine, start: int, end: int) -> SlotSound:
    """The octets of a Pcm line from an octet of the slot up to another."""
    first = max(0, start - line.offset)
    return SlotSound(line.offset + first, read_part(path, first, max(0, end - line.offset - first)))


def pair_uplink(
    call: UnpackedCall, sounds: Sequence[UnpackedCall], folder: UnpackedFolder, library: ModuleType
) -> None:
    """Pairs an uplink, if that is sure."""
    line = call.lines[UP]
    end = line.offset + PCM_OCTETS * min(line.periods, MOST_PERIODS) + MOST_DELAY
    slots: Dict[int, SlotSound] = {}
    for at, other in enumerate(sounds):
        of_other = other.lines[PCM]
        if of_other.offset < end and line.offset < of_other.offset + PCM_OCTETS * of_other.periods:
            slots[at] = sound_of(folder.path(other, PCM), of_other, line.offset, end)
    if not slots:
        return
    octets = read_part(folder.path(call, UP), 0, FRAME_OCTETS * MOST_PERIODS)
    found = pairs.match_of(decoded(octets, line.offset, library), slots)
    if found:
        other = sounds[found.slot]
        call.pair, call.paired_by = other, found.how
        call.delay = found.delay / MILLISECOND
        if other.pair is None:
            other.pair, other.paired_by, other.delay = call, found.how, call.delay


def pair_lines(calls: Sequence[UnpackedCall], folder: UnpackedFolder, library: ModuleType) -> None:
    """Pairs the uplinks of a line's calls with its stretches of A-law and mu-law, where that is
    sure."""
    sounds = [call for call in calls if PCM in call.lines]
    for call in calls if sounds else ():
        if UP in call.lines:
            pair_uplink(call, sounds, folder, library)
