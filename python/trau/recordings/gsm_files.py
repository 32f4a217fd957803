"""Files of full rate frames: those of libgsm (.gsm), of 33 octets each, and WAV files of GSM
frames, to an uplink; and of a downlink."""

from collections import Counter
from pathlib import Path
from typing import List, Mapping, NamedTuple, Optional, Tuple

from trau.command_line.words import Refusal, as_started
from trau.recordings import file_heads, file_kinds, wav_files
from trau.recordings.code_word import Marker
from trau.recordings.file_descriptions import FileKind
from trau.recordings.recordings import command_of_others, quoted
from trau.recordings.uplink_frames import UplinkFrames
from trau.rules.frame import FrameKind, bits_of, read_down, read_up
from trau.rules.noise import RandomSource, comfort_noise
from trau.rules.parameters import (
    GSM_MAGIC,
    GSM_OCTETS,
    SILENCE,
    WAV_BLOCK_OCTETS,
    bits_of_parameters,
    data_of_gsm,
    data_of_wav_block,
    parameters_of_bits,
)
from trau.rules.profile import SAMPLES_A_SECOND
from trau.rules.search import FRAME_OF_DOWNLINK

ZEROS = bytes(GSM_OCTETS)  # what some recorders write for a frame that was lost

# To an uplink


class Found(NamedTuple):
    """D1 to D260 of each frame of a file, None for one that was lost, and the octets after the last
    whole one."""

    data: List[Optional[str]]
    left: int


def data_of_file(name: Path, given: bytes, partial: bool, zeros_are_lost: bool) -> Found:
    """The frames of a file of libgsm; a truncated file is taken with `partial`, and one that has
    zeros for lost frames if these are lost."""
    size = GSM_OCTETS
    left = len(given) % size
    whole = given[: len(given) - left]
    frames = [whole[place : place + size] for place in range(0, len(whole), size)]
    is_lost = [frame == ZEROS for frame in frames]
    wrong = next(
        (
            size * at
            for at, frame in enumerate(frames)
            if frame[0] >> 4 != GSM_MAGIC and not (zeros_are_lost and is_lost[at])
        ),
        None,
    )
    if wrong is not None or not whole or left and not partial:
        file_kinds.refuse_other(name, given, "no frames of libgsm", FileKind.GSM)
    if not whole or left and not partial:
        raise Refusal(
            f"{name}: {len(given)} octets are no frames of libgsm, which have {size} octets each"
            + ("; --partial takes the whole ones" if whole and wrong is None else "")
        )
    if wrong is not None:
        more = "; --zeros lost takes frames of zeros as lost ones" if is_lost[wrong // size] else ""
        raise Refusal(
            f"{name}: no frame of libgsm begins at octet {wrong}: its first four bits aren't 1101{more}"
        )
    if all(is_lost):
        raise Refusal(f"{name}: has only zeros")
    if file_heads.is_mostly_magic(whole):
        raise Refusal(
            f"{name}: nearly each of its octets begins with 1101, as in idle A-law and not in frames of libgsm"
        )
    return Found(
        [None if lost else data_of_gsm(frame) for frame, lost in zip(frames, is_lost)], left
    )


def data_of_wav(name: Path, given: bytes, partial: bool) -> Found:
    """The frames of a WAV file of GSM frames, two in a block of 65 octets."""
    wav = wav_files.read_wav(name, given, partial)
    if wav.tag != wav_files.WAV_GSM:
        raise Refusal(
            f"{name}: is a WAV file of samples and not of GSM frames; sox makes frames of libgsm of it:"
            f" {command_of_others('sox -D {} -r 8000 -c 1 NEW.gsm', name)}"
        )
    size = WAV_BLOCK_OCTETS
    # sox counts the octet that makes an odd number of octets even.
    octets = wav.data[:-1] if len(wav.data) % size == 1 and wav.data[-1] == 0 else wav.data
    left = len(octets) % size
    fits = (wav.channels, wav.samples_a_second) == (1, SAMPLES_A_SECOND) and len(octets) >= size
    if not fits or left and not partial:
        raise Refusal(
            f"{name}: has {wav.samples_a_second} Hz, channels {wav.channels} and {len(wav.data)} octets of GSM frames; needed is"
            f" {SAMPLES_A_SECOND} Hz mono in blocks of {size} octets"
        )
    blocks = (octets[place : place + size] for place in range(0, len(octets) - left, size))
    return Found([data for block in blocks for data in data_of_wav_block(block)], left)


def uplink_of(
    name: Path, given: bytes, marker: Marker, partial: bool, zeros_are_lost: bool = False
) -> Tuple[bytes, str]:
    """An uplink of the frames of a file, whose silence descriptors are marked, and what was found."""
    if wav_files.is_wav(given):
        found = data_of_wav(name, given, partial)
    else:
        found = data_of_file(name, given, partial, zeros_are_lost)
    line = UplinkFrames(marker)
    line.take_all(found.data)
    lost = f" lost {found.data.count(None)}" if zeros_are_lost else ""
    left = f" left {found.left}" if partial else ""
    return line.line(), f"uplink frames {len(found.data)} {marker.said()}{lost}{left}"


# From a downlink


WORDS = ("speech", "silence", "idle", "other")


def treated(data: str, treatment: str, source: RandomSource) -> Optional[str]:
    """D1 to D260 as they are written, or None where nothing is."""
    if treatment == "noise":
        return bits_of_parameters(comfort_noise(parameters_of_bits(data), source, 0))
    if treatment == "quiet":
        return bits_of_parameters(SILENCE)
    return data if treatment == "keep" else None


class Treated(NamedTuple):
    """The frames that are written of a downlink, each with the number of bits before it that belong
    to no written frame; and what was found, in words."""

    frames: List[Tuple[int, str]]
    said: str


def treated_downlink(name: Path, octets: bytes, treatments: Mapping[str, str]) -> Treated:
    """The frames of a downlink, wherever they begin, by the treatment of each kind."""
    bits = bits_of(octets)
    source = RandomSource(1)
    counts: Counter = Counter()
    frames: List[Tuple[int, str]] = []
    written, inside, of_uplink = 0, 0, 0
    for found in FRAME_OF_DOWNLINK.finditer(bits):
        frame = read_down(found.group())
        word = "silence" if frame.kind is FrameKind.VALID_SID else frame.word()
        counts[word] += 1
        inside += found.end() - found.start()
        of_uplink += frame.kind is FrameKind.OTHER and read_up(found.group()).is_speech()
        data = treated(frame.data, treatments[word], source)
        if data is not None:
            frames.append((found.start() - written, data))
            written = found.end()
    said = " ".join(f"{word} {counts[word]}" for word in WORDS) + f" outside {len(bits) - inside}"
    if of_uplink and of_uplink == sum(counts.values()):
        listens = as_started(f"lines.py listen {quoted(name)} NEW.wav")
        raise Refusal(
            f"{name}: is an uplink; {listens} makes sound of it, and trau relay a downlink, if no frame is lost"
        )
    if not frames:
        raise Refusal(f"{name}: no frame of a downlink that would be written: {said}")
    return Treated(frames, said)
