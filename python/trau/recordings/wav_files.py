"""WAV files: their kinds, samples to the octets of a law and back, and frames of GSM in them."""

import struct
import sys
from array import array
from pathlib import Path
from typing import NamedTuple

from trau.command_line.words import Refusal, as_started
from trau.recordings.recordings import command_of_others
from trau.rules.g711 import Law, expand_all, octets_by_sample
from trau.rules.profile import SAMPLES_A_SECOND

WAV_LINEAR, WAV_ALAW, WAV_MULAW, WAV_GSM, WAV_EXTENSIBLE = 1, 6, 7, 0x31, 0xFFFE
LAWS_BY_TAG = {WAV_ALAW: Law.A, WAV_MULAW: Law.MU}
SAMPLE_KINDS = ((WAV_LINEAR, 16), (WAV_ALAW, 8), (WAV_MULAW, 8))
# A program that writes WAV to a pipe can't know the size and puts a great number there.
WAV_LEAST_UNKNOWN_SIZE = 0x7FFF0000
MOST_DATA = (1 << 32) - (1 << 10)  # octets: the file has its size in 32 bits


class Wav(NamedTuple):
    """The kind of a WAV file, and its data."""

    tag: int
    channels: int
    samples_a_second: int
    sample_bits: int
    data: bytes


def is_wav(content: bytes) -> bool:
    """Whether this is a WAV file, of any kind."""
    return content[:4] == b"RIFF" and content[8:12] == b"WAVE"


def read_wav(name: Path, content: bytes, partial: bool = False) -> Wav:
    """Reads a WAV file of any kind; with `partial`, truncated data are taken as far as they go."""
    if not is_wav(content):
        raise Refusal(f"{name}: isn't a WAV file; raw octets of a law are taken with --raw")
    form, place = None, 12
    while place + 8 <= len(content):
        chunk, size = struct.unpack_from("<4sI", content, place)
        place += 8
        if chunk == b"data" and (partial or size >= WAV_LEAST_UNKNOWN_SIZE):
            size = min(size, len(content) - place)
        if place + size > len(content):
            hint = "; --partial takes what is there" if chunk == b"data" else ""
            raise Refusal(
                f"{name}: this WAV file ends too early, in its part '{chunk.decode('latin-1').strip()}'{hint}"
            )
        if chunk == b"fmt " and size >= 16:
            form = struct.unpack_from("<HHIIHH", content, place)
            if form[0] == WAV_EXTENSIBLE and size >= 26:
                form = struct.unpack_from("<H", content, place + 24) + form[1:]
        if chunk == b"data":
            if form is None:
                break
            return Wav(form[0], form[1], form[2], form[5], content[place : place + size])
        place += size + size % 2
    raise Refusal(f"{name}: this WAV file has no format with data behind it")


def octets_of_wav(name: Path, content: bytes, law: Law, partial: bool = False) -> bytes:
    """The octets of a law for a WAV file's samples; those of the same law stay as they are."""
    wav = read_wav(name, content, partial)
    kind = (wav.tag, wav.sample_bits)
    if wav.tag == WAV_GSM:
        command = as_started("lines.py uplink")
        raise Refusal(
            f"{name}: has GSM frames and no samples; {command} makes an uplink of it, without transcoding"
        )
    if (wav.channels, wav.samples_a_second) != (1, SAMPLES_A_SECOND) or kind not in SAMPLE_KINDS:
        raise Refusal(
            f"{name}: has {wav.samples_a_second} Hz, channels {wav.channels}, bits {wav.sample_bits}, format {wav.tag}; needed"
            f" is {SAMPLES_A_SECOND} Hz mono of 16 bits linear, A-law or mu-law; sox makes it:"
            f" {command_of_others('sox -D {} -r 8000 -c 1 -b 16 -e signed-integer NEW.wav', name)}"
        )
    if wav.tag in LAWS_BY_TAG:
        return wav.data.translate(LAWS_BY_TAG[wav.tag].table_to(law))
    left = len(wav.data) % 2
    if left and not partial:
        raise Refusal(f"{name}: its {len(wav.data)} octets of data are no samples of 16 bits")
    samples = array("H", wav.data[: len(wav.data) - left])
    if sys.byteorder == "big":
        samples.byteswap()
    return bytes(map(octets_by_sample(law).__getitem__, samples))


def wav_of(tag: int, sample_bits: int, data: bytes, channels: int = 1) -> bytes:
    """A WAV file of one channel, or of several whose samples come in turn."""
    if len(data) > MOST_DATA:
        raise Refusal(
            f"{len(data)} octets of samples: a WAV file has at most {MOST_DATA}; octets of a law take"
            " half as many, and a line can be cut into parts"
        )
    sample_octets = channels * sample_bits // 8
    form = struct.pack(
        "<HHIIHH",
        tag,
        channels,
        SAMPLES_A_SECOND,
        SAMPLES_A_SECOND * sample_octets,
        sample_octets,
        sample_bits,
    )
    chunks = [(b"fmt ", form)]
    if tag != WAV_LINEAR:
        chunks = [
            (b"fmt ", form + b"\0\0"),
            (b"fact", struct.pack("<I", len(data) // sample_octets)),
        ]
    chunks.append((b"data", data))
    body = b"WAVE" + b"".join(
        struct.pack("<4sI", name, len(chunk)) + chunk + bytes(len(chunk) % 2)
        for name, chunk in chunks
    )
    return struct.pack("<4sI", b"RIFF", len(body)) + body


def wav_of_samples(samples: "array[int]", channels: int = 1) -> bytes:
    """A WAV file of 16 bits linear."""
    if sys.byteorder == "big":
        samples = samples[:]
        samples.byteswap()
    return wav_of(WAV_LINEAR, 16, samples.tobytes(), channels)


def wav_of_law(octets: bytes, law: Law) -> bytes:
    """The same of octets of a law."""
    return wav_of_samples(array("h", expand_all(law, octets)))
