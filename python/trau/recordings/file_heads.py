"""What a file is by its head: magics, WAV, frames of libgsm, texts."""

import itertools
import re
import struct
from pathlib import Path
from typing import Callable, Optional, Sequence

from trau.command_line.words import Refusal
from trau.recordings import wav_files
from trau.recordings.file_descriptions import FileDescription, FileKind
from trau.rules.orders import FORMS
from trau.rules.parameters import GSM_MAGIC, GSM_OCTETS, WIDTHS
from trau.rules.profile import SAMPLES_A_SECOND

SOX = "sox -D {} -r 8000 -c 1 -b 16 -e signed-integer NEW.wav"
FFMPEG = "ffmpeg -i {} -ar 8000 -ac 1 NEW.wav"
SOX_RAW = "sox -D -t raw -r 8000 -c 1 -b 16 -e signed-integer {} NEW.wav"
EDITCAP = "editcap -F pcap {} NEW.pcap"
PCAP = "lines.py pcap {} NEW"
PACKED_BY_GZIP = "packed by gzip"
# Magics by kind and command, with what the files are.
MAGICS = (
    (
        FileKind.SOUND,
        SOX,
        {
            b"RIFX": "a WAV file of big-endian samples",
            b"RF64": "a WAV file of 64 bits",
            b".snd": "an .au file",
        },
    ),
    (
        FileKind.SOUND,
        SOX,
        {
            b"fLaC": "a FLAC file",
            b"OggS": "an Ogg file",
            b"ID3": "an MP3 file",
            b"FORM": "an AIFF file",
        },
    ),
    (FileKind.SOUND, SOX, {b"Creative Voice File": "a VOC file", b"NIST_1A": "a SPHERE file"}),
    (
        FileKind.SOUND,
        FFMPEG,
        {
            b"#!AMR": "an AMR file",
            b"caff": "a CAF file",
            b"\x1a\x45\xdf\xa3": "a Matroska or WebM file",
        },
    ),
    (
        FileKind.SOUND,
        FFMPEG,
        {
            b"\x30\x26\xb2\x75\x8e\x66\xcf\x11": "a Windows Media file",
            b"riff\x2e\x91\xcf\x11": "a Wave64 file",
        },
    ),
    (
        FileKind.CAPTURE,
        PCAP,
        dict.fromkeys(
            (b"\xa1\xb2\xc3\xd4", b"\xd4\xc3\xb2\xa1", b"\xa1\xb2\x3c\x4d", b"\x4d\x3c\xb2\xa1"),
            "a pcap capture",
        ),
    ),
    (FileKind.CAPTURE, PCAP, {b"\x0a\x0d\x0d\x0a": "a pcapng capture"}),
    (
        FileKind.OTHER_CAPTURE,
        EDITCAP,
        dict.fromkeys(
            (b"\xa1\xb2\xcd\x34", b"\x34\xcd\xb2\xa1"), "a pcap capture of a modified libpcap"
        ),
    ),
    (
        FileKind.OTHER_CAPTURE,
        EDITCAP,
        {
            b"snoop\0\0\0": "a snoop capture",
            **dict.fromkeys((b"GMBU", b"RTSS"), "a Network Monitor capture"),
        },
    ),
    (
        FileKind.PACKED,
        "lines.py reads such files where their names end with .gz",
        {b"\x1f\x8b\x08": PACKED_BY_GZIP},
    ),
    (FileKind.PACKED, "bunzip2 -k {}", {b"BZh": "packed by bzip2"}),
    (FileKind.PACKED, "unxz -k {}", {b"\xfd7zXZ\0": "packed by xz"}),
    (FileKind.PACKED, "unzip {}", {b"PK\3\4": "a zip archive"}),
    (FileKind.PROGRAM, "", {b"\x7fELF": "a program or a library"}),
)
# Magics that don't begin their files: their places come first. The head of a tar archive has the
# sync bits of a frame by its digits.
MAGICS_WITHIN = (
    (4, FileKind.SOUND, FFMPEG, {b"ftyp": "an MP4 or QuickTime file"}),
    (257, FileKind.PACKED, "tar xf {}", {b"ustar": "a tar archive"}),
)


def by_magic(head: bytes, size: int) -> Optional[FileDescription]:
    """A file whose first octets show its kind."""
    for place, kind, command, magics in (*((0, *each) for each in MAGICS), *MAGICS_WITHIN):
        said = next((said for magic, said in magics.items() if head.startswith(magic, place)), None)
        if said:
            return FileDescription(kind, said, command)
    return None


WAV_SAMPLES = {
    wav_files.WAV_LINEAR: "linear",
    wav_files.WAV_ALAW: "A-law",
    wav_files.WAV_MULAW: "mu-law",
}


def by_wav(head: bytes, size: int) -> Optional[FileDescription]:
    """A WAV file."""
    if not wav_files.is_wav(head):
        return None
    try:
        wav = wav_files.read_wav(Path("wav"), head, partial=True)
    except Refusal:
        return FileDescription(FileKind.SOUND, "a WAV file without a whole head")
    form = f"{wav.samples_a_second} Hz, channels {wav.channels}"
    if wav.tag == wav_files.WAV_GSM:
        return FileDescription(
            FileKind.SOUND, f"a WAV file of GSM frames, {form}", "lines.py uplink {} NEW.up"
        )
    said = f"a WAV file, {form}, bits {wav.sample_bits} {WAV_SAMPLES.get(wav.tag, f'of format {wav.tag}')}"
    is_taken = (wav.channels, wav.samples_a_second) == (1, SAMPLES_A_SECOND)
    is_taken = is_taken and (wav.tag, wav.sample_bits) in wav_files.SAMPLE_KINDS
    return FileDescription(FileKind.SOUND, said, "lines.py pcm {} NEW.pcm" if is_taken else SOX)


# An idle line of A-law has the four bits of libgsm's magic in each octet.
MOST_MAGIC = 0.5
MOST_COMPARED = 1 << 16  # octets
LEAST_FRAMES_OF_CUT = 3


def is_mostly_magic(octets: bytes) -> bool:
    """Whether the octets that don't begin a frame of libgsm mostly have the four bits of its magic
    too."""
    others = [
        octet >> 4 == GSM_MAGIC
        for place, octet in enumerate(octets[:MOST_COMPARED])
        if place % GSM_OCTETS
    ]
    return sum(others) > MOST_MAGIC * len(others)


def by_gsm(head: bytes, size: int) -> Optional[FileDescription]:
    """Frames of libgsm, each of which begins with its magic, and the other octets of which mostly
    don't. Zeros may stand for lost frames."""
    frames = [head[place : place + GSM_OCTETS] for place in range(0, len(head), GSM_OCTETS)]
    lost = sum(not any(frame) for frame in frames)
    with_magic = sum(frame[0] >> 4 == GSM_MAGIC for frame in frames)
    if len(head) < GSM_OCTETS or lost + with_magic < len(frames) or lost > with_magic:
        return None
    if is_mostly_magic(head) or len(frames) < LEAST_FRAMES_OF_CUT and size % GSM_OCTETS:
        return None
    left = size % GSM_OCTETS
    cut, word = (f", and {left} octets of one that was cut", " --partial") if left else ("", "")
    if lost:
        cut, word = f"{cut}; zeros stand for lost ones", f"{word} --zeros lost"
    return FileDescription(
        FileKind.GSM,
        f"{size // GSM_OCTETS} frames of libgsm{cut}",
        f"lines.py uplink {{}} NEW.up{word}",
    )


# The words of 16 bits of a frame in a test sequence of GSM 06.10, each a parameter of so many bits.
SEQUENCE_OCTETS = 2 * len(WIDTHS)
LEAST_DISTINCT_WORDS = 8


def by_test_sequence(head: bytes, size: int) -> Optional[FileDescription]:
    """A test sequence of frames, one of whose parameters is in each word of 16 bits, in either
    order of octets."""
    count = len(head) // SEQUENCE_OCTETS
    if not count or size % SEQUENCE_OCTETS:
        return None
    for order in "<>":
        words = struct.unpack_from(f"{order}{count * len(WIDTHS)}H", head)
        fits = all(word < 1 << width for word, width in zip(words, itertools.cycle(WIDTHS)))
        if fits and len(set(words)) >= LEAST_DISTINCT_WORDS:
            said = f"a test sequence of {size // SEQUENCE_OCTETS} frames of full rate (.cod), each of {len(WIDTHS)} words of 16 bits, which isn't read here"
            return FileDescription(FileKind.TEST_SEQUENCE, said)
    return None


ORDER_LINE = re.compile(rb"\d+ (?:%b) [^\n]*" % "|".join(FORMS).encode())


def by_text(head: bytes, size: int) -> Optional[FileDescription]:
    """A text, of orders maybe."""
    if b"\n" not in head or re.search(rb"[^\t\n\r -~]", head):
        return None
    if re.match(rb"save \d+\n", head):
        return FileDescription(
            FileKind.TEXT,
            "the mark of a run, which trau resume reads with the orders after it",
            "orders.py check --mark {}",
        )
    if any(ORDER_LINE.match(line) for line in head.split(b"\n")):
        return FileDescription(FileKind.TEXT, "a text of orders", "orders.py check {}")
    if head.startswith((b"order 1 ", b"end period ")):
        return FileDescription(FileKind.REPORT, "the report of a run", "report.py text {}")
    return FileDescription(FileKind.TEXT, "a text")


# What tests the head of a file of so many octets.
TESTS: Sequence[Callable[[bytes, int], Optional[FileDescription]]] = (
    by_wav,
    by_magic,
    by_text,
    by_gsm,
    by_test_sequence,
)
