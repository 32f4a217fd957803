"""Peers: codecs of others and of this project, each as answers by operations."""

import ctypes.util
import os
import shlex
import shutil
import struct
import subprocess
import tempfile
from pathlib import Path
from typing import Callable, Dict, List, Mapping, NamedTuple, Sequence, Tuple

from trau.command_line.words import Refusal

from trau.suite.operations import (
    GSM_OCTETS,
    LINE_OCTETS,
    OPERATIONS,
    SAMPLE_OCTETS,
    samples_of,
    units,
)

Answer = Callable[[bytes], bytes]
UNSUPPORTED = 3  # the status of a command that doesn't have an operation


class NotThere(Refusal):
    """A peer that isn't installed; the text names what brings it."""


class Unsupported(Exception):
    """A command says that it doesn't have this operation."""


class PeerFailed(Exception):
    """A peer that gave no answer; the text says why."""


class Peer(NamedTuple):
    """A peer. `lacks` are the rules, by the beginnings of their names, that don't apply to it; a
    peer of this project is held to its own rules too. `codec` is the other peer whose codec it has.
    """

    name: str
    version: str
    answers: Mapping[str, Answer]
    is_ours: bool = False
    lacks: Tuple[str, ...] = ()
    codec: str = ""


def version_of(package: str) -> str:
    """The version of a Debian package; nothing on other systems."""
    if shutil.which("dpkg-query") is None:
        return ""
    words = ["dpkg-query", "-W", "-f", "${Version}", package]
    return subprocess.run(words, stdout=subprocess.PIPE, stderr=subprocess.DEVNULL).stdout.decode()


def library_of(name: str, package: str) -> ctypes.CDLL:
    """A shared library by its name without `lib`. Raises NotThere."""
    found = ctypes.util.find_library(name)
    if found is None:
        raise NotThere(f"lib{name} isn't there: install the package {package}")
    return ctypes.CDLL(found)


def program_of(name: str, package: str) -> str:
    """The path of a program. Raises NotThere."""
    found = shutil.which(name)
    if found is None:
        raise NotThere(f"{name} isn't there: install the package {package}")
    return found


def output_of(words: Sequence[str], given: bytes, folder: str = ".") -> bytes:
    """What a command writes. Raises PeerFailed unless its status is 0, Unsupported if it is 3."""
    ran = subprocess.run(
        words, input=given, stdout=subprocess.PIPE, stderr=subprocess.PIPE, cwd=folder
    )
    if ran.returncode == UNSUPPORTED:
        raise Unsupported
    if ran.returncode != 0:
        said = ran.stderr.decode(errors="replace").strip().splitlines()
        raise PeerFailed(f"status {ran.returncode}" + (f", {said[-1]}" if said else ""))
    return ran.stdout


def piped(*words: str) -> Answer:
    """An answer by a command from its standard input to its standard output."""
    return lambda given: output_of(words, given)


# Peers of this project.


def model() -> Peer:
    """The model, whose answers are the expected ones."""
    from trau.suite.reference import ANSWERS

    return Peer("model", "", ANSWERS, is_ours=True)


def clib() -> Peer:
    """The C library, by its Python module."""
    try:
        from trau.suite.c_library import ANSWERS
    except OSError as missing:
        raise NotThere(f"no C library: {missing}; clib/build makes it, TRAU_CLIB names it")
    return Peer("clib", "", ANSWERS, is_ours=True)


def trau() -> Peer:
    """The program that TRAU_PROGRAM names."""
    program = os.environ.get("TRAU_PROGRAM", "")
    if not os.access(program, os.X_OK):
        raise NotThere("TRAU_PROGRAM names no program; ./trau builds it")
    answers = {
        "search": lambda given: frames_by_program(program, given),
        "receive-alaw": lambda given: received_by_program(program, given),
        "send-alaw": lambda given: sent_by_program(program, given),
        "count": lambda given: counted_by_program(program, given),
        "call-alaw": lambda given: called_by_program(program, "alaw", given),
        "call-mulaw": lambda given: called_by_program(program, "mulaw", given),
    }
    return Peer("trau", "", answers, is_ours=True)


def run_program(program: str, words: Sequence[str], given: str, **lines: bytes) -> Dict[str, bytes]:
    """What the program leaves in a folder with these lines of call 7, and its text as `text`."""
    with tempfile.TemporaryDirectory() as folder:
        for ending, octets in lines.items():
            Path(folder, f"7.{ending}").write_bytes(octets)
        text = output_of([os.path.abspath(program), *words], given.encode(), folder)
        left = {file.suffix[1:]: file.read_bytes() for file in Path(folder).glob("7.*")}
    return {**left, "text": text}


def frames_by_program(program: str, given: bytes) -> bytes:
    """The search."""
    return run_program(program, ["frames", "7"], "", up=given)["text"]


def received_by_program(program: str, given: bytes) -> bytes:
    """The receive side: a run of one call."""
    from trau.suite.reference import write_uplink

    up = write_uplink(given)
    pcm = b"\xd5" * 4 * len(up)
    return run_program(program, ["run"], "0 open 7\n", up=up, pcm=pcm)["out"]


def sent_by_program(program: str, given: bytes) -> bytes:
    """The transmit side: a run of one call with orders in each period, and a period more."""
    from trau.suite.operations import GOOD
    from trau.suite.reference import ANSWERS

    frames = units(given, OPERATIONS["send-alaw"].unit)
    orders = ["0 open 7"]
    for k, each in enumerate(frames):
        mode = "on" if each[2:3] == b"1" else "off"
        orders += [f"{k} level 7 {samples_of(each[:2])[0]}", f"{k} dtx 7 {mode}"]
    speech = ANSWERS["write-uplink"](GOOD.encode() + b"\xd0" + bytes(32))
    pcm = b"".join(each[3:] for each in frames) + b"\xd5" * 160
    text = "\n".join(orders) + "\n"
    down = run_program(program, ["run"], text, up=speech * (len(frames) + 1), pcm=pcm)["down"]
    return ANSWERS["read-downlink"](down[LINE_OCTETS:])


def counted_by_program(program: str, given: bytes) -> bytes:
    """The counts of a call's report without those of its downlink."""
    pcm = b"\xd5" * 4 * len(given)
    text = run_program(program, ["run"], "0 open 7\n", up=given, pcm=pcm)["text"]
    (counts,) = [each for each in text.splitlines() if each.startswith(b"counts ")]
    return counts.split(b" ", 2)[2].partition(b" made ")[0]


def called_by_program(program: str, law: str, given: bytes) -> bytes:
    """Both outgoing lines of a call."""
    from trau.suite.reference import both_lines

    periods = units(given, OPERATIONS["call-alaw"].unit)
    up = b"".join(each[:LINE_OCTETS] for each in periods)
    pcm = b"".join(each[LINE_OCTETS:] for each in periods)
    order = "0 open 7 mulaw\n" if law == "mulaw" else "0 open 7\n"
    left = run_program(program, ["run"], order, up=up, pcm=pcm)
    return both_lines(left["out"], left["down"])


# Peers of others: programs.

WAV_GSM = 0x31  # the format of GSM frames in WAV files
BLOCK_OCTETS, BLOCK_SAMPLES = 65, 320
OCTETS_A_SECOND = 1625


def chunk(name: bytes, content: bytes) -> bytes:
    """A chunk of a WAV file."""
    return name + struct.pack("<I", len(content)) + content + b"\0" * (len(content) % 2)


def wav_of_blocks(blocks: bytes) -> bytes:
    """A WAV file of GSM frames, two in a block of 65 octets."""
    head = (WAV_GSM, 1, 8000, OCTETS_A_SECOND, BLOCK_OCTETS, 0, 2, BLOCK_SAMPLES)
    samples = struct.pack("<I", BLOCK_SAMPLES * (len(blocks) // BLOCK_OCTETS))
    parts = chunk(b"fmt ", struct.pack("<HHIIHHHH", *head)) + chunk(b"fact", samples)
    return chunk(b"RIFF", b"WAVE" + parts + chunk(b"data", blocks))


def blocks_of_wav(wav: bytes) -> bytes:
    """The blocks of a WAV file of GSM frames; a program that writes to a pipe doesn't know how many
    there are."""
    start = wav.index(b"data") + 8
    return wav[start : start + (len(wav) - start) // BLOCK_OCTETS * BLOCK_OCTETS]


def by_wav(decodes: Answer) -> Answer:
    """The answer of a program that decodes WAV files, for blocks."""
    return lambda given: decodes(wav_of_blocks(given))


def by_blocks(decodes: Answer) -> Answer:
    """The answer of a program that decodes blocks, for frames of 33 octets."""
    from trau.rules.parameters import data_of_gsm
    from trau.suite.reference import wav_block_of_data

    def answer(given: bytes) -> bytes:
        frames = units(given, GSM_OCTETS)
        data = [data_of_gsm(each) for each in frames + frames[:1] * (len(frames) % 2)]
        blocks = b"".join(map(wav_block_of_data, data[::2], data[1::2]))
        return decodes(blocks)[: SAMPLE_OCTETS * len(frames)]

    return answer


WORDS_IN = ("-f", "s16le", "-ar", "8000", "-ac", "1", "-i", "pipe:0")
WORDS_OUT = ("-f", "s16le", "pipe:1")


def ffmpeg() -> Peer:
    """ffmpeg's own decoder, and its laws."""
    program = program_of("ffmpeg", "ffmpeg")
    start = (program, "-v", "error")
    answers = {
        "decode": piped(*start, "-c:a", "gsm", "-f", "gsm", "-i", "pipe:0", *WORDS_OUT),
        "decode-wav": by_wav(piped(*start, "-c:a", "gsm_ms", "-i", "pipe:0", *WORDS_OUT)),
    }
    for law in ("alaw", "mulaw"):
        into = ("-c:a", f"pcm_{law}", "-f", law, "pipe:1")
        line = ("-f", law, "-ar", "8000", "-ac", "1", "-i", "pipe:0")
        answers[f"{law}-compress"] = piped(*start, *WORDS_IN, *into)
        answers[f"{law}-expand"] = piped(*start, *line, *WORDS_OUT)
    return Peer("ffmpeg", version_of("ffmpeg"), answers)


def ffmpeg_libgsm() -> Peer:
    """libgsm within ffmpeg."""
    program = program_of("ffmpeg", "ffmpeg")
    start = (program, "-v", "error")
    in_wav = piped(*start, *WORDS_IN, "-c:a", "libgsm_ms", "-f", "wav", "pipe:1")
    answers = {
        "decode": piped(*start, "-c:a", "libgsm", "-f", "gsm", "-i", "pipe:0", *WORDS_OUT),
        "encode": piped(*start, *WORDS_IN, "-c:a", "libgsm", "-f", "gsm", "pipe:1"),
        "decode-wav": by_wav(piped(*start, "-c:a", "libgsm_ms", "-i", "pipe:0", *WORDS_OUT)),
        "encode-wav": lambda given: blocks_of_wav(in_wav(given)),
    }
    return Peer("ffmpeg-libgsm", version_of("ffmpeg"), answers, codec="libgsm")


def sox() -> Peer:
    """sox: files .gsm, .al, .ul, .wav."""
    program = program_of("sox", "sox")
    raw = ("-t", "raw", "-e", "signed", "-b", "16", "-L", "-r", "8000", "-c", "1", "-")
    wav = ("-t", "wav", "-e", "gsm-full-rate", "-")
    in_wav = piped(program, "-D", "-V1", *raw, *wav)
    answers: Dict[str, Answer] = {
        "decode-wav": by_wav(piped(program, "-D", "-V1", "-t", "wav", "-", *raw)),
        "encode-wav": lambda given: blocks_of_wav(in_wav(given)),
    }
    names = {"decode": "gsm", "alaw-expand": "al", "mulaw-expand": "ul"}
    for operation, kind in names.items():
        file = ("-t", kind, "-r", "8000", "-c", "1", "-")
        back = operation.replace("expand", "compress").replace("decode", "encode")
        answers[operation] = piped(program, "-D", "-V1", *file, *raw)
        answers[back] = piped(program, "-D", "-V1", *raw, *file)
    return Peer("sox", version_of("sox"), answers, codec="libgsm")


def gstreamer() -> Peer:
    """GStreamer's gsmenc, gsmdec and its laws. gsmdec takes no frames without times, so it gets each
    frame in a WAV file, which has them."""
    program = program_of("gst-launch-1.0", "gstreamer1.0-tools")
    package = "gstreamer1.0-plugins-bad"
    if not version_of(package) and shutil.which("dpkg-query"):
        raise NotThere(f"gsmenc isn't there: install the package {package}")
    words = "rawaudioparse format=pcm pcm-format=s16le sample-rate=8000 num-channels=1"

    def line(elements: str) -> Answer:
        return piped(
            program, "-q", *shlex.split(f"fdsrc fd=0 ! {elements} ! fdsink fd=1 sync=false")
        )

    def caps(kind: str) -> str:
        return f"audio/x-{kind},rate=8000,channels=1"

    answers = {
        "encode": line(f"{words} ! gsmenc"),
        "decode": by_blocks(by_wav(line("wavparse ! gsmdec"))),
        "decode-wav": by_wav(line("wavparse ! gsmdec")),
        "alaw-expand": line(f"{caps('alaw')} ! alawdec"),
        "alaw-compress": line(f"{words} ! alawenc"),
        "mulaw-expand": line(f"{caps('mulaw')} ! mulawdec"),
        "mulaw-compress": line(f"{words} ! mulawenc"),
    }
    return Peer("gstreamer", version_of(package), answers, codec="libgsm")


def by_command(command: str, is_ours: bool) -> Peer:
    """A peer by a command that has the operation as its last word. Raises NotThere if there is no
    such program."""
    words = shlex.split(command)
    if not words or shutil.which(words[0]) is None:
        raise NotThere(f"{words[0] if words else 'a command without words'}: no such program")
    answers = {word: piped(*words, word) for word in OPERATIONS}
    return Peer(Path(words[0]).name if words else command, "", answers, is_ours)


def shipped() -> Dict[str, Callable[[], Peer]]:
    """The shipped peers by their names."""
    from trau.suite import libraries

    makers: List[Callable[[], Peer]] = [model, clib, trau]
    makers += [libraries.libgsm, libraries.spandsp, ffmpeg, ffmpeg_libgsm, gstreamer, sox]
    makers.append(libraries.libosmocodec)
    return {maker.__name__.replace("_", "-"): maker for maker in makers}
