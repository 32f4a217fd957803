"""Commands of lines.py on A-law and mu-law: sound to a Pcm line, a line to sound, and an idle
line."""

import argparse
from pathlib import Path

from trau.command_line.words import (
    Option,
    Refusal,
    as_started,
    number_within,
    one_of,
    option,
    switch,
)
from trau.recordings import file_kinds, recordings, wav_files
from trau.recordings.commands import LAW, Content, FileCommand, MadeFile, lsb_first, partial, trust
from trau.recordings.excerpts import excerpts_of
from trau.recordings.file_descriptions import FileKind
from trau.recordings.wav_files import LAWS_BY_TAG, WAV_ALAW, WAV_LINEAR, WAV_MULAW
from trau.rules.g711 import Law
from trau.rules.profile import PCM_OCTETS
from trau.rules.slots import octets_turned

MOST_IDLE_PERIODS = 1_000_000


def check_law(
    words: argparse.Namespace, name: Path, octets: bytes, command: str, of_frames: str = ""
) -> None:
    """Refuses a file that plainly isn't octets of the law that the words name, by its name, head,
    frames or statistics. With --trust it is taken. `command` takes octets of the other law, and
    `of_frames` says what takes a line of frames."""
    if words.trust:
        return
    not_this = f"no {words.law.title()}"
    if recordings.name_within(name).suffix in (".up", ".down"):
        raise Refusal(f"{name}: is a line of frames by its name, and {not_this}{of_frames}")
    file_kinds.refuse_other(name, octets, not_this, FileKind.LAW)
    other = file_kinds.other_than_law(excerpts_of(octets), words.law)
    if other and other.kind is FileKind.LAW and not other.turned:
        law = "" if words.law is Law.MU else f" --law {Law.MU}"
        other = other._replace(command=command + law)
    if other:
        file_kinds.refuse(name, other, not_this, "; --trust takes it as it is")


def pcm(words: argparse.Namespace, given: bytes) -> MadeFile:
    """Makes a Pcm line from a WAV file (8000 Hz, mono, 16 bits linear, A-law or mu-law) or from raw
    octets of its law. Fills the last period with the idle octet, 0xD5 or 0xFF. Prints `pcm periods
    N padded R`: R is the number of these octets."""
    if words.raw:
        octets = octets_turned(given) if words.lsb_first else given
        check_law(words, words.given, octets, "lines.py pcm {} NEW.pcm --raw")
    else:
        if not wav_files.is_wav(given):
            file_kinds.refuse_other(words.given, given, "no plain WAV file", FileKind.LAW)
        octets = wav_files.octets_of_wav(words.given, given, words.law, words.partial)
    if not octets:
        raise Refusal(f"{words.given}: holds no samples")
    padded = -len(octets) % PCM_OCTETS
    line = octets + bytes([words.law.idle()]) * padded
    said = f"pcm periods {len(line) // PCM_OCTETS} padded {padded}"
    return MadeFile(line, said, Content.SOUND)


PCM = FileCommand(
    pcm,
    "IN",
    "OUT.pcm",
    example="call.wav 7.pcm",
    options=(
        switch("--raw", "the file has only octets of the line's law"),
        lsb_first(" (with --raw)"),
        trust(" (with --raw)"),
        partial("the samples of a WAV file that are there"),
        LAW,
    ),
)


def sound(words: argparse.Namespace, given: bytes) -> MadeFile:
    """Makes a WAV file (8000 Hz, mono, 16 bits linear) from an Out line or a Pcm line. Prints
    `sound samples N`."""
    if not given:
        raise Refusal(f"{words.given}: holds no octets")
    listen = as_started(f"lines.py listen {recordings.quoted(words.given)} NEW.wav")
    of_frames = f"; {listen} makes sound of it"
    check_law(words, words.given, given, "lines.py sound {} NEW.wav", of_frames)
    said = f"sound samples {len(given)}"
    if words.raw:
        return MadeFile(given, said, Content.SOUND)
    if words.tag in LAWS_BY_TAG:
        samples = given.translate(words.law.table_to(LAWS_BY_TAG[words.tag]))
        return MadeFile(wav_files.wav_of(words.tag, 8, samples), said, Content.WAV)
    return MadeFile(wav_files.wav_of_law(given, words.law), said, Content.WAV)


def wav_kind(name: str, tag: int, text: str) -> Option:
    """An option for the kind of the samples of a WAV file, by its tag."""
    return switch(name, text, action="store_const", const=tag, default=WAV_LINEAR, dest="tag")


SOUND = FileCommand(
    sound,
    "IN.out",
    "OUT",
    example="7.out call.wav",
    options=(
        one_of(
            wav_kind("--alaw", WAV_ALAW, "the samples of the WAV file are A-law"),
            wav_kind("--mulaw", WAV_MULAW, "the samples of the WAV file are mu-law"),
            switch("--raw", "only the line's octets, without a WAV head"),
        ),
        trust(),
        LAW,
    ),
)


def idle(words: argparse.Namespace, _: bytes) -> MadeFile:
    """Makes an idle Pcm line of this many periods, for a run of an uplink alone. Prints `idle
    periods N`."""
    octets = bytes([words.law.idle()]) * PCM_OCTETS * words.periods
    return MadeFile(octets, f"idle periods {words.periods}", Content.SOUND)


def number_of_periods(metavar: str) -> Option:
    """The argument that says how many periods are made."""
    return option(
        "periods",
        type=number_within(1, MOST_IDLE_PERIODS),
        metavar=metavar,
        help="the number of periods of 20 ms",
    )


IDLE = FileCommand(
    idle,
    "PERIODS",
    "OUT.pcm",
    example="312 7.pcm",
    options=(LAW,),
    read=lambda words: b"",
    argument=number_of_periods,
)
