"""Commands of lines.py on lines of frames: frames of libgsm to an uplink, a downlink to frames of
libgsm, lines of frames to sound, and damage to an uplink."""

import argparse
from pathlib import Path

from trau.command_line.words import Refusal, as_started, number_within, option, switch
from trau.recordings import damages, file_kinds, gsm_files, listening, recordings
from trau.recordings.code_word import Marker
from trau.recordings.excerpts import excerpts_of
from trau.recordings.commands import (
    LAW,
    SID,
    Content,
    FileCommand,
    MadeFile,
    is_sound_by_name,
    partial,
)
from trau.recordings.heard_uplinks import heard_of_uplink
from trau.recordings.wav_files import wav_of_samples
from trau.rules.parameters import GSM_OCTETS, SILENCE, bits_of_parameters, gsm_of_data
from trau.rules.profile import FRAME_BITS, MOST_STAMP, PERIODS_A_SECOND, SAMPLES_A_SECOND


def check_frames(name: Path, octets: bytes) -> None:
    """Refuses a file that plainly isn't a line of frames, by its head, or by the name of a line of
    A-law or mu-law if it shows none."""
    not_this = "no line of frames"
    file_kinds.refuse_head(name, octets, not_this)
    if is_sound_by_name(name) and not file_kinds.frames_in(excerpts_of(octets)):
        file_kinds.refuse_other(name, octets, not_this)
        command = as_started(f"lines.py sound {recordings.quoted(name)} NEW.wav")
        raise Refusal(
            f"{name}: is {Content.SOUND.said} by its name, and {not_this};"
            f" {command} makes sound of it"
        )


def uplink(words: argparse.Namespace, given: bytes) -> MadeFile:
    """Makes an uplink from frames of libgsm (33 octets each, as toast, sox and ffmpeg write them to
    .gsm files), or from a WAV file of GSM frames (two in a block of 65 octets). Nothing is
    transcoded: the 260 bits of a frame stay as they are. Silence descriptors are marked as such,
    and damaged ones as invalid; in a pause each 24th frame after a descriptor has TAF 1. Prints
    `uplink frames N sid A invalid B`, with --zeros lost also `lost C`, and with --partial `left R`:
    the octets after the last whole frame."""
    marker = Marker(words.sid == "keep", words.dtxd == 1)
    zeros_are_lost = words.zeros == "lost"
    line, said = gsm_files.uplink_of(words.given, given, marker, words.partial, zeros_are_lost)
    return MadeFile(line, said, Content.UPLINK)


UPLINK = FileCommand(
    uplink,
    "IN.gsm",
    "OUT.up",
    example="call.gsm 7.up --dtxd 1",
    options=(
        option(
            "--dtxd",
            type=int,
            choices=(0, 1),
            default=0,
            help="DTXd of all frames: whether the downlink may send silence descriptors (default 0,"
            " it may not)",
        ),
        option(
            "--zeros",
            choices=("lost",),
            help="take frames of 33 zeros, which some recorders write for lost ones, as lost:"
            " unusable frames (BFI 1)",
        ),
        SID,
        partial("the whole frames"),
    ),
)


def gsm(words: argparse.Namespace, given: bytes) -> MadeFile:
    """Finds the frames of a downlink at any bit, and writes their speech as frames of libgsm, which
    untoast, sox and ffmpeg decode. Prints `gsm frames N found speech A silence B idle C other D
    outside E`: the frames written, the frames found of each kind, and the bits that belong to no
    frame."""
    check_frames(words.given, given)
    treatments = {"speech": "keep", "silence": words.silence, "idle": words.idle, "other": "skip"}
    if words.heard:
        return gsm_of_uplink(words, given)
    found = gsm_files.treated_downlink(words.given, given, treatments)
    frames = [gsm_of_data(data) for _, data in found.frames]
    said = f"gsm frames {len(frames)} found {found.said}"
    return MadeFile(b"".join(frames), said, Content.FRAMES)


def gsm_of_uplink(words: argparse.Namespace, given: bytes) -> MadeFile:
    """The frames that are heard of an uplink."""
    heard = heard_of_uplink(given)
    quiet = gsm_of_data(bits_of_parameters(SILENCE)) if words.idle == "quiet" else b""
    frames = [quiet if frame is None else frame for frame in heard.frames]
    octets = b"".join(frames)
    if not octets:
        raise Refusal(f"{words.given}: no frame of an uplink would be written: {heard.said()}")
    said = f"gsm frames {len(octets) // GSM_OCTETS} {heard.said()}"
    return MadeFile(octets, said, Content.FRAMES)


GSM = FileCommand(
    gsm,
    "IN.down",
    "OUT.gsm",
    example="7.down call.gsm --idle quiet",
    options=(
        option(
            "--silence",
            choices=("noise", "quiet", "keep", "skip"),
            default="noise",
            help="what to write for a silence descriptor (SP 0), which a decoder of speech would"
            " turn into a buzz: a frame of comfort noise made from it (default), a frame of silence,"
            " its bits as they are, or nothing",
        ),
        option(
            "--idle",
            choices=("skip", "quiet"),
            default="skip",
            help="what to write for an idle frame: nothing (default), or a frame of silence, which"
            " keeps the time",
        ),
        switch(
            "--heard",
            "the line is an uplink: write for each period what a call decodes, which is made where"
            " speech was lost and in pauses; quiet periods are as idle frames. Prints the counts of"
            " `listen`",
        ),
    ),
)


def listen(words: argparse.Namespace, given: bytes) -> MadeFile:
    """Makes a WAV file (8000 Hz, mono, 16 bits linear) of the sound of a downlink or an uplink.

    Downlink: finds its frames at any bit, and decodes them by the C library, if clib/build made it
    or it is installed, else by the program `trau`, if it is built, and else by the model, which is
    slow; all give the same. Silence descriptors give
    comfort noise; idle frames, and periods without a frame, give silence. Prints `listen samples N
    found speech A silence B idle C other D outside E`.

    Uplink: runs it by the program `trau` as a call with an idle Pcm line, so that lost speech,
    pauses and the search for frames sound as they do on the Out line. Where the program isn't
    built, the library or the model gives the same. Prints `listen samples N
    uplink good G sid V invalid I bad U idle Z other O miss M none N`: the counts of the run's
    report.

    With --both it makes a stereo file: left what comes from the exchange, of the line that is
    named, a Pcm line or a downlink; right this line, an uplink. Both begin with the call's first
    period. --losses quiet has silence where speech of an uplink was lost, and --linear the
    decoder's own samples of 13 bits, which the program doesn't give.

    Times in the sound count from the call's first period, and not from the run's; `report.py
    losses` prints both."""
    check_frames(words.given, given)
    if words.linear and words.trau:
        raise Refusal("--linear: the program gives A-law alone, so --trau can't be with it")
    wanted = listening.WantedSound(words.trau, words.linear, words.losses == "quiet")
    samples, said = listening.samples_of_line(words.given, given, wanted)
    if words.start is not None:
        start = words.start / PERIODS_A_SECOND
        said += f" run {start:.2f} to {start + len(samples) / SAMPLES_A_SECOND:.2f}"
    said = f"listen samples {len(samples)} {said}"
    if words.both is None:
        return MadeFile(wav_of_samples(samples), said, Content.WAV)
    other = recordings.read_recording(words.both)
    left = listening.samples_of_side(words.both, other, words.law, wanted)
    stereo = listening.side_by_side(left, samples)
    return MadeFile(wav_of_samples(stereo, 2), f"{said} both {len(left)}", Content.WAV)


LISTEN = FileCommand(
    listen,
    "LINE",
    "OUT.wav",
    example="7.down call.wav",
    options=(
        option(
            "--start",
            type=number_within(0, MOST_STAMP),
            metavar="PERIOD",
            help="the call's first period, S of `call C from S ..` in the report: prints also"
            " `run A to B`, the sound's times in the run",
        ),
        option(
            "--trau",
            type=listening.program_named,
            metavar="PROGRAM",
            help="decode or run by this program and not by the library",
        ),
        option(
            "--both",
            type=Path,
            metavar="LINE",
            help="make a stereo file: LINE, from the exchange, is left, and this line right",
        ),
        option(
            "--losses",
            choices=("made", "quiet"),
            default="made",
            help="what lost speech of an uplink sounds like: what is made for it (default), or"
            " silence",
        ),
        switch("--linear", "the decoder's own samples of 13 bits, in place of those of A-law"),
        LAW,
    ),
)


def damage(words: argparse.Namespace, given: bytes) -> MadeFile:
    """Damages an uplink. Its frames and misses are numbered from 0, in the order in which the
    search for frames yields them. FRAMES are parts with commas between: a frame A, frames A-B,
    every:N (the Nth, the 2Nth and so on: N-1, 2N-1, ..). The damages are done in the order of the
    options below. If --sid, --drop or --zero names a frame that isn't a speech frame, it stays as
    it is. Prints `damage frames N sid A drop B zero C align D slip E`: the number of frames, and
    the number of changes of each kind."""
    line, said = damages.damaged(words.given, given, words)
    return MadeFile(line, said, Content.UPLINK)


DAMAGE = FileCommand(
    damage,
    "IN.up",
    "OUT.up",
    example="7.up 8.up --sid 100-160 --drop 20-22,every:50 --slip 200:-3",
    options=(
        option(
            "--sid",
            type=damages.frames_named,
            default=(),
            metavar="FRAMES",
            help="replace speech frames by a pause: a silence descriptor at its start and at each"
            " 24th frame (23, 47 and so on), which has TAF 1, and unusable frames between. A"
            " descriptor has the frame's spectrum and its least block maximum",
        ),
        option(
            "--drop",
            type=damages.frames_named,
            default=(),
            metavar="FRAMES",
            help="mark speech frames as unusable: BFI 1",
        ),
        option(
            "--zero",
            type=damages.frames_named,
            default=(),
            metavar="FRAMES",
            help="replace speech frames by 320 zeros",
        ),
        option(
            "--align",
            type=damages.at_frame(0, 63),
            action="append",
            default=[],
            metavar="FRAME:FIELD",
            help="set the alignment field, 0 to 63, of a speech frame or an idle frame; may be"
            " repeated",
        ),
        option(
            "--slip",
            type=damages.at_frame(-FRAME_BITS, FRAME_BITS),
            action="append",
            default=[],
            metavar="FRAME:BITS",
            help="put up to 320 ones before a frame or, with a minus, leave out up to 320 bits"
            " before it; may be repeated. Ones then fill the line up to a whole period",
        ),
    ),
)
