"""Commands of lines.py on captures of network packets: streams of RTP to a line, and lines to a
capture."""

import argparse
from pathlib import Path
from typing import Tuple

from trau.command_line.words import Refusal, number_within, option, switch
from trau.recordings import capture_walk, captures, file_kinds, recordings, rtp_packets
from trau.recordings.code_word import Marker
from trau.recordings.commands import (
    LAW,
    SID,
    Content,
    FileCommand,
    MadeFile,
    is_sound_by_name,
    partial,
    trust,
)
from trau.recordings.file_descriptions import FileKind
from trau.recordings.sound_commands import check_law
from trau.rules.payload_types import GSM

MOST_STREAMS = 1_000_000
CONTENTS = {GSM: Content.UPLINK, rtp_packets.TRAU_FRAMES: Content.CHANNEL}


def streams_word(word: str) -> Tuple[int, ...]:
    """Numbers of streams."""
    return tuple(map(number_within(1, MOST_STREAMS), word.split(",")))


def type_word(word: str) -> Tuple[int, int]:
    """A payload type, and the kind of speech that it has."""
    number, _, name = word.partition("=")
    if name not in rtp_packets.KINDS:
        raise argparse.ArgumentTypeError(f"'{word}' isn't T=gsm, T=pcma or T=pcmu")
    return number_within(0, rtp_packets.MOST_TYPE)(number), rtp_packets.KINDS[name]


TYPE = option(
    "--type",
    type=type_word,
    action="append",
    default=[],
    metavar="T=KIND",
    help="the payload type T, 0 to 127, is gsm, pcma or pcmu, as the sender's SDP says of a"
    " dynamic type; may be repeated",
)
GAP = option(
    "--gap",
    choices=("lost", "idle"),
    default="lost",
    help="what frames are that the time stamps leave out after speech while no number is"
    " missing: lost, as of a base station (default), or idle frames, for a sender that"
    " pauses without a silence descriptor",
)


def pcap(words: argparse.Namespace, _: bytes) -> MadeFile:
    """Makes a line from an RTP stream of a capture (pcap or pcapng), by its time stamps: an uplink
    from GSM (payload type 3), a Pcm line from PCMA (8) or PCMU (0). Frames that didn't come become
    unusable frames; in a pause each 24th frame after a silence descriptor has TAF 1. Samples that
    didn't come become idle octets. Packets with options, in tunnels and on rare links need the
    library dpkt. Prints `pcap gsm packets N late A
    doubled B others C frames D sid S invalid I lost E gap F empty G paused H lead J`, or `octets D
    lost E gap F lead J padded K`. A packets came after later ones, B came again, C have no speech.
    Of the frames that didn't come E have missing numbers, F were left out by the time stamps after
    speech, H after a descriptor; G packets were empty. J periods precede the first frame. `over L`
    follows if time stamps go back: frames or octets that overlap with those before, and are left
    out. With --restart `restarts M` follows, with --partial `cut P wrong Q`: packets that weren't
    captured whole, and that have no whole frames."""
    not_this = "no capture in pcap or pcapng"
    data = recordings.mapped(words.given, words.partial)
    if not capture_walk.is_capture(data[: file_kinds.EXCERPT_OCTETS]):
        file_kinds.refuse_other(words.given, data[:], not_this)
        raise Refusal(f"{words.given}: isn't a capture: it begins as none does")
    line = captures.line_of(words.given, data, words, Marker(words.sid == "keep"))
    return MadeFile(line.chunks, line.said, CONTENTS.get(line.kind, Content.SOUND))


PCAP = FileCommand(
    pcap,
    "IN.pcap",
    "OUT",
    example="call.pcapng 7.up",
    options=(
        option(
            "--stream",
            type=streams_word,
            default=(),
            metavar="N[,N..]",
            help="the stream, counted from 1, of a capture with several; without it they are listed."
            " Several with commas between follow one another by the times of the capture, as those"
            " of a call whose sender changes",
        ),
        TYPE,
        option(
            "--since",
            type=int,
            metavar="N",
            help="begin the line when this stream began, by the times of the capture, so that the"
            " lines of a call keep step",
        ),
        GAP,
        switch(
            "--restart",
            "where time stamps jump, as of a sender that began anew, go on by the times of the"
            " capture; without it the capture is refused",
        ),
        switch(
            "--long-gaps",
            "take time stamps that leave out more than an hour at once, or more than a day in all",
        ),
        SID,
        partial("packets that weren't captured whole, or have no whole frames, count as lost"),
        LAW,
    ),
    read=lambda words: b"",
)


def capture(words: argparse.Namespace, given: bytes) -> MadeFile:
    """Makes a capture with an RTP stream from a line: GSM from an Up or Down line, PCMA or PCMU,
    which Wireshark plays, from a Pcm or Out line, by the line's name and its law. Lost speech has
    no packet, a pause has comfort noise, and an idle frame has no packet. Prints `capture streams N
    packets M`. Needs the library dpkt."""
    more = [(name, recordings.read_recording(name)) for name in words.also]
    lines = [
        (recordings.name_within(name), octets) for name, octets in ((words.given, given), *more)
    ]
    for name, octets in lines:
        if is_sound_by_name(name):
            check_law(words, name, octets, "lines.py capture {} NEW.pcap")
    octets, said = captures.capture_of(lines, words.law, words.silence == "keep")
    return MadeFile(octets, said, Content.CAPTURE)


CAPTURE = FileCommand(
    capture,
    "LINE",
    "OUT.pcap",
    example="7.down call.pcap --also 7.out",
    options=(
        option(
            "--also",
            type=Path,
            action="append",
            default=[],
            metavar="LINE",
            help="add a line as a stream of its own",
        ),
        option(
            "--silence",
            choices=("noise", "keep"),
            default="noise",
            help="what to send in pauses: comfort noise (default), or what base stations send: a"
            " silence descriptor at a pause's start and in each 24th period, and nothing else",
        ),
        trust(),
        LAW,
    ),
)
