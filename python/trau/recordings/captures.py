"""Speech in captures of network packets (RTP, RFC 3550 and RFC 3551): full rate speech, A-law or
mu-law to the lines of a call, and lines to captures that other programs play.

The library dpkt writes captures, and reads packets with unusual layers. Without it, `capture` is
refused with a word, and these packets are counted.
"""

import argparse
import io
import itertools
from collections import Counter
from pathlib import Path
from typing import Callable, Iterable, Iterator, List, NamedTuple, Optional, Sequence, Tuple, Union

from trau.command_line.words import Refusal
from trau.recordings import uplink_frames
from trau.recordings.code_word import CODE_WORD_BITS, Marker
from trau.recordings.capture_streams import (
    CapturedFlow,
    CapturedStreams,
    kind_of,
    periods_between,
    streams_of,
)
from trau.recordings.capture_walk import CaptureOctets
from trau.recordings.packet_rows import SEQUENCES, STAMPS, rows_of
from trau.recordings.rtp_packets import NAMES, PLAIN_TYPES, TRAU_FRAMES, Packet, library
from trau.recordings.rtp_streams import (
    MOST_GAPS,
    Counts,
    EmptyFrames,
    Gap,
    LostUnits,
    Stretch,
    stretches,
    without_wrong,
)
from trau.recordings.uplink_frames import UplinkFrames
from trau.rules.frame import FrameKind, bits_of, data_of, read_down
from trau.rules.g711 import Law
from trau.rules.noise import RandomSource, comfort_noise
from trau.rules.parameters import (
    SILENCE,
    bits_of_parameters,
    gsm_of_data,
    parameters_of_bits,
)
from trau.rules.payload_types import GSM, PCMA, PCMU
from trau.rules.profile import PCM_OCTETS, PERIODS_A_SECOND, SAMPLES_A_SECOND, TAF_PERIODS
from trau.rules.search import FRAME_OF_DOWNLINK, kind_of_period, yields_by_period
from trau.runs import run_lines
from trau.runs.uplink_periods import FRAME_KINDS

LAWS = {PCMA: Law.A, PCMU: Law.MU}
IDLE_UPLINK = uplink_frames.IDLE
MOST_LEAD = MOST_GAPS // PCM_OCTETS  # periods

# To lines

# Frames that didn't come, by what shows it: numbers that are missing; time stamps that go on after
# speech while no number is missing; packets without payload; and time stamps that go on after a
# silence descriptor.
LOST, GAP, EMPTIED, PAUSED = "lost", "gap", "empty", "paused"
REASONS = {LostUnits: LOST, EmptyFrames: EMPTIED}


CHUNK_OCTETS = 1 << 20  # of a line that is written as it is made
CHUNK_UNITS = 1 << 17


def in_parts(units: int) -> Iterator[int]:
    """So many units in parts that fit into the memory."""
    for place in range(0, units, CHUNK_UNITS):
        yield min(CHUNK_UNITS, units - place)


class UplinkOfStream:
    """An uplink after a lead of idle frames: the frames of a stream as they are marked, and
    unusable ones for those that didn't come, which let the noise of a pause go on. If gaps are
    idle, the sender has no descriptors and sends nothing in pauses."""

    def __init__(
        self, found: Iterable[Stretch], lead: int, marker: Marker, gaps_are_idle: bool
    ) -> None:
        self.found, self.lead, self.marker, self.gaps_are_idle = found, lead, marker, gaps_are_idle
        self.missing: Counter = Counter()

    def chunks(self) -> Iterator[bytes]:
        """The line, as it is made."""
        for part in in_parts(self.lead):
            yield part * IDLE_UPLINK
        line = UplinkFrames(self.marker)
        for stretch in self.found:
            for _ in self.taken(line, stretch):
                if line.octets() >= CHUNK_OCTETS:
                    yield line.drained()
        yield line.drained()

    def taken(self, line: UplinkFrames, stretch: Stretch) -> Iterator[int]:
        """Takes a stretch, part by part."""
        if isinstance(stretch, bytes):
            line.take_gsm(stretch)
            yield len(stretch)
            return
        what = REASONS.get(type(stretch)) or (PAUSED if line.pauses() else GAP)
        self.missing[what] += stretch.units
        for part in in_parts(stretch.units):
            if what == GAP and self.gaps_are_idle:
                line.idle(part)
            else:
                line.lose(part)
            yield part

    def said(self) -> str:
        """What the line has, when it is made."""
        didnt_come = " ".join(
            f"{what} {self.missing[what]}" for what in (LOST, GAP, EMPTIED, PAUSED)
        )
        frames = sum(self.marker.counts.values())
        return f"frames {frames} {self.marker.said()} {didnt_come} lead {self.lead}"


class PcmOfStream:
    """A Pcm line of whole periods after a lead of idle ones: each octet of the law that was sent as
    one of the line's, and idle ones where none came."""

    def __init__(self, found: Iterable[Stretch], lead: int, sent: Law, law: Law) -> None:
        self.found, self.lead, self.table = found, lead, sent.table_to(law)
        self.idle = bytes([law.idle()])
        self.units: Counter = Counter()  # by kinds of stretches
        self.padded = 0

    def chunks(self) -> Iterator[bytes]:
        """The line, as it is made."""
        for part in in_parts(self.lead * PCM_OCTETS):
            yield part * self.idle
        for stretch in self.found:
            if isinstance(stretch, bytes):
                self.units[bytes] += len(stretch)
                yield stretch.translate(self.table)
                continue
            self.units[type(stretch)] += stretch.units
            for part in in_parts(stretch.units):
                yield part * self.idle
        self.padded = -sum(self.units.values()) % PCM_OCTETS
        yield self.padded * self.idle

    def said(self) -> str:
        """What the line has, in octets, when it is made."""
        octets, lost, gap = (self.units[kind] for kind in (bytes, LostUnits, Gap))
        return f"octets {octets} lost {lost} gap {gap} lead {self.lead} padded {self.padded}"


MOST_OVERLAP = 1.0  # seconds, in which the streams of a call may overlap that are joined


def chosen_streams(streams: CapturedStreams, numbers: Sequence[int]) -> List[CapturedFlow]:
    """The streams with these numbers, which follow one another and are of one kind; or the only
    one."""
    found = [streams.chosen("--stream", number) for number in numbers or (None,)]
    for at, (before, flow) in enumerate(zip(found, found[1:])):
        overlap = before.last - flow.first
        if overlap > MOST_OVERLAP or flow.first <= before.first:
            raise Refusal(
                f"{streams.name}: stream {numbers[at + 1]} begins {overlap:.2f} s before stream {numbers[at]} ends; streams that are joined"
                " follow one another"
            )
    kind_of(found)
    return found


class LineOfStreams(NamedTuple):
    """A line that is made of the streams of a capture as it is written: its octets in chunks, what
    was found, once they are all made, and the kind of the streams."""

    chunks: Iterator[bytes]
    said: Callable[[], str]
    kind: int


def channel_of(packets: Iterable[Packet], counts: Counts) -> Iterator[bytes]:
    """A channel of 16 kbit/s of the frames that packets have, one after the other."""
    for packet in packets:
        counts.packets += 1
        yield packet.payload


def unread_said(streams: CapturedStreams) -> str:
    """The packets of a capture that can't be read, in words that follow others."""
    unread = streams.whole.unread_said()
    return f"; not read: {unread}" if unread else ""


def line_of(
    name: Path, data: CaptureOctets, asked: argparse.Namespace, marker: Marker
) -> LineOfStreams:
    """A line of the streams of a capture that the words ask for, an uplink of GSM and a Pcm line of
    the others."""
    streams = streams_of(name, data, asked.partial, {**PLAIN_TYPES, **dict(asked.type)})
    flows = chosen_streams(streams, asked.stream)
    lead = 0
    if asked.since is not None:
        lead = periods_between(name, streams.chosen("--since", asked.since), flows[0])
    if lead > MOST_LEAD and not asked.long_gaps:
        raise Refusal(
            f"{name}: the stream begins {lead // PERIODS_A_SECOND} s after that of --since; at most"
            f" {MOST_LEAD // PERIODS_A_SECOND} s are taken; --long-gaps takes any"
        )
    kind = kind_of(flows)
    counts = Counts()
    if kind == TRAU_FRAMES:
        frames = itertools.chain.from_iterable(map(streams.packets, flows))
        return LineOfStreams(
            channel_of(frames, counts),
            lambda: f"pcap trau frames {counts.packets}{unread_said(streams)}",
            kind,
        )
    rows = (rows_of(streams.packets(flow)) for flow in flows)
    right = [without_wrong(name, each, asked.partial, counts) for each in rows]
    found = stretches(name, right, kind, asked.restart, counts, asked.long_gaps)
    line: Union[UplinkOfStream, PcmOfStream]
    if kind == GSM:
        line = UplinkOfStream(found, lead, marker, asked.gap == "idle")
    else:
        line = PcmOfStream(found, lead, LAWS[kind], asked.law)

    def said() -> str:
        """What was found."""
        return (
            f"pcap {NAMES[kind]} packets {counts.packets} late {counts.late} doubled {counts.doubled} others {counts.others} {line.said()}"
            + (f" over {counts.over}" if counts.over else "")
            + (f" restarts {counts.restarts}" if asked.restart else "")
            + (f" cut {streams.cut} wrong {counts.wrong}" if asked.partial else "")
            + unread_said(streams)
        )

    return LineOfStreams(line.chunks(), said, kind)


# From lines


class Sound(NamedTuple):
    """What is sent at a time, in samples from the line's start: a payload, or None for one that is
    lost."""

    stamp: int
    payload: Optional[bytes]


def marked(data: str) -> bytes:
    """A silence descriptor with its code word, by which who receives it knows it."""
    bits = list(data)
    for bit in CODE_WORD_BITS:
        bits[bit] = "0"
    return gsm_of_data("".join(bits))


class Pauses:
    """What is sent in pauses: comfort noise in each period or, if descriptors are kept, what a base
    station sends: a descriptor at a pause's start and in each 24th period of it, and nothing
    else."""

    def __init__(self, keeps: bool) -> None:
        self.keeps = keeps
        self.source = RandomSource(1)
        self.descriptor = bits_of_parameters(SILENCE)
        self.periods: Optional[int] = None  # since the pause began

    def end(self) -> None:
        """A period without pause."""
        self.periods = None

    def sent(self) -> Optional[bytes]:
        """What is sent in the next period of a pause, by the latest descriptor."""
        self.periods = 0 if self.periods is None else self.periods + 1
        if not self.keeps:
            noise = comfort_noise(parameters_of_bits(self.descriptor), self.source, 0)
            return gsm_of_data(bits_of_parameters(noise))
        return marked(self.descriptor) if self.periods % TAF_PERIODS == 0 else None


def sounds_of_uplink(octets: bytes, keeps: bool = False) -> Iterator[Sound]:
    """What an uplink gives: good frames; lost ones; pauses; nothing elsewhere."""
    yields = yields_by_period(bits_of(octets))
    kinds = [kind_of_period(each) for each in yields]
    pauses = Pauses(keeps)
    heard = run_lines.heard_codes(bytes(map(FRAME_KINDS.index, kinds)))
    for period, (each, kind, code) in enumerate(zip(yields, kinds, heard)):
        stamp = period * PCM_OCTETS
        data = data_of(each.frame) if each and each.frame else ""
        if kind is FrameKind.VALID_SID:
            pauses.descriptor = data
        if code == run_lines.NOISE_HEARD:
            payload = pauses.sent()
            if payload:
                yield Sound(stamp, payload)
            continue
        pauses.end()
        if code == run_lines.SPEECH_HEARD:
            yield Sound(stamp, gsm_of_data(data))
        elif code == run_lines.LOST_HEARD:
            yield Sound(stamp, None)


def sounds_of_downlink(octets: bytes, keeps: bool = False) -> Iterator[Sound]:
    """What a downlink gives, at the time of each frame: speech, pauses, nothing for idle frames."""
    pauses = Pauses(keeps)
    for found in FRAME_OF_DOWNLINK.finditer(bits_of(octets)):
        frame = read_down(found.group())
        stamp = found.start() // 2  # two bits of the line are the time of a sample
        if frame.is_speech() and frame.kind is not FrameKind.SPEECH:
            pauses.descriptor = frame.data
            payload = pauses.sent()
            if payload:
                yield Sound(stamp, payload)
            continue
        pauses.end()
        if frame.is_speech():
            yield Sound(stamp, gsm_of_data(frame.data))


def sounds_of_octets(octets: bytes, keeps: bool = False) -> Iterator[Sound]:
    """What a line from or to the exchange gives."""
    for place in range(0, len(octets), PCM_OCTETS):
        yield Sound(place, octets[place : place + PCM_OCTETS])


SOUNDS = {
    "up": (GSM, sounds_of_uplink),
    "down": (GSM, sounds_of_downlink),
    "pcm": (PCMA, sounds_of_octets),
    "out": (PCMA, sounds_of_octets),
}
FIRST_PORT = 5004  # that of RTP, by which other programs know it
PORTS = 30000  # of streams; later ones have those of the first again, at other addresses


def datagram_of(stream: int, kind: int, sequence: int, marked: bool, sound: Sound) -> bytes:
    """The Ethernet frame of a packet of a stream."""
    rtp = library("rtp").RTP(
        seq=sequence % SEQUENCES, ts=sound.stamp % STAMPS, ssrc=stream, data=sound.payload
    )
    rtp.version, rtp.pt, rtp.m = 2, kind, marked
    high, low = divmod(stream, 256)
    udp = library("udp").UDP(
        sport=FIRST_PORT + 2 * (stream % PORTS), dport=FIRST_PORT, data=bytes(rtp)
    )
    udp.ulen = len(udp)
    packet = library("ip").IP(
        src=bytes([10, high, 0, low]), dst=bytes([10, high, 1, low]), p=17, ttl=64, data=udp
    )
    packet.len = len(packet)
    return bytes(
        library("ethernet").Ethernet(
            src=bytes([2, 0, 0, 0, 0, 1]), dst=bytes([2, 0, 0, 0, 0, 2]), data=packet
        )
    )


def packets_of(stream: int, kind: int, sounds: Iterable[Sound]) -> Iterator[Tuple[float, bytes]]:
    """The packets of a stream with their times. A lost one takes a number; the first one behind a
    gap is marked."""
    following: Optional[int] = None
    for sequence, sound in enumerate(sounds):
        if sound.payload is not None:
            marked = following is None or sound.stamp > following + PCM_OCTETS // 2
            yield sound.stamp / SAMPLES_A_SECOND, datagram_of(stream, kind, sequence, marked, sound)
        following = sound.stamp + PCM_OCTETS


def capture_of(
    lines: Sequence[Tuple[Path, bytes]], law: Law, keeps: bool = False
) -> Tuple[bytes, str]:
    """A capture of the lines, each a stream, those from and to the exchange with this law, with
    comfort noise in pauses or the descriptors that are kept; and what it has."""
    if len(lines) >= 1 << 16:
        raise Refusal(f"{len(lines)} lines: fewer than {1 << 16} make a capture")
    packets: List[Tuple[float, bytes]] = []
    for stream, (name, octets) in enumerate(lines, 1):
        side = name.suffix[1:]
        if side not in SOUNDS:
            raise Refusal(f"{name}: the name of a line ends with .up, .down, .pcm or .out")
        kind, sounds = SOUNDS[side]
        if kind == PCMA and law is Law.MU:
            kind = PCMU
        packets += packets_of(stream, kind, sounds(octets, keeps))
    if not packets:
        raise Refusal(f"{lines[0][0]}: gives no speech to send")
    file = io.BytesIO()
    writer = library("pcap").Writer(file, snaplen=65535)
    for time, octets in sorted(packets, key=lambda packet: packet[0]):
        writer.writepkt(octets, ts=time)
    return file.getvalue(), f"capture streams {len(lines)} packets {len(packets)}"
