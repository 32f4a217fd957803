#!/usr/bin/env python3
"""A receiving host on GStreamer: RTP packets of GSM through rtpjitterbuffer, whose lost packets the library conceals.

Plays what comes to a port, or the frames of a file of libgsm, of which those can be left out that a text of digits marks by 1. It needs
GStreamer with its good plugins, and its Python bindings (Debian: gstreamer1.0-plugins-good, python3-gst-1.0).
"""

import argparse
import struct
import sys
from pathlib import Path
from typing import Any, List, NoReturn, Optional, Tuple

sys.path.insert(0, str(Path(__file__).resolve().parents[2] / "python"))


def fail(why: str) -> NoReturn:
    print(f"gst_host.py: {why}", file=sys.stderr)
    sys.exit(2)


try:
    from trau import trau_fr
except OSError as missing:
    fail(f"no library: {missing}")


try:
    import gi

    gi.require_version("Gst", "1.0")
    from gi.repository import GLib, Gst
except (ImportError, ValueError) as missing:
    fail(f"GStreamer's Python bindings are missing: {missing}")

PERIOD = 20 * 1000 * 1000  # nanoseconds, as GStreamer counts
SAMPLES = 160
CAPS = "application/x-rtp,media=audio,clock-rate=8000,encoding-name=GSM,payload=3"
SOUND = "audio/x-raw,format=S16LE,rate=8000,channels=1,layout=interleaved"
NUMBERS = 1 << 16
STAMPS = 1 << 32
MOST_MISSING = 250  # periods, 5 s; a sender that jumps further has begun anew


def frames_of(octets: bytes) -> List[Optional[bytes]]:
    """The frames of a packet of RTP (RFC 3550, section 5.1), mostly one. A packet without any, as base stations send for a lost frame, is a lost
    period."""
    start, end = 12 + 4 * (octets[0] & 15), len(octets)
    if octets[0] & 16:
        start += 4 + 4 * struct.unpack_from(">H", octets, start + 2)[0]
    if octets[0] & 32:
        end -= octets[-1]
    size = trau_fr.OCTETS
    return [octets[at : at + size] for at in range(start, end - size + 1, size)] or [None]


class Heard:
    """The receive side behind a jitter buffer, whose packets and lost packets come in order to one pad."""

    def __init__(self, seed: int, sound: Any, start: Optional[int] = 0) -> None:
        """`start` is the time of the first period; if None, it is that of the pipeline when it is played."""
        self.receiver, self.sound, self.start = trau_fr.Receiver(seed), sound, start
        self.expected: Optional[Tuple[int, int]] = None  # number and time stamp of the next packet
        self.frames = 1  # of the last packet, and so of one that is lost
        self.periods = self.lost = 0

    def play(self, frame: Optional[bytes]) -> None:
        """One period."""
        if self.start is None:
            self.start = int(self.sound.get_current_running_time())
        buffer = Gst.Buffer.new_wrapped(self.receiver.receive(frame).tobytes())
        buffer.pts, buffer.duration = self.start + self.periods * PERIOD, PERIOD
        self.sound.emit("push-buffer", buffer)
        self.periods += 1
        self.lost += frame is None

    def expect(self, number: int, stamp: int) -> None:
        """The next packet has this number and this time stamp."""
        self.expected = number % NUMBERS, stamp % STAMPS

    def packet(self, octets: bytes) -> None:
        """A packet, and before it what time stamps leave out: lost packets that weren't told of, and pauses."""
        number, stamp = struct.unpack_from(">HI", octets, 2)
        missing = 0 if self.expected is None else (stamp - self.expected[1]) % STAMPS // SAMPLES
        for _ in range(missing if missing <= MOST_MISSING else 0):
            self.play(None)
        frames = frames_of(octets)
        for frame in frames:
            self.play(frame)
        self.frames = len(frames)
        self.expect(number + 1, stamp + SAMPLES * self.frames)

    def lose(self, number: int) -> None:
        """The packets up to this number are lost. (An event may stand for several; the next one, or the next packet, says how many.)"""
        if self.expected is None:
            return
        missing = (number + 1 - self.expected[0]) % NUMBERS * self.frames
        if missing <= MOST_MISSING:
            for _ in range(missing):
                self.play(None)
            self.expect(number + 1, self.expected[1] + SAMPLES * missing)

    def on_pad(self, _pad: Any, info: Any) -> Any:
        """What the jitter buffer puts out."""
        if info.type & Gst.PadProbeType.BUFFER:
            self.packet(info.get_buffer().extract_dup(0, info.get_buffer().get_size()))
            return Gst.PadProbeReturn.OK
        event = info.get_event()
        if event.has_name("GstRTPPacketLost"):
            self.lose(event.get_structure().get_uint("seqnum")[1])
        elif event.type == Gst.EventType.EOS:
            self.sound.emit("end-of-stream")
        return Gst.PadProbeReturn.OK


def push_file(network: Any, frames: bytes, lost: str) -> None:
    """Puts the frames of a file into the pipeline as packets, but for those that are lost."""
    for k in range(len(frames) // trau_fr.OCTETS):
        if lost[k : k + 1] == "1":
            continue
        header = struct.pack(">BBHII", 0x80, 3, k % NUMBERS, 160 * k, 1)
        buffer = Gst.Buffer.new_wrapped(
            header + frames[trau_fr.OCTETS * k : trau_fr.OCTETS * (k + 1)]
        )
        buffer.pts = buffer.dts = k * PERIOD
        network.emit("push-buffer", buffer)
    network.emit("end-of-stream")


def wait_for_end(bus: Any) -> Any:
    """The message that ends the pipeline, or None if it was interrupted. Waits in parts, since a signal comes only between them."""
    ended = None
    try:
        while ended is None:
            ended = bus.timed_pop_filtered(
                Gst.SECOND // 5, Gst.MessageType.EOS | Gst.MessageType.ERROR
            )
    except KeyboardInterrupt:
        pass
    return ended


def words() -> argparse.Namespace:
    parser = argparse.ArgumentParser(
        prog="gst_host.py", description=__doc__, formatter_class=argparse.RawTextHelpFormatter
    )
    source = parser.add_mutually_exclusive_group(required=True)
    source.add_argument("--port", type=int, help="UDP port on which the packets come")
    source.add_argument("--file", type=Path, help="a file of libgsm")
    parser.add_argument(
        "--lost",
        type=Path,
        help="a text with a digit for each frame of the file: 1 if its packet is lost",
    )
    parser.add_argument(
        "--sink", default="autoaudiosink", help="where the sound goes (default autoaudiosink)"
    )
    parser.add_argument(
        "--seed", type=int, default=1, help="of the random numbers: the call's number (default 1)"
    )
    parser.add_argument(
        "--latency",
        type=int,
        default=200,
        help="of the jitter buffer, in milliseconds (default 200)",
    )
    return parser.parse_args()


def main() -> int:
    asked = words()
    Gst.init(None)
    network = (
        f"appsrc name=network format=time caps={CAPS}"
        if asked.file
        else f"udpsrc port={asked.port} caps={CAPS}"
    )
    text = f"{network} ! rtpjitterbuffer do-lost=true latency={asked.latency} ! fakesink name=heard sync=false async=false "
    live = "false" if asked.file else "true"
    try:
        pipeline = Gst.parse_launch(
            text
            + f"appsrc name=sound format=time is-live={live} caps={SOUND} ! audioconvert ! {asked.sink}"
        )
        frames = asked.file.read_bytes() if asked.file else b""
        lost = asked.lost.read_text() if asked.lost else ""
    except (GLib.Error, OSError) as error:
        fail(str(error))
    heard = Heard(asked.seed, pipeline.get_by_name("sound"), 0 if asked.file else None)
    kinds = Gst.PadProbeType.BUFFER | Gst.PadProbeType.EVENT_DOWNSTREAM
    pipeline.get_by_name("heard").get_static_pad("sink").add_probe(kinds, heard.on_pad)
    pipeline.set_state(Gst.State.PLAYING)
    if asked.file:
        push_file(pipeline.get_by_name("network"), frames, lost)
    ended = wait_for_end(pipeline.get_bus())
    pipeline.set_state(Gst.State.NULL)
    if ended is not None and ended.type == Gst.MessageType.ERROR:
        fail(str(ended.parse_error()[0]))
    print(f"periods {heard.periods} lost {heard.lost}")
    return 0


if __name__ == "__main__":
    sys.exit(main())
