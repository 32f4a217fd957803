#!/usr/bin/env python3
"""The parts of clib/examples/gst_host.py by themselves: packets with all kinds of headers, losses as a jitter buffer tells them, numbers.

test_examples.py runs this with a Python that has GStreamer's bindings.
"""

from __future__ import annotations

import struct
import sys
import unittest
from pathlib import Path
from types import SimpleNamespace
from typing import Any, Dict, List, Optional, Sequence

HERE = Path(__file__).resolve().parent

import gst_host
from trau import trau_fr
from gst_host import Gst

FRAMES = [(HERE / "data" / "harsh.gsm").read_bytes()[at : at + 33] for at in range(0, 3300, 33)]
PERIOD = 20_000_000


class Kept:
    """Takes what is pushed into an appsrc."""

    def __init__(self) -> None:
        self.buffers: List[Any] = []
        self.is_over, self.time = False, 0

    def get_current_running_time(self) -> int:
        """As of an element: the time since the pipeline began to play."""
        return self.time

    def emit(self, name: str, *buffer: Any) -> None:
        """A signal of an appsrc."""
        self.is_over = self.is_over or name == "end-of-stream"
        self.buffers += buffer

    def octets(self) -> List[bytes]:
        """What the buffers hold."""
        return [each.extract_dup(0, each.get_size()) for each in self.buffers]


def packet(
    number: int,
    *frames: bytes,
    sources: int = 0,
    extension: Optional[int] = None,
    padding: int = 0,
    stamp: Optional[int] = None,
) -> bytes:
    """A packet with so many contributing sources, an extension of so many words, and so many octets of padding."""
    first = 0x80 | (padding > 0) << 5 | (extension is not None) << 4 | sources
    more = (
        b""
        if extension is None
        else struct.pack(">HH", 0xBEDE, extension) + bytes([0xD1]) * 4 * extension
    )
    after = bytes(padding - 1) + bytes([padding]) if padding else b""
    header = struct.pack(
        ">BBHII",
        first,
        0x83,
        number % 65536,
        (160 * number if stamp is None else stamp) % (1 << 32),
        1,
    )
    return header + b"\xd2" * 4 * sources + more + b"".join(frames) + after


class Heard(unittest.TestCase):
    def setUp(self) -> None:
        Gst.init(None)
        self.sound = Kept()
        self.heard = gst_host.Heard(5, self.sound)

    def bring(self, octets: bytes) -> None:
        """A packet comes out of the jitter buffer."""
        buffer = Gst.Buffer.new_wrapped(octets)
        info = SimpleNamespace(type=Gst.PadProbeType.BUFFER, get_buffer=lambda: buffer)
        self.assertEqual(self.heard.on_pad(None, info), Gst.PadProbeReturn.OK)

    def tell(self, event: Any) -> None:
        """An event comes out of the jitter buffer."""
        info = SimpleNamespace(type=Gst.PadProbeType.EVENT_DOWNSTREAM, get_event=lambda: event)
        self.assertEqual(self.heard.on_pad(None, info), Gst.PadProbeReturn.OK)

    def lose(self, number: int, duration: int = PERIOD) -> None:
        """The jitter buffer gives packets up: this one, and those that it takes to be in this time."""
        text = f"GstRTPPacketLost, seqnum=(uint){number}, timestamp=(guint64)0, duration=(guint64){duration}, retry=(uint)0"
        self.tell(
            Gst.Event.new_custom(
                Gst.EventType.CUSTOM_DOWNSTREAM, Gst.Structure.new_from_string(text)
            )
        )

    def assert_played(self, frames: Sequence[Optional[bytes]], start: int = 0) -> None:
        """These periods were played so far, 20 ms each."""
        self.assertEqual(
            (len(self.sound.buffers), self.heard.periods, self.heard.lost),
            (len(frames), len(frames), frames.count(None)),
        )
        receiver = trau_fr.Receiver(5)
        wanted = [receiver.receive(frame).tobytes() for frame in frames]
        self.assertEqual(
            [k for k, octets in enumerate(self.sound.octets()) if octets != wanted[k]],
            [],
            "periods that differ",
        )
        times = [(each.pts, each.duration) for each in self.sound.buffers]
        self.assertEqual(times, [(start + k * PERIOD, PERIOD) for k in range(len(frames))])

    def test_headers(self) -> None:
        kinds: List[Dict[str, int]] = [
            {},
            {"sources": 3},
            {"sources": 15},
            {"extension": 0},
            {"extension": 3},
            {"sources": 2, "extension": 1},
        ]
        for number, words in enumerate(kinds):
            self.bring(packet(number, FRAMES[number], **words))
        self.bring(packet(6, FRAMES[6], padding=35))
        self.assert_played(FRAMES[:7])

    def test_packets_of_several_frames(self) -> None:
        # A lost packet has as many as the one before.
        for number in (0, 1):
            self.bring(packet(number, *FRAMES[2 * number : 2 * number + 2], stamp=320 * number))
        self.lose(2)
        self.assert_played([*FRAMES[:4], None, None])
        self.bring(packet(3, *FRAMES[6:8], stamp=960))
        self.assert_played([*FRAMES[:4], None, None, *FRAMES[6:8]])

    def test_packets_without_a_frame(self) -> None:
        self.bring(packet(0, FRAMES[0]))
        self.bring(packet(1))
        self.assert_played([FRAMES[0], None])
        self.bring(packet(2, FRAMES[2][:20]))
        self.bring(packet(3, FRAMES[3]))
        self.assert_played([FRAMES[0], None, None, FRAMES[3]])

    def test_losses_are_played_at_once(self) -> None:
        # An event may stand for several packets; its duration is a guess, and too long if packets come late.
        self.bring(packet(7, FRAMES[0]))
        self.lose(8)
        self.assert_played([FRAMES[0], None])
        self.lose(9, 4 * PERIOD)
        self.assert_played([FRAMES[0], None, None])
        self.lose(12)
        self.assert_played([FRAMES[0], *[None] * 5])
        self.bring(packet(13, FRAMES[1]))
        self.assert_played([FRAMES[0], *[None] * 5, FRAMES[1]])

    def test_losses_that_are_told_late_or_never(self) -> None:
        self.lose(6)
        self.bring(packet(7, FRAMES[0]))
        self.bring(packet(10, FRAMES[1]))
        self.lose(8)
        self.bring(packet(11, FRAMES[2]))
        self.assert_played([FRAMES[0], None, None, FRAMES[1], FRAMES[2]])

    def test_what_time_stamps_leave_out(self) -> None:
        # As of a base station, which takes no number for a frame that it lost, and for a pause.
        self.bring(packet(7, FRAMES[0], stamp=1000))
        self.bring(packet(8, FRAMES[1], stamp=1320))
        self.lose(9)
        self.bring(packet(10, FRAMES[2], stamp=1800))
        self.assert_played([FRAMES[0], None, FRAMES[1], None, None, FRAMES[2]])

    def test_the_greatest_number_and_time_stamp(self) -> None:
        first = (1 << 32) - 320
        self.bring(packet(65534, FRAMES[0], stamp=first))
        self.lose(65535)
        self.bring(packet(65538, FRAMES[1], stamp=first + 640))
        self.bring(packet(65539, FRAMES[2], stamp=first + 800))
        self.assert_played([FRAMES[0], None, None, None, FRAMES[1], FRAMES[2]])

    def test_a_sender_that_begins_anew(self) -> None:
        self.bring(packet(9000, FRAMES[0]))
        self.bring(packet(3, FRAMES[1]))
        self.bring(packet(20000, FRAMES[2]))
        self.bring(packet(20001, FRAMES[3]))
        self.lose(40000)
        self.bring(packet(20002, FRAMES[4]))
        self.bring(packet(20000 + 3 + 250, FRAMES[5]))
        self.assert_played([*FRAMES[:5], *[None] * 250, FRAMES[5]])

    def test_the_time_of_the_pipeline(self) -> None:
        self.heard = gst_host.Heard(5, self.sound, None)
        self.sound.time = 7 * PERIOD + 5
        self.bring(packet(0, FRAMES[0]))
        self.sound.time += 3 * PERIOD
        self.bring(packet(2, FRAMES[1]))
        self.assert_played([FRAMES[0], None, FRAMES[1]], 7 * PERIOD + 5)

    def test_the_end(self) -> None:
        self.bring(packet(9, FRAMES[0]))
        self.assertFalse(self.sound.is_over)
        self.tell(Gst.Event.new_eos())
        self.assertTrue(self.sound.is_over)
        self.assert_played(FRAMES[:1])


class File(unittest.TestCase):
    def test_more_packets_than_numbers(self) -> None:
        Gst.init(None)
        network, count = Kept(), 65536 + 3
        gst_host.push_file(
            network, b"".join(FRAMES[k % 100] for k in range(count)), "0" * 65530 + "1" + "0"
        )
        self.assertTrue(network.is_over)
        sent = [k for k in range(count) if k != 65530]
        self.assertEqual(len(network.buffers), len(sent))
        wanted = [
            (k * PERIOD, struct.pack(">BBHII", 0x80, 3, k % 65536, 160 * k, 1) + FRAMES[k % 100])
            for k in sent
        ]
        got = [(each.pts, octets) for each, octets in zip(network.buffers, network.octets())]
        self.assertEqual(
            [k for k, one in enumerate(got) if one != wanted[k]], [], "packets that differ"
        )


if __name__ == "__main__":
    unittest.main()
