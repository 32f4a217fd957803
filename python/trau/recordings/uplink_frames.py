"""The frames of an uplink that is made of full rate frames, as a base station sends them: what
came, unusable frames for what didn't, and idle frames."""

from itertools import groupby
from typing import Iterable, List, Optional, Tuple

from trau.recordings.code_word import Marker
from trau.recordings.speech_frames import are_speech, uplinks_of_speech
from trau.rules.frame import FrameKind, UpFrame, frame_of, octets_of, write_up
from trau.rules.parameters import GSM_OCTETS, SILENCE, bits_of_parameters, data_of_gsm
from trau.rules.profile import FRAME_OCTETS, TAF_PERIODS, UP_IDLE


def unusable(taf: bool) -> bytes:
    """An unusable frame."""
    return octets_of(write_up(UpFrame(FrameKind.UNUSABLE, taf, data=bits_of_parameters(SILENCE))))


IDLE = octets_of(frame_of(UP_IDLE + "000000" + 10 * "1", 260 * "1"))
LOST, LOST_WITH_TAF = unusable(False), unusable(True)


class UplinkFrames:
    """Makes the frames of an uplink in their order. A silence descriptor begins a pause, and good
    speech or an idle frame ends it. In a pause each 24th frame after a descriptor has TAF 1: the
    next descriptor is due there, and without any the noise fades."""

    def __init__(self, marker: Marker) -> None:
        self.marker = marker
        self.frames = bytearray()
        # Plain speech becomes frames together at the end: until then its frames of 33 octets are
        # here, and zeros where they belong, at these places, so many octets.
        self.speech = bytearray()
        self.places: List[Tuple[int, int]] = []
        self.since: Optional[int] = None  # frames since the last descriptor of a pause

    def pauses(self) -> bool:
        """Whether the next frame is in a pause, if it isn't speech."""
        return self.since is not None

    def go_on(self) -> None:
        """Goes on by a frame that isn't speech."""
        if self.since is not None:
            self.since += 1

    def is_due(self) -> bool:
        """Whether a descriptor is due in the frame to which it went on."""
        return self.since is not None and self.since % TAF_PERIODS == 0

    def take(self, data: str) -> None:
        """A frame that came, D1 to D260."""
        kind = self.marker.kind(data)
        is_speech = kind is FrameKind.SPEECH
        self.go_on()
        taf = not is_speech and self.is_due()
        self.since = None if is_speech else 0
        self.frames += octets_of(frame_of(self.marker.control(kind, taf), data))

    def lose(self, count: int = 1) -> None:
        """Frames that didn't come."""
        for _ in range(count):
            self.go_on()
            self.frames += LOST_WITH_TAF if self.is_due() else LOST

    def take_all(self, frames: Iterable[Optional[str]]) -> None:
        """Frames that came, D1 to D260 each, and None for each that didn't."""
        for data in frames:
            if data is None:
                self.lose()
            else:
                self.take(data)

    def take_gsm(self, frames: bytes) -> None:
        """Frames that came, of 33 octets each."""
        count = len(frames) // GSM_OCTETS
        plain = b"\1" * count if self.marker.keeps else are_speech(frames)
        start = 0
        for is_plain, group in groupby(plain) if 0 in plain else ((1, plain),):
            end = start + GSM_OCTETS * len(bytes(group))
            if is_plain:
                self.take_speech(frames[start:end])
            else:
                for place in range(start, end, GSM_OCTETS):
                    self.take(data_of_gsm(frames[place : place + GSM_OCTETS]))
            start = end

    def take_speech(self, frames: bytes) -> None:
        """Frames of plain speech that came, of 33 octets each."""
        count = len(frames) // GSM_OCTETS
        self.marker.counts[FrameKind.SPEECH] += count
        self.since = None
        self.places.append((len(self.frames), FRAME_OCTETS * count))
        self.frames += bytes(FRAME_OCTETS * count)
        self.speech += frames

    def idle(self, count: int) -> None:
        """Idle frames."""
        self.since = None
        self.frames += count * IDLE

    def octets(self) -> int:
        """The octets of the frames that weren't taken yet."""
        return len(self.frames)

    def line(self) -> bytes:
        """The frames, one after the other."""
        octets, start = uplinks_of_speech(bytes(self.speech), self.marker.dtxd), 0
        for place, size in self.places:
            self.frames[place : place + size] = octets[start : start + size]
            start += size
        self.speech.clear()
        self.places.clear()
        return bytes(self.frames)

    def drained(self) -> bytes:
        """The frames that weren't taken yet; the line goes on with none."""
        frames = self.line()
        self.frames.clear()
        return frames
