"""The TRAU frame of 320 bits for full rate speech (GSM 08.60, full rate speech frames,
docs/FILES.md).

Bits are texts of the characters 0 and 1, the first bit of a line first. The places of the sync, C,
D and T bits are the standard's. The patterns of C1 to C5 and the meanings of the other control bits
are this project's profile, modelled on GSM 08.60.
"""

import enum
from typing import NamedTuple

from trau.rules import profile

Bits = str


def bits_of(octets: bytes) -> Bits:
    """The bits of octets, the most significant of each first (docs/FILES.md)."""
    return format(int.from_bytes(octets, "big"), f"0{8 * len(octets)}b") if octets else ""


def octets_of(bits: Bits) -> bytes:
    """The octets of a multiple of eight bits, the most significant of each first
    (docs/FILES.md)."""
    return int(bits, 2).to_bytes(len(bits) // 8, "big") if bits else b""


# The bits of a frame: twenty rows of sixteen (GSM 08.60, full rate speech frames). Row 0 has
# sixteen zeros, and each other row begins with a one. After these sync bits row 1 has C1 to C15,
# rows 2 to 18 have D1 to D255, and row 19 has D256 to D260, C16 to C21 and T1 to T4.


def frame_of(control: Bits, data: Bits) -> Bits:
    """The frame with C1 to C21 and D1 to D260; its time bits are 1 (GSM 08.60, full rate speech
    frames)."""
    rows = ["1" + data[first : first + 15] for first in range(0, 255, 15)]
    return "".join(["0" * 16, "1" + control[:15], *rows, "1" + data[255:] + control[15:] + "1111"])


def control_of(frame: Bits) -> Bits:
    """C1 to C21 of a frame (GSM 08.60, full rate speech frames)."""
    return frame[17:32] + frame[310:316]


def data_of(frame: Bits) -> Bits:
    """D1 to D260 of a frame (GSM 08.60, full rate speech frames)."""
    return "".join([frame[first : first + 15] for first in range(33, 305, 16)]) + frame[305:310]


class FrameKind(enum.Enum):
    """What a frame is, or what a period of a line has instead of one: the one vocabulary of this
    package.

    The first four are the classes of a speech frame (GSM 06.31, section 6.1): a good speech frame,
    a valid and an invalid SID frame (silence descriptor), and an unusable frame. A downlink has
    speech frames, valid SID frames, idle frames and others. The value is the kind's word in texts
    (docs/FILES.md, "Classes"; docs/commands/frames.md).
    """

    SPEECH = "good"
    VALID_SID = "sid"
    INVALID_SID = "invalid"
    UNUSABLE = "bad"
    IDLE = "idle"
    OTHER = "other"
    MISSED = "miss"  # no frame, where the search expects one
    NONE = "none"  # nothing: the search has no place for a frame here


SPEECH_CLASSES = (
    FrameKind.SPEECH,
    FrameKind.VALID_SID,
    FrameKind.INVALID_SID,
    FrameKind.UNUSABLE,
)
# Classes by BFI and by the two bits of SID (docs/FILES.md, "Classes"); what isn't here is an
# invalid silence descriptor, and is written as 001.
CLASSES = {"000": FrameKind.SPEECH, "100": FrameKind.UNUSABLE, "010": FrameKind.VALID_SID}
CLASS_BITS = {**{kind: bits for bits, kind in CLASSES.items()}, FrameKind.INVALID_SID: "001"}
UP_PATTERNS = {FrameKind.IDLE: profile.UP_IDLE, FrameKind.OTHER: profile.UP_OTHER}


def kind_of_control(control: Bits) -> FrameKind:
    """The class of an uplink's speech frame, and the kind of another frame, by C1 to C21
    (docs/FILES.md, "Control bits" and "Classes")."""
    if control.startswith(profile.UP_SPEECH):
        return CLASSES.get(control[11:14], FrameKind.INVALID_SID)
    return FrameKind.IDLE if control.startswith(profile.UP_IDLE) else FrameKind.OTHER


class UpFrame(NamedTuple):
    """An uplink frame as it is read (docs/FILES.md, "Control bits")."""

    kind: FrameKind
    taf: bool = False  # a silence descriptor is due in this period
    dtxd: bool = False  # discontinuous transmission applies downlink
    field: int = 0  # the alignment field, 0 to 63
    data: Bits = "1" * 260  # D1 to D260

    def is_speech(self) -> bool:
        """Whether it is a speech frame, of whatever class (docs/FILES.md, "Classes")."""
        return self.kind in SPEECH_CLASSES


def read_up(frame: Bits) -> UpFrame:
    """An uplink frame of 320 bits (docs/FILES.md, "Control bits"); the spare and time bits aren't
    looked at."""
    control = control_of(frame)
    return UpFrame(
        kind_of_control(control),
        control[14] == "1",
        control[16] == "1",
        int(control[5:11], 2),
        data_of(frame),
    )


def shift_of(field: int) -> int:
    """The shift that an alignment field asks for, in octets of the Pcm line; 0 for none
    (docs/FILES.md, "Time alignment")."""
    others = {
        profile.SMALL_DELAY_FIELD: profile.SMALL_DELAY_OCTETS,
        profile.ADVANCE_FIELD: profile.ADVANCE_OCTETS,
    }
    return profile.STEP_OCTETS * field if field <= profile.MOST_STEPS else others.get(field, 0)


def speech_control(
    class_bits: Bits,
    taf: bool = False,
    dtxd: bool = False,
    field: int = 0,
    pattern: Bits = profile.UP_SPEECH,
) -> Bits:
    """C1 to C21 of an uplink frame with these C12 to C14; the spare bits are 1 (docs/FILES.md,
    "Control bits")."""
    return f"{pattern}{field:06b}{class_bits}{taf:b}1{dtxd:b}1111"


def write_up(frame: UpFrame) -> Bits:
    """The 320 bits of an uplink frame (docs/FILES.md, "Control bits"). One that isn't speech is
    marked as unusable."""
    class_bits = CLASS_BITS.get(frame.kind, CLASS_BITS[FrameKind.UNUSABLE])
    pattern = UP_PATTERNS.get(frame.kind, profile.UP_SPEECH)
    return frame_of(
        speech_control(class_bits, frame.taf, frame.dtxd, frame.field, pattern), frame.data
    )


class DownFrame(NamedTuple):
    """A downlink frame (docs/FILES.md, "Control bits"): a speech frame, a valid SID frame (its bit
    SP is 0), an idle or another frame."""

    kind: FrameKind
    data: Bits = "1" * 260  # D1 to D260 of a speech or SID frame

    def is_speech(self) -> bool:
        """Whether it is a speech frame or a SID frame."""
        return self.kind in (FrameKind.SPEECH, FrameKind.VALID_SID)

    def word(self) -> str:
        """Its word in texts, in which a SID frame is one of speech (docs/commands/follow.md)."""
        return "speech" if self.is_speech() else self.kind.value


def read_down(frame: Bits) -> DownFrame:
    """A downlink frame of 316 bits or more (docs/FILES.md, "Control bits")."""
    control = control_of(frame)
    if control.startswith(profile.DOWN_SPEECH):
        return DownFrame(kind_of_sp(control[15] == "1"), data_of(frame))
    is_idle = control.startswith(profile.DOWN_IDLE)
    return DownFrame(FrameKind.IDLE if is_idle else FrameKind.OTHER, data_of(frame))


def kind_of_sp(sp: bool) -> FrameKind:
    """The kind of a downlink's frame by its bit SP (GSM 06.31): a speech frame, or a SID frame."""
    return FrameKind.SPEECH if sp else FrameKind.VALID_SID


def write_down(frame: DownFrame) -> Bits:
    """The 320 bits of a downlink frame, speech, SID or idle (docs/FILES.md, "Control bits")."""
    if frame.is_speech():
        sp = frame.kind is FrameKind.SPEECH
        return frame_of(f"{profile.DOWN_SPEECH}0000001111{sp:b}11111", frame.data)
    return frame_of(profile.DOWN_IDLE + "000000" + "1" * 10, "1" * 260)
