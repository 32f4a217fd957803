"""What a file may be, and what is said of one."""

from __future__ import annotations

import enum
from typing import NamedTuple, Tuple


LSB_FIRST = " --lsb-first"
TURNED = ", with the bits of each octet in the other order"


class FileKind(enum.Enum):
    """What a file may be."""

    EMPTY = "empty"
    SOUND = "a sound file"
    GSM = "frames of libgsm"
    CAPTURE = "a capture"
    OTHER_CAPTURE = "a capture of another kind"
    PACKED = "packed"
    TEXT = "a text"
    REPORT = "a report"
    UPLINK = "an uplink"
    DOWNLINK = "a downlink"
    OTHER_FRAMES = "frames that aren't full rate speech"
    PROGRAM = "a program"
    E1 = "an E1 line"
    SLOT = "a time slot"
    LAW = "sound of a law"
    TEST_SEQUENCE = "a test sequence"
    CONTAINER = "sound in blocks"
    LINEAR = "samples of 16 bits"
    UNKNOWN = "unknown"


class FileDescription(NamedTuple):
    """What a file is: its kind, the same in words, the command that makes something of it, whether
    its octets have their bits in the other order, and what its slots are. In the command {} stands
    for the file's name."""

    kind: FileKind
    said: str
    command: str = ""
    turned: bool = False
    slots: Tuple[FileDescription, ...] = ()
