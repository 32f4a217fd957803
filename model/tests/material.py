"""What the tests of the model share: recorded data, and frames that are made by hand."""

from pathlib import Path
from typing import Iterable, List, Optional

TOP = Path(__file__).resolve().parents[2]

from trau.rules.frame import FrameKind, UpFrame, octets_of, write_up
from trau.rules.parameters import Block, Parameters, bits_of_parameters

CODEC = TOP / "checks" / "vectors"
CHECKS = TOP / "checks"

# The parameters of 160 samples 0 from home, the frames up and down that carry them, and the idle
# frame down.
QUIET_BLOCK = Block(40, 0, 0, 0, (4,) * 13)
QUIET = Parameters((32, 32, 20, 11, 8, 5, 3, 2), (QUIET_BLOCK,) * 4)
DATA = bytes.fromhex("8209ba1ae4288012a492a492a2808124c924c924a8009249924992458002a492a492")
UP = bytes.fromhex("00008800") + DATA + bytes.fromhex("a6ff")
DOWN = bytes.fromhex("0000f00f") + DATA + bytes.fromhex("a7ff")
IDLE_DOWN = bytes.fromhex("0000b80f") + b"\xff" * 36

# Parameters of whole frames that a test can tell from one another.


def with_maxima(xmaxc: int, of: Parameters = QUIET) -> Parameters:
    """The parameters with this coded maximum in all four blocks."""
    return of._replace(blocks=tuple(block._replace(xmaxc=xmaxc) for block in of.blocks))


def maxima(parameters: Optional[Parameters]) -> Optional[List[int]]:
    """The coded maxima of the four blocks; None where there are no parameters."""
    return None if parameters is None else [block.xmaxc for block in parameters.blocks]


def speech(
    parameters: Parameters = QUIET,
    kind: FrameKind = FrameKind.SPEECH,
    field: int = 0,
    taf: bool = False,
    dtxd: bool = False,
) -> UpFrame:
    """An uplink speech frame of this class."""
    return UpFrame(kind, taf, dtxd, field, bits_of_parameters(parameters))


def sid(xmaxc: int) -> UpFrame:
    """A silence descriptor with this coded maximum in all four blocks."""
    return speech(with_maxima(xmaxc), FrameKind.VALID_SID)


def unusable(taf: bool = False) -> UpFrame:
    """An unusable speech frame."""
    return speech(kind=FrameKind.UNUSABLE, taf=taf)


IDLE_UP = UpFrame(FrameKind.IDLE)


def line(frames: Iterable[UpFrame]) -> bytes:
    """The Up line of frames without a gap."""
    return b"".join(octets_of(write_up(frame)) for frame in frames)
