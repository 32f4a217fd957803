"""The GSM full rate codec, the two sides of a call, A-law and mu-law, by the C library that
clib/build makes.

from trau import trau_fr encoder, decoder = trau_fr.Encoder(), trau_fr.Decoder() octets =
encoder.encode(samples) # bytes, 33 octets for each 160 samples samples = decoder.decode(octets)
# array.array('h'), 160 samples for each 33 octets samples = trau_fr.expand(line, "alaw") #
array.array('h') of the octets of a line line = trau_fr.compress(samples, "alaw")

The two sides of a call, a period at a time; the header trau_fr.h says what a host must know:

receiver, sender = trau_fr.Receiver(seed=1), trau_fr.Sender() samples = receiver.receive(octets)
# None for a period in which nothing came; by its code word a frame may be a descriptor frame =
sender.send(samples, dtx=True) frame.octets, frame.speech # 33 octets; False for a silence
descriptor line = receiver.receive_line(octets, law="alaw") # the same for the 160 octets of a
line, in less time frame = sender.send_line(line, dtx=True, law="alaw")

Samples have 16 bits, 8000 a second: array.array('h'), a numpy array of int16, or any other
buffer of them. Bytes are taken as samples in the machine's byte order. Octets are bytes, a numpy
array of uint8, or any other buffer of items of one octet. Arrays may be slices with steps.
Samples are returned as an array.array, which numpy.frombuffer(.., numpy.int16) accepts. Items of
another size, and a number of samples or octets that isn't a whole number of periods, raise
ValueError.

The library is libtrau_fr.so.1 in lib/ of the folder that TRAU_CLIB names, or else of clib/out,
or else the system's.
"""

import ctypes
import enum
import os
from array import array
from pathlib import Path
from typing import Any, Dict, NamedTuple, Optional, Tuple, Union

SAMPLES = 160
OCTETS = 33
LINE_OCTETS = 40  # of a frame on a TRAU line
LEVEL = 256  # that a call of `trau` has at first

Buffer = Union[bytes, bytearray, memoryview, "array[int]", Any]


class Refused(ValueError):
    """Octets that carry no frame: 33 octets that don't begin with the four bits 1101, or 40 of a
    line whose sync bits are wrong."""


class Kind(enum.IntEnum):
    """What a period brings, or a frame is (trau_fr.h, "A receiving host")."""

    SPEECH = 0
    DESCRIPTOR = 1
    LOST = 2
    IDLE = 3


class Sent(NamedTuple):
    """What is sent for a period: the 33 octets of its frame, and whether they are speech or a
    silence descriptor."""

    octets: bytes
    speech: bool


class Line(NamedTuple):
    """What a frame of a TRAU line brings."""

    octets: bytes
    kind: Kind
    taf: bool  # False on a downlink


def _structure(name: str, **fields: Any) -> Any:
    """A structure of C with these fields, in their order."""
    return type(name, (ctypes.Structure,), {"_fields_": list(fields.items())})


# The states, as the header has them.
_u8, _i16 = ctypes.c_uint8, ctypes.c_int16
_Preprocessing = _structure("_Preprocessing", z1=_i16, l_z2=ctypes.c_int32, mp=_i16)
_EncoderState = _structure(
    "_EncoderState",
    preprocessing=_Preprocessing,
    ratios=_i16 * 8,
    sections=_i16 * 8,
    residuals=_i16 * 120,
)
_DecoderState = _structure(
    "_DecoderState", lag=_u8, residuals=_i16 * 120, ratios=_i16 * 8, sections=_i16 * 8, msr=_i16
)
_Frame = _structure(
    "_Frame", larc=_u8 * 8, nc=_u8 * 4, bc=_u8 * 4, mc=_u8 * 4, xmaxc=_u8 * 4, xmc=_u8 * 13 * 4
)
_Heard = _structure(
    "_Heard",
    tag=_u8,
    periods=_u8,
    step=_u8,
    missed=_u8,
    source=ctypes.c_uint16,
    good=_Frame,
    descriptor=_Frame,
)
_ReceiverState = _structure("_ReceiverState", heard=_Heard, decoder=_DecoderState)
_Trace = _structure("_Trace", ratios=_i16 * 8, maxima=_i16 * 4)
_Pauses = _structure(
    "_Pauses", run=_u8, elapsed=_u8, hangs=ctypes.c_bool, descriptor=_Frame, last=_Trace * 3
)
_SenderState = _structure("_SenderState", encoder=_EncoderState, sent=_Pauses)

_Samples = ctypes.c_int16 * SAMPLES
_Octets = ctypes.c_char * OCTETS
_LineOctets = ctypes.c_char * SAMPLES
_TrauOctets = ctypes.c_char * LINE_OCTETS


# The functions with a result. Arguments are octets, arrays, references and integers, which the code
# below holds to their ranges; to have
# ctypes convert them by declared types would take as long again as the call.
_TESTS = (
    "trau_fr_decode_octets",
    "trau_fr_receive",
    "trau_fr_hand",
    "trau_fr_send",
    "trau_fr_read_uplink",
    "trau_fr_read_downlink",
)
_RESULTS: Dict[str, Any] = {
    **dict.fromkeys(_TESTS, ctypes.c_bool),
    "trau_fr_encoder_home": _EncoderState,
    "trau_fr_decoder_home": _DecoderState,
    "trau_fr_receiver_home": _ReceiverState,
    "trau_fr_sender_home": _SenderState,
    "trau_fr_kind": ctypes.c_uint32,
}
_OTHERS = (
    "trau_fr_encode_octets",
    "trau_fr_write_uplink",
    "trau_fr_write_downlink",
    "trau_alaw_expand",
    "trau_alaw_compress",
    "trau_mulaw_expand",
    "trau_mulaw_compress",
)


def _load() -> ctypes.CDLL:
    """The library, with the types of its functions. Raises OSError if there is none, or one of an
    earlier version."""
    built = (
        Path(os.environ.get("TRAU_CLIB") or Path(__file__).resolve().parents[2] / "clib" / "out")
        / "lib"
        / "libtrau_fr.so.1"
    )
    library = ctypes.CDLL(str(built) if built.exists() else built.name)
    for name in sorted({*_RESULTS, *_OTHERS}):
        function = getattr(library, name, None)
        if function is None:
            raise OSError(f"{library._name} has no {name}: it is of an earlier version")
        function.restype = _RESULTS.get(name)
    return library


_library = _load()

_EXPAND = {"alaw": _library.trau_alaw_expand, "mulaw": _library.trau_mulaw_expand}
_COMPRESS = {"alaw": _library.trau_alaw_compress, "mulaw": _library.trau_mulaw_compress}
_KINDS: Tuple[Kind, ...] = tuple(Kind.__members__.values())


def _octets_of(data: Buffer) -> bytes:
    """The octets of a buffer of octets."""
    if type(data) is bytes:
        return data
    view = memoryview(data)
    if view.itemsize != 1:
        raise ValueError(f"octets are wanted, and not items of the format {view.format}")
    return view.tobytes()


def _samples_of(data: Buffer) -> bytes:
    """The octets of a buffer of samples of 16 bits."""
    view = memoryview(data)
    if view.itemsize not in (1, 2) or view.format not in ("B", "b", "c", "h", "<h", "=h"):
        raise ValueError(
            f"samples of 16 bits are wanted, and not items of the format {view.format}"
        )
    return view.tobytes()


def _periods(data: bytes, size: int, what: str) -> int:
    """The number of items of this size. Raises ValueError if octets are left over."""
    count, rest = divmod(len(data), size)
    if rest:
        raise ValueError(f"{what}: {len(data)} octets aren't a multiple of {size}")
    return count


def _frame_of(octets: Optional[Buffer]) -> bytes:
    """The octets of one frame; zeros for None."""
    data = (
        octets if type(octets) is bytes else bytes(OCTETS) if octets is None else _octets_of(octets)
    )
    if len(data) != OCTETS:
        raise ValueError(f"a frame has {OCTETS} octets, not {len(data)}")
    return data


def _in_range(value: int, least: int, most: int, what: str) -> int:
    if not least <= value <= most:
        raise ValueError(f"{what} {value} isn't from {least} to {most}")
    return value


def _by_law(functions: Dict[str, Any], law: str) -> Any:
    if law not in functions:
        raise ValueError(f"{law}: the laws are alaw and mulaw")
    return functions[law]


class Encoder:
    """The encoder of one phone call. It begins in its reset state."""

    def __init__(self) -> None:
        self._state = _library.trau_fr_encoder_home()

    def encode(self, samples: Buffer) -> bytes:
        """The frames of the next periods: 33 octets for each 160 samples."""
        data = _samples_of(samples)
        octets, out = _Octets(), bytearray()
        for k in range(_periods(data, 2 * SAMPLES, "samples")):
            period = _Samples.from_buffer_copy(data, 2 * SAMPLES * k)
            _library.trau_fr_encode_octets(ctypes.byref(self._state), period, octets)
            out += bytes(octets)
        return bytes(out)


class Decoder:
    """The decoder of one phone call. It begins in its reset state."""

    def __init__(self) -> None:
        self._state = _library.trau_fr_decoder_home()

    def decode(self, octets: Buffer) -> "array[int]":
        """The samples of the next frames: 160 for each 33 octets. Raises Refused if a frame doesn't
        begin with the four bits 1101. The frames before it are decoded then, and the state is
        the one after them."""
        data = _octets_of(octets)
        period, out = _Samples(), array("h")
        for k in range(_periods(data, OCTETS, "frames")):
            frame = _Octets.from_buffer_copy(data, OCTETS * k)
            if not _library.trau_fr_decode_octets(ctypes.byref(self._state), frame, period):
                raise Refused(f"frame {k} doesn't begin with the four bits 1101")
            out.frombytes(bytes(period))
        return out


def kind_of(octets: Buffer) -> Kind:
    """The kind of a frame of 33 octets by its code word: Kind.LOST for one that can't be used."""
    number: int = _library.trau_fr_kind(_frame_of(octets))
    return _KINDS[number]


class Receiver:
    """The receive side of one phone call, a period at a time. `quiet` is True until its first good
    frame or silence descriptor, and from an idle frame on until the next one."""

    def __init__(self, seed: int = 0) -> None:
        """The seed starts the random numbers, 0 to 65535; `trau` takes the call's number."""
        self._state = _library.trau_fr_receiver_home(_in_range(seed, 0, 65535, "seed"))
        self._samples, self._line = _Samples(), _LineOctets()
        self.quiet = True

    def _turn(
        self, function: Any, octets: Optional[Buffer], kind: Optional[int], taf: bool, out: Any
    ) -> None:
        frame = _frame_of(octets)
        if kind is None:
            kind = Kind.LOST if octets is None else _library.trau_fr_kind(frame)
        _in_range(kind, 0, 0xFFFFFFFF, "kind")
        self.quiet = not function(ctypes.byref(self._state), frame, kind, bool(taf), out)

    def receive(
        self, octets: Optional[Buffer], kind: Optional[int] = None, taf: bool = False
    ) -> "array[int]":
        """The 160 samples of the next period, from the 33 octets of its frame, or None if none
        came. Without a kind, the code word of the frame says it. `taf`: the frame is lost, and a
        silence descriptor was due."""
        self._turn(_library.trau_fr_receive, octets, kind, taf, self._samples)
        return array("h", bytes(self._samples))

    def receive_line(
        self,
        octets: Optional[Buffer],
        kind: Optional[int] = None,
        taf: bool = False,
        law: str = "alaw",
    ) -> bytes:
        """The same, as 160 octets of a line."""
        function = _by_law(_COMPRESS, law)
        self._turn(_library.trau_fr_receive, octets, kind, taf, self._samples)
        function(self._samples, self._line)
        return self._line.raw

    def hand(
        self, octets: Optional[Buffer], kind: Optional[int] = None, taf: bool = False
    ) -> bytes:
        """The next period in a bridge: the 33 octets that go on to the partner. The decoder is
        reset."""
        handed = _Octets()
        self._turn(_library.trau_fr_hand, octets, kind, taf, handed)
        return handed.raw

    def begin_bridge(self) -> None:
        """A bridge begins: the decoder is reset. `hand` does it in each period; this counts where
        the bridge ends before its first one."""
        self._state.decoder = _library.trau_fr_receiver_home(0).decoder


class Sender:
    """The transmit side of one phone call, a period at a time."""

    def __init__(self) -> None:
        self._state = _library.trau_fr_sender_home()
        self._samples, self._octets = _Samples(), _Octets()

    def send(self, samples: Buffer, level: int = LEVEL, dtx: bool = False) -> Sent:
        """What is sent for the next 160 samples. A frame whose peak is at least the level is
        speech; without `dtx`, each one is."""
        data = _samples_of(samples)
        if len(data) != 2 * SAMPLES:
            raise ValueError(f"a period has {2 * SAMPLES} octets of samples, not {len(data)}")
        return self._turn(data, level, dtx)

    def send_line(
        self, line: Buffer, level: int = LEVEL, dtx: bool = False, law: str = "alaw"
    ) -> Sent:
        """The same for 160 octets of a line."""
        data = _octets_of(line)
        if len(data) != SAMPLES:
            raise ValueError(f"a period has {SAMPLES} octets of a line, not {len(data)}")
        _by_law(_EXPAND, law)(data, self._samples)
        return self._turn(self._samples, level, dtx)

    def _turn(self, samples: Any, level: int, dtx: bool) -> Sent:
        _in_range(level, -32768, 32767, "level")
        speech = _library.trau_fr_send(
            ctypes.byref(self._state), samples, level, bool(dtx), self._octets
        )
        return Sent(self._octets.raw, speech)


def write_uplink(octets: Optional[Buffer], kind: int, taf: bool = False) -> bytes:
    """The 40 octets on the uplink of a TRAU line for what a period brought."""
    line = _TrauOctets()
    _library.trau_fr_write_uplink(
        _frame_of(octets), _in_range(kind, 0, 0xFFFFFFFF, "kind"), bool(taf), line
    )
    return line.raw


def write_downlink(octets: Optional[Buffer], kind: int) -> bytes:
    """The 40 octets on the downlink of a TRAU line for a frame that is sent; an idle frame for
    Kind.IDLE."""
    line = _TrauOctets()
    _library.trau_fr_write_downlink(_frame_of(octets), _in_range(kind, 0, 0xFFFFFFFF, "kind"), line)
    return line.raw


def _line_of(octets: Buffer) -> bytes:
    data = _octets_of(octets)
    if len(data) != LINE_OCTETS:
        raise ValueError(f"a frame on a line has {LINE_OCTETS} octets, not {len(data)}")
    return data


def read_uplink(octets: Buffer) -> Line:
    """What the 40 octets of an uplink frame bring. Raises Refused if their sync bits are wrong."""
    kind, taf, frame = ctypes.c_uint32(), ctypes.c_bool(), _Octets()
    if not _library.trau_fr_read_uplink(
        _line_of(octets), ctypes.byref(kind), ctypes.byref(taf), frame
    ):
        raise Refused("the sync bits are wrong")
    return Line(bytes(frame), Kind(kind.value), taf.value)


def read_downlink(octets: Buffer) -> Line:
    """The frame of 40 octets on a downlink. Raises Refused if their sync bits are wrong."""
    kind, frame = ctypes.c_uint32(), _Octets()
    if not _library.trau_fr_read_downlink(_line_of(octets), ctypes.byref(kind), frame):
        raise Refused("the sync bits are wrong")
    return Line(bytes(frame), Kind(kind.value), False)


def expand(octets: Buffer, law: str = "alaw") -> "array[int]":
    """The samples of a line's octets, by "alaw" or "mulaw"; any number of octets."""
    function, data = _by_law(_EXPAND, law), _octets_of(octets)
    samples, out = _Samples(), array("h")
    for at in range(0, len(data), SAMPLES):
        function(
            _LineOctets.from_buffer_copy(data[at : at + SAMPLES].ljust(SAMPLES, b"\0")), samples
        )
        out.frombytes(bytes(samples))
    return out[: len(data)]


def compress(samples: Buffer, law: str = "alaw") -> bytes:
    """The octets for samples on a line, by "alaw" or "mulaw"; any number of samples."""
    function, data = _by_law(_COMPRESS, law), _samples_of(samples)
    octets, out = _LineOctets(), bytearray()
    count = _periods(data, 2, "samples")
    for at in range(0, len(data), 2 * SAMPLES):
        function(
            _Samples.from_buffer_copy(data[at : at + 2 * SAMPLES].ljust(2 * SAMPLES, b"\0")), octets
        )
        out += bytes(octets)
    return bytes(out[:count])
