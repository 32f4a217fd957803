"""The expected results: each operation by the model."""

from typing import Callable, Dict, List, Union

from trau.model.call import Call, outgoing
from trau.model.call import uplink as uplink_half
from trau.model.codec import FullRateDecoder, FullRateEncoder
from trau.model.receive import effective_frames
from trau.model.transmit import Coded, sent_frames
from trau.recordings.code_word import Marker, kind_of
from trau.recordings.uplink_frames import UplinkFrames
from trau.rules.frame import (
    Bits,
    DownFrame,
    FrameKind,
    UpFrame,
    bits_of,
    octets_of,
    read_down,
    read_up,
    write_down,
    write_up,
)
from trau.rules.g711 import Law, compress_all, expand_all
from trau.rules.parameters import (
    GSM_MAGIC,
    GSM_OCTETS,
    SILENCE,
    WAV_BLOCK_OCTETS,
    Parameters,
    bits_of_parameters,
    data_of_gsm,
    data_of_wav_block,
    gsm_of_data,
    parameters_of_bits,
)
from trau.rules.search import end_of_text, yields_by_period

from trau.suite.operations import (
    A_TO_A,
    A_TO_MU,
    CALL,
    CALL_OCTETS,
    DESCRIPTOR,
    GOOD,
    IDLE,
    LINE_OCTETS,
    LOST,
    LOST_DUE,
    MU_TO_A,
    MU_TO_MU,
    SAMPLE_OCTETS,
    SAMPLES,
    samples_of,
    units,
    words_of,
)

KINDS = {
    GOOD: FrameKind.SPEECH,
    DESCRIPTOR: FrameKind.VALID_SID,
    LOST: FrameKind.UNUSABLE,
    LOST_DUE: FrameKind.UNUSABLE,
    IDLE: FrameKind.IDLE,
}
DIGIT_OF_KIND = {FrameKind.SPEECH: GOOD, FrameKind.VALID_SID: DESCRIPTOR, FrameKind.IDLE: IDLE}
NO_FRAME = bytes(GSM_OCTETS)
LAWS = {
    A_TO_A: (Law.A, Law.A),
    A_TO_MU: (Law.A, Law.MU),
    MU_TO_A: (Law.MU, Law.A),
    MU_TO_MU: (Law.MU, Law.MU),
}


def parameters_of(frame: bytes) -> Parameters:
    """The parameters of a frame of 33 octets."""
    return parameters_of_bits(data_of_gsm(frame))


def frame_of_parameters(parameters: Parameters) -> bytes:
    """The 33 octets of parameters."""
    return gsm_of_data(bits_of_parameters(parameters))


def encoded(octets: bytes) -> List[Parameters]:
    """The parameters of frames of samples, from the initial state on."""
    encoder = FullRateEncoder()
    return [encoder.encode(samples_of(each)).parameters for each in units(octets, SAMPLE_OCTETS)]


def decoded(frames: List[Parameters]) -> bytes:
    """The samples of frames, from the initial state on."""
    decoder = FullRateDecoder()
    return b"".join(words_of(decoder.decode(each)) for each in frames)


def encode(octets: bytes) -> bytes:
    """Frames of samples to frames of 33 octets."""
    return b"".join(map(frame_of_parameters, encoded(octets)))


def decode(octets: bytes) -> bytes:
    """Frames of 33 octets to samples."""
    return decoded(list(map(parameters_of, units(octets, GSM_OCTETS))))


def encode_wav(octets: bytes) -> bytes:
    """Pairs of frames of samples to blocks of 65 octets."""
    data = list(map(bits_of_parameters, encoded(octets)))
    return b"".join(wav_block_of_data(*pair) for pair in zip(data[::2], data[1::2]))


def wav_block_of_data(first: Bits, second: Bits) -> bytes:
    """The block of 65 octets of two frames' D1 to D260."""
    return octets_of((first + second)[::-1])[::-1]


def decode_wav(octets: bytes) -> bytes:
    """Blocks of 65 octets to samples."""
    data = [each for block in units(octets, WAV_BLOCK_OCTETS) for each in data_of_wav_block(block)]
    return decoded(list(map(parameters_of_bits, data)))


def expand(law: Law) -> Callable[[bytes], bytes]:
    """Octets of a law to samples."""
    return lambda octets: words_of(expand_all(law, octets))


def compress(law: Law) -> Callable[[bytes], bytes]:
    """Samples to octets of a law."""
    return lambda octets: compress_all(law, samples_of(octets))


def recode(octets: bytes) -> bytes:
    """Octets of a law to octets of the other, or of the same one."""
    pairs = [(LAWS[chr(each[0])], each[1]) for each in units(octets, 2)]
    return bytes([law.table_to(other)[octet] for (law, other), octet in pairs])


def digit_of(frame: bytes) -> str:
    """What a frame of 33 octets is by its code word."""
    if frame[0] >> 4 != GSM_MAGIC:
        return LOST
    return DIGIT_OF_KIND.get(kind_of(data_of_gsm(frame)), LOST)


def kind(octets: bytes) -> bytes:
    """The kind of each frame."""
    return "".join(map(digit_of, units(octets, GSM_OCTETS))).encode()


def uplink(octets: bytes) -> List[UpFrame]:
    """The uplink frames of periods; an idle one has data bits of ones."""
    frames = []
    for each in units(octets, 1 + GSM_OCTETS):
        digit = chr(each[0])
        frame = UpFrame(KINDS[digit], digit == LOST_DUE)
        frames.append(frame if digit == IDLE else frame._replace(data=data_of_gsm(each[1:])))
    return frames


def conceal(octets: bytes) -> bytes:
    """The frame of each period that is decoded, that of silence while the call is quiet."""
    return b"".join(
        frame_of_parameters(each or SILENCE) for each in effective_frames(CALL, uplink(octets))
    )


def receive(octets: bytes) -> bytes:
    """The samples of each period, zeros while the call is quiet."""
    heard, decoder = [], FullRateDecoder()
    for parameters in effective_frames(CALL, uplink(octets)):
        if parameters is None:
            decoder = FullRateDecoder()
            heard.append(bytes(SAMPLE_OCTETS))
        else:
            heard.append(words_of(decoder.decode(parameters)))
    return b"".join(heard)


def receive_alaw(octets: bytes) -> bytes:
    """The same as A-law."""
    return compress(Law.A)(receive(octets))


def send(octets: bytes) -> bytes:
    """What is sent of samples with their levels and modes."""
    encoder = FullRateEncoder()
    frames = []
    for each in units(octets, 3 + SAMPLE_OCTETS):
        (level,), on = samples_of(each[:2]), each[2] == ord("1")
        frames.append(Coded(encoder.encode(samples_of(each[3:])), level, on))
    return b"".join(
        (GOOD if one.sp else DESCRIPTOR).encode() + frame_of_parameters(one.parameters)
        for one in sent_frames(frames)
    )


def send_alaw(octets: bytes) -> bytes:
    """The same of octets of A-law."""
    return send(b"".join(each[:3] + expand(Law.A)(each[3:]) for each in units(octets, 3 + SAMPLES)))


def write_uplink(octets: bytes) -> bytes:
    """The uplink frames of periods, on a line."""
    return b"".join(octets_of(write_up(frame)) for frame in uplink(octets))


def period_of(frame: Union[UpFrame, DownFrame], due: bool = False) -> bytes:
    """The period of a frame that was read; the bits of an idle one don't matter."""
    lost = LOST_DUE if due and frame.kind is FrameKind.UNUSABLE else LOST
    digit = DIGIT_OF_KIND.get(frame.kind, lost)
    return digit.encode() + (NO_FRAME if digit == IDLE else gsm_of_data(frame.data))


def read_uplink(octets: bytes) -> bytes:
    """The periods of uplink frames."""
    frames = [read_up(bits_of(each)) for each in units(octets, LINE_OCTETS)]
    return b"".join(period_of(frame, frame.taf) for frame in frames)


def write_downlink(octets: bytes) -> bytes:
    """The downlink frames of what is sent."""
    return b"".join(
        octets_of(write_down(DownFrame(KINDS[chr(each[0])], data_of_gsm(each[1:]))))
        for each in units(octets, 1 + GSM_OCTETS)
    )


def read_downlink(octets: bytes) -> bytes:
    """What downlink frames have sent."""
    return b"".join(period_of(read_down(bits_of(each))) for each in units(octets, LINE_OCTETS))


def mark(octets: bytes) -> bytes:
    """The uplink of frames, with their descriptors marked by the code word; frames of zeros were
    lost."""
    frames = UplinkFrames(Marker())
    given = units(octets, GSM_OCTETS)
    frames.take_all([None if each == NO_FRAME else data_of_gsm(each) for each in given])
    return frames.line()


def count(octets: bytes) -> bytes:
    """How many periods of an uplink yield each kind."""
    kinds = uplink_half(CALL, octets).kinds
    return " ".join(f"{kind.value} {kinds.count(kind)}" for kind in FrameKind).encode()


def call(law: Law) -> Callable[[bytes], bytes]:
    """The periods of a call's incoming lines to those of its outgoing ones, without any order but
    the one that opens it."""

    def answer(octets: bytes) -> bytes:
        periods = units(octets, CALL_OCTETS)
        up = b"".join(each[:LINE_OCTETS] for each in periods)
        pcm = b"".join(each[LINE_OCTETS:] for each in periods)
        made = outgoing(Call(CALL, law, len(periods), uplink_half(CALL, up), pcm, (), ()))
        return both_lines(made.out, made.down)

    return answer


def both_lines(out: bytes, down: bytes) -> bytes:
    """The periods of Out and Down, of both in turn."""
    return b"".join(map(bytes.__add__, units(out, SAMPLES), units(down, LINE_OCTETS)))


def search(octets: bytes) -> bytes:
    """The frames that are found on an uplink, and the last line of their text."""
    yields = [one for one in yields_by_period(bits_of(octets)) if one is not None]
    text = "".join(one.line() for one in yields) + end_of_text(len(yields), len(octets))
    return text.encode()


ANSWERS: Dict[str, Callable[[bytes], bytes]] = {
    "encode": encode,
    "decode": decode,
    "encode-wav": encode_wav,
    "decode-wav": decode_wav,
    "alaw-expand": expand(Law.A),
    "alaw-compress": compress(Law.A),
    "mulaw-expand": expand(Law.MU),
    "mulaw-compress": compress(Law.MU),
    "recode": recode,
    "kind": kind,
    "conceal": conceal,
    "receive": receive,
    "receive-alaw": receive_alaw,
    "send": send,
    "send-alaw": send_alaw,
    "write-uplink": write_uplink,
    "read-uplink": read_uplink,
    "write-downlink": write_downlink,
    "read-downlink": read_downlink,
    "mark": mark,
    "search": search,
    "count": count,
    "call-alaw": call(Law.A),
    "call-mulaw": call(Law.MU),
}
