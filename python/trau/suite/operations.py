"""What a peer can be asked to do: operations from octets to octets, a unit at a time
(docs/CONFORMANCE.md, "A peer of your own")."""

import struct
from typing import Dict, List, NamedTuple, Sequence

SAMPLES = 160
GSM_OCTETS = 33
SAMPLE_OCTETS = 2 * SAMPLES
LINE_OCTETS = 40
CALL_OCTETS = LINE_OCTETS + SAMPLES  # of a period, of both incoming or of both outgoing lines
CALL = 7  # whose number the draws of all cases start from

# What a period brings, as a digit of a loss pattern.
GOOD, DESCRIPTOR, LOST, LOST_DUE, IDLE = "0", "1", "2", "3", "4"
DIGITS = GOOD + DESCRIPTOR + LOST + LOST_DUE + IDLE
# From which law to which, as a digit.
A_TO_A, A_TO_MU, MU_TO_A, MU_TO_MU = "0", "1", "2", "3"


class Operation(NamedTuple):
    """An operation: the octets of a unit of its input and of its output (0: a text), and what they
    are."""

    word: str
    unit: int
    answer: int
    takes: str
    gives: str


SOUND = "160 samples: words of 16 bits, the lower octet first"
FRAME = "a frame of 33 octets (RFC 3551)"
PERIOD = f"a digit ({GOOD} good, {DESCRIPTOR} descriptor, {LOST} lost, {LOST_DUE} lost as a \
descriptor was due, {IDLE} idle), and {FRAME}"
SENT = f"a digit ({GOOD} speech, {DESCRIPTOR} descriptor), and {FRAME}"
ORDER = "the level (a word of 16 bits), the digit 1 or 0 of discontinuous transmission"
LINE = "the 40 octets of a TRAU frame"
RECODED = f"a digit ({A_TO_A} A-law to A-law, {A_TO_MU} A-law to mu-law, {MU_TO_A} mu-law to A-law, \
{MU_TO_MU} mu-law to mu-law), and an octet"
CALL_IN, CALL_OUT = "40 octets of Up, and 160 of Pcm", "160 octets of Out, and 40 of Down"

_ALL = (
    Operation("encode", SAMPLE_OCTETS, GSM_OCTETS, SOUND, FRAME),
    Operation("decode", GSM_OCTETS, SAMPLE_OCTETS, FRAME, SOUND),
    Operation("encode-wav", 2 * SAMPLE_OCTETS, 65, "320 samples", "a block of WAV49, 65 octets"),
    Operation("decode-wav", 65, 2 * SAMPLE_OCTETS, "a block of WAV49, 65 octets", "320 samples"),
    Operation("alaw-expand", 1, 2, "an octet of A-law", "a sample"),
    Operation("alaw-compress", 2, 1, "a sample", "an octet of A-law"),
    Operation("mulaw-expand", 1, 2, "an octet of mu-law", "a sample"),
    Operation("mulaw-compress", 2, 1, "a sample", "an octet of mu-law"),
    Operation("recode", 2, 1, RECODED, "an octet"),
    Operation("kind", GSM_OCTETS, 1, FRAME, "its digit: good, descriptor or lost"),
    Operation("conceal", 1 + GSM_OCTETS, GSM_OCTETS, PERIOD, "the frame that is decoded"),
    Operation("receive", 1 + GSM_OCTETS, SAMPLE_OCTETS, PERIOD, SOUND),
    Operation("receive-alaw", 1 + GSM_OCTETS, SAMPLES, PERIOD, "160 octets of A-law"),
    Operation("send", 3 + SAMPLE_OCTETS, 1 + GSM_OCTETS, f"{ORDER}, and {SOUND}", SENT),
    Operation("send-alaw", 3 + SAMPLES, 1 + GSM_OCTETS, f"{ORDER}, and 160 octets of A-law", SENT),
    Operation("write-uplink", 1 + GSM_OCTETS, 40, PERIOD, LINE),
    Operation("read-uplink", 40, 1 + GSM_OCTETS, LINE, PERIOD),
    Operation("write-downlink", 1 + GSM_OCTETS, 40, PERIOD, LINE),
    Operation("read-downlink", 40, 1 + GSM_OCTETS, LINE, PERIOD),
    Operation("mark", GSM_OCTETS, LINE_OCTETS, f"{FRAME}, or zeros for a lost one", LINE),
    Operation("search", LINE_OCTETS, 0, "a period of an uplink", "the text of `frames`"),
    Operation("count", LINE_OCTETS, 0, "a period of an uplink", "the counts of a report"),
    Operation("call-alaw", CALL_OCTETS, CALL_OCTETS, CALL_IN, CALL_OUT),
    Operation("call-mulaw", CALL_OCTETS, CALL_OCTETS, CALL_IN, CALL_OUT),
)
OPERATIONS: Dict[str, Operation] = {each.word: each for each in _ALL}


def units(octets: bytes, size: int) -> List[bytes]:
    """Octets cut to this size; the last may be shorter."""
    return [octets[at : at + size] for at in range(0, len(octets), size)]


def words_of(samples: Sequence[int]) -> bytes:
    """Numbers as words of 16 bits, the lower octet first."""
    return struct.pack(f"<{len(samples)}h", *samples)


def samples_of(octets: bytes) -> List[int]:
    """The numbers of words of 16 bits, the lower octet first."""
    return list(struct.unpack(f"<{len(octets) // 2}h", octets))
