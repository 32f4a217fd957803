"""Frames of GSM full rate (33 octets) that are plain speech, as frames of an uplink, many at once:
an octet of all frames is a column, and tables say which bits it gives to which columns of the
uplink's. `UplinkFrames` has the rules; this has their most frequent case."""

from functools import lru_cache
from typing import Dict, List, Tuple

from trau.recordings.code_word import CODE_WORD_BITS, LEAST_ERRORS_OF_SPEECH
from trau.rules.frame import FrameKind, UpFrame, octets_of, write_up
from trau.rules.parameters import GSM_OCTETS, data_of_gsm, gsm_of_data
from trau.rules.profile import FRAME_OCTETS

DATA_BITS = 260
GSM_HEAD_BITS = 4  # the magic, before D1 to D260 in the order of GSM's frames
NO_DATA = "0" * DATA_BITS


def code_word() -> int:
    """The bits of the code word of silence descriptors in a frame's 33 octets, as a number."""
    bits = "".join("1" if bit in set(CODE_WORD_BITS) else "0" for bit in range(DATA_BITS))
    return int.from_bytes(gsm_of_data(bits), "big") & (1 << DATA_BITS) - 1


CODE_WORD = code_word()


BITS_SET = bytes(bin(octet).count("1") for octet in range(256))
IS_SPEECH = bytes(errors >= LEAST_ERRORS_OF_SPEECH for errors in range(256))


def errors_of_frames(frames: bytes) -> bytes:
    """How many bits of the code word are wrong in each of some frames of 33 octets."""
    size = len(frames)
    code_words = int.from_bytes(CODE_WORD.to_bytes(GSM_OCTETS, "big") * (size // GSM_OCTETS), "big")
    wrong = (int.from_bytes(frames, "big") & code_words).to_bytes(size, "big")
    # Each octet gets the sum of those of 32 octets up to it. A frame's first octet has no bit of
    # the code word, so that its last one gets all of the frame; no sum is more than an octet holds.
    counts = int.from_bytes(wrong.translate(BITS_SET), "big")
    for octets in (1, 2, 4, 8, 16):
        counts += counts >> 8 * octets
    return counts.to_bytes(size, "big")[GSM_OCTETS - 1 :: GSM_OCTETS]


def are_speech(frames: bytes) -> bytes:
    """Which of some frames are speech and no silence descriptors, by their code words: 1 or 0 for
    each."""
    return errors_of_frames(frames).translate(IS_SPEECH)


# To frames of an uplink


def frame_with(data: str, dtxd: bool = False) -> bytes:
    """A good speech frame of an uplink."""
    return octets_of(write_up(UpFrame(FrameKind.SPEECH, dtxd=dtxd, data=data)))


WITHOUT_DATA = [frame_with(NO_DATA, dtxd) for dtxd in (False, True)]


def bits_of_octet(at: int) -> List[Tuple[int, int]]:
    """Where each bit of an octet of GSM's frames is in an uplink's frame, the highest bit first: an
    octet, and the bit in it. The magic is nowhere: it gives no bit."""
    found = []
    for bit in range(8):
        octets = bytearray(GSM_OCTETS)
        octets[at] = 0x80 >> bit
        is_magic = 8 * at + bit < GSM_HEAD_BITS
        frame = frame_with(NO_DATA if is_magic else data_of_gsm(bytes(octets)))
        changed = [each ^ other for each, other in zip(frame, WITHOUT_DATA[0])]
        place = next((place for place, bits in enumerate(changed) if bits), 0)
        found.append((place, changed[place]))
    return found


@lru_cache(maxsize=1)
def tables() -> List[Dict[int, bytes]]:
    """By octet of an uplink's frame: what each octet of GSM's frames gives to it, as a table of the
    octet's values."""
    found: List[Dict[int, bytes]] = [{} for _ in range(FRAME_OCTETS)]
    for at in range(GSM_OCTETS):
        bits = bits_of_octet(at)
        for place in {place for place, gives in bits if gives}:
            found[place][at] = bytes(
                sum(
                    gives
                    for bit, (to, gives) in enumerate(bits)
                    if to == place and octet & 0x80 >> bit
                )
                for octet in range(256)
            )
    return found


def uplinks_of_speech(frames: bytes, dtxd: bool) -> bytes:
    """The good speech frames of an uplink that have the bits of frames of 33 octets."""
    count = len(frames) // GSM_OCTETS
    columns = [frames[at::GSM_OCTETS] for at in range(GSM_OCTETS)]
    made = bytearray(WITHOUT_DATA[dtxd] * count)
    for place, given in enumerate(tables()):
        if given:
            column = int.from_bytes(WITHOUT_DATA[dtxd][place : place + 1] * count, "big")
            for at, table in given.items():
                column |= int.from_bytes(columns[at].translate(table), "big")
            made[place::FRAME_OCTETS] = column.to_bytes(count, "big")
    return bytes(made)
