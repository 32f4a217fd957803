"""TRAU frames of 40 octets, one by one, as packets have them: what each is, by its control bits."""

from typing import Optional

from trau.rules.profile import FRAME_OCTETS

ROW = 2  # octets; each row but the first begins with a sync one
SYNC_ONE = 0x80
CODE_BITS = 3  # of a code below C1 to C5: C12 to C14


def code_of(frame: bytes) -> Optional[int]:
    """C1 to C5, and below them C12 to C14, of a frame; None of octets that are no frame."""
    rows = frame[ROW::ROW]
    if len(frame) != FRAME_OCTETS or any(frame[:ROW]) or not all(row & SYNC_ONE for row in rows):
        return None
    return (frame[2] >> 2 & 0x1F) << CODE_BITS | frame[3] >> 1 & 7
