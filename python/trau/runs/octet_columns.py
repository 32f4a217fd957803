"""Octets that stand at the same place of frames in a row, taken together: a column has an octet of
each frame. Columns are changed by tables of 256 octets and combined as one large number, so that
thousands of frames take a few steps."""

from typing import Callable

from trau.rules.profile import FRAME_OCTETS


def table(function: Callable[[int], int]) -> bytes:
    """The octet that each of the 256 becomes."""
    return bytes(function(octet) for octet in range(256))


def number(column: bytes) -> int:
    """A column as one number."""
    return int.from_bytes(column, "big")


def joined(*columns: bytes) -> bytes:
    """The bits that are 1 in any of some columns, octet by octet."""
    whole = 0
    for column in columns:
        whole |= number(column)
    return whole.to_bytes(len(columns[0]), "big")


# Where frames begin at bit B of an octet, 0 to 7: an octet's last 8 - B bits, its first B, and both
# moved to where they belong in an octet of the frame.
LAST_BITS = [bytes(octet & 0xFF >> bit for octet in range(256)) for bit in range(8)]
FIRST_BITS = [bytes(octet & ~(0xFF >> bit) for octet in range(256)) for bit in range(8)]
TO_FRONT = [bytes(octet << bit & 0xFF for octet in range(256)) for bit in range(8)]
TO_BACK = [bytes(octet >> 8 - bit for octet in range(256)) for bit in range(8)]


class FrameColumns:
    """Frames in a row, each 320 bits after the one before, in octets that have all of them."""

    def __init__(self, octets: bytes, place: int, count: int) -> None:
        self.octets = octets
        self.first, self.bit = divmod(place, 8)
        self.count = count

    def raw(self, at: int) -> bytes:
        """The column of the octets in which the frames' octet `at` begins."""
        start = self.first + at
        return self.octets[start : start + FRAME_OCTETS * self.count : FRAME_OCTETS]

    def column(self, at: int) -> bytes:
        """The column of the frames' octet `at`, which isn't their last."""
        if self.bit == 0:
            return self.raw(at)
        return joined(
            self.raw(at).translate(TO_FRONT[self.bit]),
            self.raw(at + 1).translate(TO_BACK[self.bit]),
        )
