"""What the full rate encoder does to samples first (GSM 06.10 sections 4.2.1 to 4.2.3). The peaks
of frames, which discontinuous transmission compares with a call's level, are those of its
answer."""

from typing import Iterable, List

from trau.rules.arithmetic import add, mult_r, saturate, saturate_long


class Preprocessing:
    """Downscaling, offset compensation and preemphasis (GSM 06.10 sections 4.2.1 to 4.2.3); all is
    0 at home."""

    def __init__(self) -> None:
        self.z1 = 0  # the sample before, scaled
        self.offset = 0  # L_z2: the offset compensation's memory, 31 bits
        self.mp = 0  # the sample before, without its offset

    def run(self, samples: Iterable[int]) -> List[int]:
        """The samples that follow those of before, downscaled, without offset and with
        preemphasis."""
        emphasised = []
        for sample in samples:
            scaled = (sample >> 3) << 2
            high, low = self.offset >> 15, self.offset & 0x7FFF
            step = ((scaled - self.z1) << 15) + mult_r(low, 32735)
            self.z1 = scaled
            self.offset = saturate_long(high * 32735 + step)
            level = saturate(saturate_long(self.offset + 16384) >> 15)
            emphasised.append(add(level, mult_r(self.mp, -28180)))
            self.mp = level
        return emphasised
