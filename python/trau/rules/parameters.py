"""The 76 parameters of a full rate frame (GSM 06.10 section 1.7): as D1 to D260 of a TRAU frame,
and as the frames of 33 octets of libgsm."""

from typing import List, NamedTuple, Sequence, Tuple

from trau.rules import profile
from trau.rules.frame import Bits, bits_of, octets_of


class Block(NamedTuple):
    """The parameters of a block of 40 samples (GSM 06.10 section 1.7): as they are coded."""

    nc: int  # the lag, 7 bits
    bc: int  # the lag's gain, 2 bits
    mc: int  # the grid position, 2 bits
    xmaxc: int  # the block maximum, 6 bits
    xmc: Tuple[int, ...]  # thirteen pulses, 3 bits each


class Parameters(NamedTuple):
    """The parameters of a frame (GSM 06.10 section 1.7): as they are coded."""

    larc: Tuple[int, ...]  # eight log area ratios, of 6, 6, 5, 5, 4, 4, 3 and 3 bits
    blocks: Tuple[Block, ...]  # four


# The widths of the parameters in the order in which they are sent (GSM 06.10 section 1.7 and table
# 1.1).
LARC_WIDTHS = (6, 6, 5, 5, 4, 4, 3, 3)
BLOCK_WIDTHS = (7, 2, 2, 6) + 13 * (3,)
WIDTHS = LARC_WIDTHS + 4 * BLOCK_WIDTHS


def values_of(parameters: Parameters) -> List[int]:
    """The 76 values of a frame's parameters in the order in which they are sent (GSM 06.10 section
    1.7)."""
    return list(parameters.larc) + [
        v for b in parameters.blocks for v in (b.nc, b.bc, b.mc, b.xmaxc, *b.xmc)
    ]


def parameters_of_values(values: Sequence[int]) -> Parameters:
    """The parameters of 76 values in the order in which they are sent (GSM 06.10 section 1.7)."""

    def block(start: int) -> Block:
        nc, bc, mc, xmaxc, *xmc = values[start : start + 17]
        return Block(nc, bc, mc, xmaxc, tuple(xmc))

    return Parameters(tuple(values[:8]), tuple(map(block, range(8, 76, 17))))


def fields_of(data: Bits) -> List[Bits]:
    """260 bits cut by the widths of the parameters (GSM 06.10 section 1.7)."""
    fields, start = [], 0
    for width in WIDTHS:
        fields.append(data[start : start + width])
        start += width
    return fields


def bits_of_parameters(parameters: Parameters) -> Bits:
    """D1 to D260 of a frame's parameters, each with its least significant bit first (docs/FILES.md,
    "The 260 data bits")."""
    return "".join(
        [f"{value:0{width}b}"[::-1] for value, width in zip(values_of(parameters), WIDTHS)]
    )


def parameters_of_bits(data: Bits) -> Parameters:
    """The parameters of D1 to D260 (docs/FILES.md, "The 260 data bits")."""
    return parameters_of_values([int(field[::-1], 2) for field in fields_of(data)])


SILENCE_BLOCK = Block(profile.SILENCE_LAG, 0, profile.SILENCE_GRID, 0, profile.SILENCE_PULSES)
# the frame of silence (this project's profile)
SILENCE = Parameters(profile.SILENCE_LARC, 4 * (SILENCE_BLOCK,))

# Frames of libgsm have the four bits of 0xD, and then each parameter with its most significant bit
# first. In WAV files of GSM frames, 65 octets have two frames of 260 bits, each octet with its
# least significant bit first.
GSM_OCTETS, GSM_MAGIC = 33, 0xD
WAV_BLOCK_OCTETS = 65


def fields_reversed(bits: Bits) -> Bits:
    """The 260 bits with each parameter's bits in the other order."""
    return "".join([field[::-1] for field in fields_of(bits)])


def data_of_gsm(octets: bytes) -> Bits:
    """D1 to D260 of a frame of libgsm."""
    return fields_reversed(bits_of(octets)[4:])


def gsm_of_data(data: Bits) -> bytes:
    """The frame of libgsm of D1 to D260."""
    return octets_of(f"{GSM_MAGIC:04b}" + fields_reversed(data))


def data_of_wav_block(octets: bytes) -> Tuple[Bits, Bits]:
    """D1 to D260 of both frames of a block of a WAV file of GSM frames."""
    bits = bits_of(octets[::-1])[::-1]
    return bits[:260], bits[260:]
