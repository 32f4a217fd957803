"""E1 recordings that tests make: channels and slots of 32, the frame alignment signal, any
alignment, either order of bits."""

from support import EXAMPLES

from trau.rules.slots import CHANNELS, SLOTS_OF_E1, merge, octets_turned

SIGNAL, OTHER = 0x9B, 0xDF
SLOT_OCTETS = 160  # in a period of 20 ms
IDLE_CHANNEL = b"\xff"


def uplink(periods, first=0):
    """So many periods of recorded speech, from one of them on."""
    octets = (EXAMPLES / "7.up").read_bytes()[40 * first :]
    return (octets * (periods * 40 // len(octets) + 1))[: 40 * periods]


def channel(periods, *calls, fill=IDLE_CHANNEL, bits=0):
    """A channel of so many periods: calls, as (first period, octets), and the filling; all so many
    bits later."""
    octets = bytearray(fill * 40 * periods)
    for start, line in calls:
        octets[40 * start : 40 * start + len(line)] = line
    octets = octets[: 40 * periods]
    return shifted(bytes(octets), bits)


def shifted(octets, bits):
    """Octets after so many ones, 0 to 7, cut to their length."""
    whole = int.from_bytes(octets, "big") >> bits | ((1 << bits) - 1) << 8 * len(octets) - bits
    return whole.to_bytes(len(octets), "big") if bits else octets


def slot(periods, channels):
    """A slot of channels by their numbers; the others are idle."""
    return merge([channels.get(number, channel(periods)) for number in range(CHANNELS)])


def line(periods, slots, fill=0xFF):
    """An E1 line of so many periods of slots by their numbers; the others have a filling."""
    frames = SLOT_OCTETS * periods
    octets = bytearray([fill]) * (SLOTS_OF_E1 * frames)
    octets[0 :: 2 * SLOTS_OF_E1] = bytes([SIGNAL]) * (frames // 2)
    octets[SLOTS_OF_E1 :: 2 * SLOTS_OF_E1] = bytes([OTHER]) * (frames // 2)
    for number, content in slots.items():
        octets[number::SLOTS_OF_E1] = (content + bytes([fill]) * frames)[:frames]
    return bytes(octets)


def recorded(octets, bits=0, is_turned=False):
    """A line as it is recorded after so many bits of it, and in the other order of bits."""
    if bits:
        whole = int.from_bytes(octets, "big") & (1 << 8 * len(octets) - bits) - 1
        octets = (whole << bits % 8).to_bytes(len(octets), "big")[bits // 8 :]
    return octets_turned(octets) if is_turned else octets
