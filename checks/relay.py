"""Compares what `trau relay` wrote with the downlink that GSM 08.60's places give, worked out here on its own.

Usage: relay.py UPLINK DOWNLINK
"""

import sys

DATA = [place for place in range(33, 304) if place % 16] + list(range(305, 310))
CONTROL = dict(zip(range(1, 16), range(17, 32))) | dict(zip(range(16, 22), range(310, 316)))
SPEECH = {1: 1, 2: 1, 3: 1, **dict.fromkeys(range(4, 12), 0)}


def bits_of(octets):
    return [octet >> (7 - k) & 1 for octet in octets for k in range(8)]


def octets_of(bits):
    return bytes(
        sum(bit << (7 - k) for k, bit in enumerate(bits[i : i + 8])) for i in range(0, len(bits), 8)
    )


def downlink_frame(uplink_frame):
    """A downlink speech frame with the same data bits and SP 1."""
    given = bits_of(uplink_frame)
    bits = [0] * 16 + [1] * 304
    for control, bit in SPEECH.items():
        bits[CONTROL[control]] = bit
    for place in DATA:
        bits[place] = given[place]
    return octets_of(bits)


def main():
    uplink, downlink = (open(name, "rb").read() for name in sys.argv[1:3])
    assert len(DATA) == 260
    wanted = b"".join(downlink_frame(uplink[i : i + 40]) for i in range(0, len(uplink), 40))
    if wanted != downlink:
        place = next(
            (i for i, (a, b) in enumerate(zip(wanted, downlink)) if a != b),
            min(len(wanted), len(downlink)),
        )
        sys.exit(f"octet {place} of the downlink is wrong")
    print(f"{len(uplink) // 40} frames equal")


main()
