"""Cases of A-law and mu-law: all 256 octets, and all 65,536 samples; octets of one law to those
of the other."""

from typing import List

from trau.suite.cases import Case, case
from trau.suite.operations import A_TO_A, A_TO_MU, MU_TO_A, MU_TO_MU, words_of

DIGITS = A_TO_A + A_TO_MU + MU_TO_A + MU_TO_MU
LEAST, MOST = -32768, 32767


def cases() -> List[Case]:
    """Both ways of both laws; samples below 0 by themselves; and from each law to each."""
    octets = bytes(range(256))
    positive, negative = words_of(range(0, MOST + 1)), words_of(range(LEAST, 0))
    pairs = b"".join(bytes([ord(digit), octet]) for digit in DIGITS for octet in octets)
    return [case("recode", "all-octets", "law.recode", pairs)] + [
        made
        for law in ("alaw", "mulaw")
        for made in (
            case(f"{law}-expand", "all-octets", f"{law}.expand", octets),
            case(f"{law}-compress", "from-0-on", f"{law}.compress law.bound", positive),
            case(f"{law}-compress", "below-0", f"{law}.compress-below-0", negative),
        )
    ]
