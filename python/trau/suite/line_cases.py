"""Cases of frames as they travel: kinds by wrong bits of the code word, TRAU frames, and the search
for them at each bit of an octet."""

from typing import List, Sequence

from trau.recordings.code_word import CODE_WORD_BITS
from trau.rules.frame import Bits, bits_of, octets_of
from trau.rules.parameters import gsm_of_data

from trau.suite.cases import Case, case
from trau.suite.operations import DIGITS, GOOD, LINE_OCTETS, units
from trau.suite.random_source import NamedSource
from trau.suite.reference import write_downlink, write_uplink

DATA_BITS = 260
FRAME_BITS = 8 * LINE_OCTETS
MOST_WRONG = 20
SYNC_ZEROS = 16


def random_bits(source: NamedSource, count: int) -> Bits:
    """So many bits."""
    return "".join(str(source.within(0, 1)) for _ in range(count))


def random_frame(source: NamedSource) -> bytes:
    """A frame of 33 octets with any bits."""
    return gsm_of_data(random_bits(source, DATA_BITS))


def descriptor_with(source: NamedSource, wrong: int) -> bytes:
    """A frame so many of whose code word's bits are wrong, at any places."""
    places = list(CODE_WORD_BITS)
    data = list(random_bits(source, DATA_BITS))
    for place in places:
        data[place] = "0"
    for _ in range(wrong):
        data[places.pop(source.within(0, len(places) - 1))] = "1"
    return gsm_of_data("".join(data))


def kind_cases() -> List[Case]:
    """Kinds by 0 to 20 wrong bits, by each bit of the code word and by each other bit."""
    found = []
    for wrong in range(MOST_WRONG + 1):
        rule = "descriptor" if wrong < 2 else "invalid" if wrong < 16 else "speech"
        source = NamedSource(f"kind {wrong}")
        frames = [descriptor_with(source, wrong) for _ in range(8)]
        found.append(case("kind", f"wrong-{wrong}", f"kind.{rule}", b"".join(frames)))
    turned = [
        gsm_of_data("".join("01"[k in (0, place)] for k in range(DATA_BITS)))
        for place in CODE_WORD_BITS
    ]
    pairs = [
        gsm_of_data("".join("01"[k in pair] for k in range(DATA_BITS)))
        for pair in zip(CODE_WORD_BITS, CODE_WORD_BITS[1:] + CODE_WORD_BITS[:1])
    ]
    others = "".join("01"[k not in CODE_WORD_BITS] for k in range(DATA_BITS))
    no_frame = [bytes([first << 4]) + bytes(32) for first in range(16) if first != 0xD]
    return found + [
        case("kind", "each-bit", "kind.descriptor", b"".join(turned)),
        case("kind", "each-pair", "kind.invalid", b"".join(pairs)),
        case("kind", "other-bits", "kind.other-bits", gsm_of_data(others) + gsm_of_data("0" * 260)),
        case("kind", "no-frame", "kind.no-frame", b"".join(no_frame)),
    ]


def periods(source: NamedSource, digits: Sequence[str]) -> bytes:
    """Periods with these digits and any frames."""
    return b"".join(digit.encode() + random_frame(source) for digit in digits)


def with_control(frame: bytes, control: Bits) -> bytes:
    """A frame of a line with other bits C1 to C21."""
    bits = bits_of(frame)
    return octets_of(bits[:17] + control[:15] + bits[32:310] + control[15:] + bits[316:])


def frame_cases() -> List[Case]:
    """TRAU frames of each kind, both ways, with each pattern of the control bits."""
    source = NamedSource("frames")
    up = periods(source, DIGITS * 3)
    down = periods(source, "014" * 3)
    single = b"".join(
        GOOD.encode() + gsm_of_data("0" * k + "1" + "0" * (DATA_BITS - 1 - k))
        for k in range(DATA_BITS)
    )
    speech = write_uplink(periods(source, GOOD))
    patterns = [f"{each:05b}" for each in range(32)]
    uplinks = [with_control(speech, one + random_bits(source, 16)) for one in patterns]
    classes = [
        with_control(speech, f"00010{random_bits(source, 6)}{each:04b}" + random_bits(source, 6))
        for each in range(16)
    ]
    downlinks = [with_control(speech, one + random_bits(source, 16)) for one in patterns]
    return [
        case("write-uplink", "each-data-bit", "line.sync line.data", single),
        case("read-uplink", "each-data-bit", "line.data", write_uplink(single)),
        case("write-uplink", "each-kind", "line.uplink", up),
        case("read-uplink", "each-kind", "line.uplink", write_uplink(up)),
        case("read-uplink", "each-pattern", "line.uplink", b"".join(uplinks)),
        case("read-uplink", "each-class", "line.uplink", b"".join(classes)),
        case("write-downlink", "each-data-bit", "line.sync line.data", single),
        case("write-downlink", "each-kind", "line.downlink", down),
        case("read-downlink", "each-kind", "line.downlink", write_downlink(down)),
        case("read-downlink", "each-pattern", "line.downlink", b"".join(downlinks)),
    ]


def search_case(title: str, rule: str, bits: Bits) -> Case:
    """A search over whole octets of these bits, with a few octets more."""
    return case("search", title, f"search.{rule}", octets_of(bits + "1" * (-len(bits) % 8)))


def broken(frame: Bits, place: int) -> Bits:
    """A frame one of whose bits is turned."""
    return frame[:place] + "10"[int(frame[place])] + frame[place + 1 :]


def search_cases() -> List[Case]:
    """Frames at each bit of an octet, false sync, misses, and lines that end early."""
    source = NamedSource("search")
    frames = [
        bits_of(each) for each in units(write_uplink(periods(source, GOOD * 12)), LINE_OCTETS)
    ]
    found = [
        search_case(
            f"at-bit-{bit}", "place", "1" * bit + "".join(frames[:3]) + "1" * FRAME_BITS * 5
        )
        for bit in (*range(16), 313, 319)
    ]
    ones = [k for k in range(SYNC_ZEROS, FRAME_BITS, 16)]
    places = list(range(SYNC_ZEROS)) + ones
    for place in places:
        turned = broken(frames[1], place)
        found.append(search_case(f"first-broken-{place}", "place", turned + "".join(frames[2:4])))
        line = frames[0] + turned + "".join(frames[2:4])
        found.append(search_case(f"missed-{place}", "locked", line))
    for misses in range(1, 6):
        gap = "1" * FRAME_BITS * misses
        for slip in (0, 1, 7, 8, 160):
            line = frames[0] + gap + "1" * slip + "".join(frames[1:5]) + gap + frames[5]
            found.append(search_case(f"misses-{misses}-slip-{slip}", "locked", line))
    zeros = "0" * SYNC_ZEROS + "1" * 4
    found += [
        search_case("false-sync", "place", (zeros + "1" * 16) * 20 + "".join(frames[:3])),
        search_case("zeros-before", "place", "0" * 24 + "".join(frames[:3])),
        search_case(
            "false-frame-in-data", "locked", frames[0] + frames[1][40:] + frames[2] + frames[3]
        ),
        search_case("ends-early", "place", "1" * 8 + frames[0] + frames[1][:-8]),
        search_case("nothing", "place", random_bits(source, 8 * FRAME_BITS)),
    ]
    return found


def cases() -> List[Case]:
    """All of them."""
    return kind_cases() + frame_cases() + search_cases()
