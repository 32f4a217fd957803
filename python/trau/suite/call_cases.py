"""Cases of whole calls: the four lines of one, what its report counts, and uplinks whose silence
descriptors are marked."""

from typing import List

from trau.rules.frame import FrameKind, UpFrame, bits_of, octets_of, write_up
from trau.rules.g711 import Law, compress_all
from trau.rules.profile import FRAME_BITS

from trau.suite import sounds
from trau.suite.cases import Case, case
from trau.suite.line_cases import DATA_BITS, descriptor_with, random_bits, random_frame
from trau.suite.operations import GSM_OCTETS, LINE_OCTETS, SAMPLES, units
from trau.suite.random_source import NamedSource

NO_FRAME = bytes(GSM_OCTETS)  # in an uplink that is to be marked: one that was lost
FIELDS = 64
PERIODS_A_FIELD = 2  # so that each request is met before the next one
DESCRIPTOR_EACH = 24  # periods
KINDS = (
    FrameKind.SPEECH,
    FrameKind.VALID_SID,
    FrameKind.INVALID_SID,
    FrameKind.UNUSABLE,
    FrameKind.IDLE,
    FrameKind.OTHER,
)


def marking_cases() -> List[Case]:
    """Frames with 0 to 20 wrong bits of the code word, and pauses in which descriptors are lost."""
    source = NamedSource("marks")
    wrong = b"".join(descriptor_with(source, count) for count in range(21))
    pause = (descriptor_with(source, 0) + NO_FRAME * (2 * DESCRIPTOR_EACH + 1)) * 2
    late = b"".join(
        descriptor_with(source, 0) + NO_FRAME * (DESCRIPTOR_EACH - 1) + each
        for each in (random_frame(source), descriptor_with(source, 2), descriptor_with(source, 0))
    )
    return [
        case("mark", "wrong-bits", "line.marks", wrong),
        case("mark", "pauses", "line.marks", NO_FRAME * 25 + random_frame(source) + pause),
        case("mark", "due", "line.marks", late + random_frame(source) + NO_FRAME * 25),
    ]


def uplink_of(kinds: List[FrameKind], source: NamedSource) -> bytes:
    """An uplink of frames of these kinds, with any data and any requests for discontinuous
    transmission."""
    return b"".join(
        octets_of(
            write_up(
                UpFrame(
                    kind,
                    source.within(0, 1) == 1,
                    source.within(0, 1) == 1,
                    data=random_bits(source, DATA_BITS),
                )
            )
        )
        for kind in kinds
    )


def counting_cases() -> List[Case]:
    """Uplinks with each kind of frame, with misses, and with periods without a frame."""
    source = NamedSource("counts")
    line = uplink_of([source.choice(KINDS) for _ in range(30)], source)
    gaps = b"".join(
        line[LINE_OCTETS * at : LINE_OCTETS * (at + 2)] + b"\xff" * LINE_OCTETS * at
        for at in range(6)
    )
    return [
        case("count", "each-kind", "line.counts", line),
        case("count", "gaps", "line.counts", b"\xff" * LINE_OCTETS * 2 + gaps),
        case("count", "nothing", "line.counts", b"\xff" * LINE_OCTETS),
    ]


def exchange(law: Law, source: NamedSource, periods: int) -> bytes:
    """A line from the exchange: some periods loud and some nearly silent, in turn."""
    samples: List[int] = []
    while len(samples) < SAMPLES * periods:
        for peak in (8000, 30):
            samples += sounds.noise(source, SAMPLES * source.within(3, 14), peak)
    return compress_all(law, samples[: SAMPLES * periods])


def both(up: bytes, pcm: bytes) -> bytes:
    """The periods of both incoming lines, of both in turn."""
    return b"".join(map(bytes.__add__, units(up, LINE_OCTETS), units(pcm, SAMPLES)))


def alignment() -> bytes:
    """An uplink that asks for each alignment field, among them those without a shift."""
    source = NamedSource("alignment")
    return b"".join(
        octets_of(
            write_up(
                UpFrame(
                    FrameKind.SPEECH,
                    dtxd=period // 16 % 2 == 1,
                    field=0 if period % PERIODS_A_FIELD else period // PERIODS_A_FIELD,
                    data=random_bits(source, DATA_BITS),
                )
            )
        )
        for period in range(FIELDS * PERIODS_A_FIELD)
    )


def quiet_parts(source: NamedSource) -> bytes:
    """An uplink with idle frames between those of other kinds; at its start and in its midst no
    frame is found. Its second part begins at the second bit of a period, so that the last bit of
    each of its frames is the first of the next one."""
    kinds = [kind for _ in range(6) for kind in [source.choice(KINDS)] * source.within(2, 6)]
    mixed = uplink_of([FrameKind.SPEECH, *kinds, FrameKind.SPEECH], source)
    bits = "1" * 328 + bits_of(mixed)
    second = bits + "1" * (4 * FRAME_BITS + (1 - len(bits)) % FRAME_BITS) + bits_of(mixed)
    return octets_of(second + "1" * (-len(second) % FRAME_BITS))


def discontinuous() -> bytes:
    """An uplink whose frames ask for discontinuous transmission, and whose idle frames and frames
    of other kinds say otherwise."""
    source = NamedSource("discontinuous")
    found = []
    for part in range(8):
        kinds = (FrameKind.SPEECH, FrameKind.UNUSABLE, FrameKind.IDLE, FrameKind.OTHER)
        for kind in kinds[:2] * 8 + kinds[2 + part % 2 :]:
            is_speech = kind in kinds[:2]
            data = random_bits(source, DATA_BITS)
            frame = UpFrame(kind, dtxd=is_speech == (part < 6), data=data)
            found.append(octets_of(write_up(frame)))
    return b"".join(found)


def call_cases() -> List[Case]:
    """The four lines of calls of both laws."""
    found = []
    for law in Law:
        source = NamedSource(f"call {law}")
        uplinks = {
            "alignment": (alignment(), "call.alignment"),
            "quiet": (quiet_parts(source), "call.quiet"),
            "discontinuous": (discontinuous(), "call.dtxd"),
        }
        for title, (up, rule) in uplinks.items():
            pcm = exchange(law, source, 8 * len(up) // FRAME_BITS)
            found.append(case(f"call-{law}", title, rule, both(up, pcm)))
    return found


def cases() -> List[Case]:
    """All of them."""
    return marking_cases() + counting_cases() + call_cases()
