"""Names the rule of the encoder that a box breaks, by the stages that differ; for the ratios, the
steps before them are turned one at a time until they are explained (GSM 06.10 section 4.2)."""

from typing import Dict, List, NamedTuple, Optional, Sequence, Tuple

from trau.model import codec
from trau.rules.arithmetic import add, mult_r, saturate, saturate_long
from trau.rules.parameters import Parameters

from trau.suite.box_codec import Turned
from trau.suite.box_encoder import Followed, Stage, stages_of

EXPLAINED = 0.97
RATIO_RULES = (
    "encoder.downscaling",
    "encoder.offset",
    "encoder.preemphasis",
    "encoder.autocorrelation",
    "encoder.reflection",
    "encoder.log-area-ratios",
    "encoder.ratio-codes",
)
LATER_RULES = ("encoder.short-term", "encoder.memory")
MOST_FRAMES = 30
ALONE = 4  # a stage that differs in so many times the frames of any other is the one that is turned
FEW = 0.05  # stages that differ in fewer frames than this part of the worst one's follow from it


class Steps(NamedTuple):
    """The steps before the coded ratios, with the numbers that may be turned."""

    mask: int = 3  # lowest bits that are lost
    keeps: int = 32735  # of the offset's memory
    emphasis: int = -28180
    room: int = 4  # bits that are free before the correlations
    bends: Tuple[int, int] = (22118, 31130)
    falls: Tuple[int, int] = (11059, 26112)


STANDARD = Steps()


def preprocessed(steps: Steps, samples: Sequence[int]) -> List[int]:
    """Samples after sections 4.2.1 to 4.2.3."""
    z1 = offset = mp = 0
    emphasised = []
    for sample in samples:
        scaled = ((sample >> steps.mask) << steps.mask) >> 1
        high, low = offset >> 15, offset & 0x7FFF
        step = ((scaled - z1) << 15) + mult_r(low, steps.keeps)
        z1 = scaled
        offset = saturate_long(high * steps.keeps + step)
        level = saturate(saturate_long(offset + 16384) >> 15) if steps.keeps else scaled
        emphasised.append(add(level, mult_r(mp, steps.emphasis)))
        mp = level
    return emphasised


def correlations_of(steps: Steps, emphasised: Sequence[int]) -> List[int]:
    """The nine autocorrelations with so much room (section 4.2.4)."""
    shift = codec.scaling(emphasised, steps.room)
    scaled = [mult_r(one, 16384 >> (shift - 1)) for one in emphasised] if shift else emphasised
    return [2 * sum(a * b for a, b in zip(scaled[lag:], scaled)) for lag in range(9)]


def ratio_of(steps: Steps, r: int) -> int:
    """A log area ratio (section 4.2.6)."""
    size = min(abs(r), 32767)
    if size < steps.bends[0]:
        ratio = size >> 1
    elif size < steps.bends[1]:
        ratio = size - steps.falls[0]
    else:
        ratio = (size - steps.falls[1]) << 2
    return -ratio if r < 0 else ratio


def ratios_by(steps: Steps, emphasised: Sequence[int]) -> List[int]:
    """The log area ratios before coding."""
    correlations = correlations_of(steps, emphasised)
    return [ratio_of(steps, r) for r in codec.reflection_coefficients(correlations)]


WAYS: Tuple[Tuple[str, str, Steps], ...] = (
    ("encoder.offset", "no offset compensation", STANDARD._replace(keeps=0)),
    ("encoder.preemphasis", "no preemphasis", STANDARD._replace(emphasis=0)),
    ("encoder.downscaling", "no lowest bits lost", STANDARD._replace(mask=0)),
    ("encoder.downscaling", "two lowest bits lost", STANDARD._replace(mask=2)),
    ("encoder.downscaling", "four lowest bits lost", STANDARD._replace(mask=4)),
    ("encoder.autocorrelation", "3 bits of room", STANDARD._replace(room=3)),
    ("encoder.autocorrelation", "5 bits of room", STANDARD._replace(room=5)),
    ("encoder.autocorrelation", "6 bits of room", STANDARD._replace(room=6)),
    ("encoder.log-area-ratios", "one straight line", STANDARD._replace(bends=(32768, 32768))),
)
EMPHASES = tuple(range(-32000, -23000, 500))
KEPT = (32500, 32600, 32700, 32720, 32740, 32750, 32760, 32767)


class AnalysedFrame(NamedTuple):
    """A frame that was sent, with its samples."""

    samples: List[int]
    sent: Parameters
    is_known: bool  # whether what came before the recording doesn't count any longer


def part_explained(steps: Steps, frames: Sequence[AnalysedFrame]) -> float:
    """The part of the known frames whose coded ratios these steps give; the samples follow one
    another."""
    whole = [sample for each in frames for sample in each.samples]
    emphasised = preprocessed(steps, whole)
    count = fits = 0
    for k, each in enumerate(frames):
        if each.is_known:
            part = emphasised[codec.SAMPLES * k : codec.SAMPLES * (k + 1)]
            count += 1
            fits += codec.code_ratios(ratios_by(steps, part)) == tuple(each.sent.larc)
    return fits / count if count else 0.0


def ways() -> List[Tuple[str, str, Steps]]:
    """All ways that are tried."""
    numbers = [
        ("encoder.preemphasis", f"a coefficient about {each}", STANDARD._replace(emphasis=each))
        for each in EMPHASES
    ]
    numbers += [
        ("encoder.offset", f"a coefficient about {each}", STANDARD._replace(keeps=each))
        for each in KEPT
    ]
    return [*WAYS, *numbers]


def closer(
    coefficient: int, frames: Sequence[AnalysedFrame]
) -> List[Tuple[float, str, str, Steps]]:
    """Coefficients of preemphasis around one that explains much."""
    found = []
    for move in (-375, -250, -125, 125, 250, 375):
        value = coefficient + move
        steps = STANDARD._replace(emphasis=value)
        how = f"a coefficient about {value}"
        found.append((part_explained(steps, frames), "encoder.preemphasis", how, steps))
    return found


def turned_ratios(
    followed: Sequence[Followed], frames: Sequence[AnalysedFrame]
) -> Optional[Turned]:
    """The rule that explains the ratios that differ."""
    places = {
        one.place for each in followed for one in each.differences if one.stage is Stage.RATIOS
    }
    if len(places) == 1:
        (place,) = places
        one = next(
            one for each in followed for one in each.differences if one.stage is Stage.RATIOS
        )
        sent, own = f"LARc {place + 1} is {one.sent}", str(one.expected)
        return Turned("encoder.ratio-codes", sent, own)
    first = next((k for k, each in enumerate(frames) if each.is_known), 0)
    chosen = frames[: first + MOST_FRAMES]
    plain = part_explained(STANDARD, chosen)
    tried = [(part_explained(steps, chosen), rule, how, steps) for rule, how, steps in ways()]
    best = max(tried, key=lambda one: one[0])
    if best[3].emphasis not in (0, STANDARD.emphasis):
        best = max(best, *closer(best[3].emphasis, chosen), key=lambda one: one[0])
    if best[0] >= EXPLAINED or best[0] > 1 - (1 - plain) / 4:
        return Turned(best[1], best[2], "as the standard has it")
    return None


def stage_alone(counts: Dict[Stage, int]) -> Optional[Stage]:
    """The stage that differs in far more frames than any other. Those others are of frames after a
    pause, where the state is taken for known a little too early."""
    first, second = sorted(counts, key=lambda stage: -counts[stage])[:2]
    return first if counts[first] >= ALONE * counts[second] else None


def turned_stage(followed: Sequence[Followed]) -> Optional[str]:
    """The rule of the first later stage that differs; None if these can't say it."""
    counts = stages_of(followed)
    worst = max(counts.values())
    found = {stage for stage, count in counts.items() if count > FEW * worst}
    if counts[Stage.GRID]:
        found.add(Stage.GRID)
    pulses = {Stage.MAXIMUM, Stage.PULSES}
    alone = stage_alone(counts)
    if found == {Stage.LAG} or alone is Stage.LAG:
        return "encoder.lag"
    if found == {Stage.GAIN} or alone is Stage.GAIN:
        return "encoder.lag-gain"
    if found and found <= pulses:
        return "encoder.pulses"
    if Stage.GRID in found and found <= pulses | {Stage.GRID}:
        return "encoder.grid"
    return None
