"""The boxes of the tests of check.py: what is turned in each, and the rules that check.py has to name."""

from typing import Dict, NamedTuple, Set, Tuple

from boxes import Turn

PROFILE, RECEIVE, NOISE, CODEC, TRANSMIT, CALL = (
    "rules.profile",
    "model.receive",
    "rules.noise",
    "model.codec",
    "model.transmit",
    "model.call",
)


class TurnedBox(NamedTuple):
    """A box: its edits, and the rules that it doesn't keep."""

    turns: Tuple[Turn, ...]
    rules: Set[str]


def turned(rules: str, module: str, before: str, after: str, *others: Turn) -> TurnedBox:
    """A box of one edit or more."""
    return TurnedBox((Turn(module, before, after), *others), set(rules.split()))


FALL = "fall = profile.MUTING_STEP * (self.n - 1)"
MUTED = "xmaxc=max(0, b.xmaxc - fall)"
AS_IT_CAME = "if self.n <= 1:\n            return self.good"

# Boxes of which a recording that begins late shows too little: it is refused.
REFUSED_LATE = {"no interpolation"}

# What a box makes of its uplink.
RECEIVING: Dict[str, TurnedBox] = {
    "muting by 5": turned("lost.muted", RECEIVE, FALL, "fall = 5 * (self.n - 1)"),
    "muting by 2": turned("lost.muted", RECEIVE, FALL, "fall = 2 * (self.n - 1)"),
    "silence from the 12th lost frame on": turned(
        "lost.frame-of-silence", PROFILE, "SILENT_FROM_LOST = 17", "SILENT_FROM_LOST = 12"
    ),
    "muted speech where there should be silence": turned(
        "lost.frame-of-silence", PROFILE, "SILENT_FROM_LOST = 17", "SILENT_FROM_LOST = 40"
    ),
    "no silence": turned(
        "lost.silent lost.muted",
        RECEIVE,
        MUTED,
        "xmaxc=max(3, b.xmaxc - fall)",
        Turn(PROFILE, "SILENT_FROM_LOST = 17", "SILENT_FROM_LOST = 40"),
    ),
    "a sixth lost frame that isn't muted": turned(
        "lost.never-louder", RECEIVE, FALL, f"{FALL} * (self.n != 6)"
    ),
    "a first lost frame with drawn grids": turned(
        "lost.repeated", RECEIVE, "if self.n <= 1:", "if self.n <= 0:"
    ),
    "loud frames softened": turned(
        "lost.as-it-came",
        RECEIVE,
        AS_IT_CAME,
        "if self.n <= 1:\n            return self.good._replace("
        "blocks=tuple(b._replace(xmaxc=min(b.xmaxc, 39)) for b in self.good.blocks))",
    ),
    "a lag of noise of 41": turned(
        "noise.lags", PROFILE, "NOISE_LAGS = (40, 120, 40, 120)", "NOISE_LAGS = (40, 120, 41, 120)"
    ),
    "a gain in noise": turned("noise.lag-gain", NOISE, "Block(lag, 0, grid", "Block(lag, 1, grid"),
    "pulses up to 7": turned("noise.pulses", PROFILE, "PULSE_VALUES = 6", "PULSE_VALUES = 7"),
    "pulses from 0 on": turned("noise.pulses", PROFILE, "LEAST_PULSE = 1", "LEAST_PULSE = 0"),
    "an approach in 4 steps": turned(
        "noise.approach", PROFILE, "APPROACH_STEPS = 8", "APPROACH_STEPS = 4"
    ),
    "an approach that overshoots": turned(
        "noise.between noise.approach",
        RECEIVE,
        "xmaxc=between(a.xmaxc, b.xmaxc)",
        "xmaxc=between(a.xmaxc, b.xmaxc) + 9 * (step == 3)",
    ),
    "a fall from the third missed descriptor on": turned(
        "noise.fall", PROFILE, "FALL_FROM_MISSED = 2", "FALL_FROM_MISSED = 3"
    ),
    "a fall from the first missed descriptor on": turned(
        "noise.between noise.fall", PROFILE, "FALL_FROM_MISSED = 2", "FALL_FROM_MISSED = 1"
    ),
    "a fall that ends early": turned(
        "noise.fall", PROFILE, "SILENT_FROM_FALL = 17", "SILENT_FROM_FALL = 5"
    ),
    "noise that rises": turned(
        "noise.mutes",
        NOISE,
        "max(0, maximum - profile.MUTING_STEP * fall)",
        "min(63, maximum + fall)",
    ),
    "a mantissa of pulses": turned(
        "decoder.pulses", CODEC, "FAC = (18431, 20479, 22527", "FAC = (18431, 20479, 23527"
    ),
    "a factor of ratios": turned(
        "decoder.ratios", CODEC, "INVA = (13107, 13107, 13107", "INVA = (13107, 13607, 13107"
    ),
    "a decoded gain": turned("decoder.lag-gain", CODEC, "QLB = (3277, 11469", "QLB = (3277, 12469"),
    "no interpolation": turned(
        "decoder.interpolation",
        CODEC,
        "coefficients_by_section(self.ratios, now), self.memory, residual",
        "coefficients_by_section(now, now), self.memory, residual",
    ),
    "deemphasis": turned(
        "decoder.postprocessing", CODEC, "mult_r(self.msr, 28180)", "mult_r(self.msr, 27000)"
    ),
    "octets of samples 20 higher": turned(
        "alaw.compress",
        "rules.g711",
        "octets[sample & 0xFFFF]",
        "octets[min(sample + 20, 32767) & 0xFFFF]",
    ),
    "octets of the lower interval": turned(
        "law.bound",
        "rules.g711",
        "octets[sample & 0xFFFF]",
        "octets[(sample - (sample > 0)) & 0xFFFF]",
    ),
    "octets of -x": turned(
        "alaw.compress-below-0",
        "rules.g711",
        "octets[sample & 0xFFFF]",
        "octets[(sample - (sample < 0)) & 0xFFFF]",
    ),
}

# What no turn of a number explains, while softer frames are as they came: check.py names all rules that may be broken.
SUSPECTED: Dict[str, TurnedBox] = {
    "no decoded lag above 110": turned(
        "decoder.lag-gain", CODEC, "self.lag = block.nc", "self.lag = min(block.nc, 110)"
    ),
}

# What a box makes of its line from the exchange.
SENDING: Dict[str, TurnedBox] = {
    "descriptors from the third frame of a pause on": turned(
        "send.hangover", PROFILE, "DESCRIBED_FROM = 5", "DESCRIBED_FROM = 4"
    ),
    "a hangover after 40 frames": turned(
        "send.hangover", PROFILE, "HANGOVER_AFTER = (\n    24", "HANGOVER_AFTER = (\n    40"
    ),
    "a bit of the code word": turned(
        "send.code-word",
        TRANSMIT,
        "// len(maxima)), (0,) * 13)",
        "// len(maxima)), (0,) * 12 + (4,))",
    ),
    "two block maxima": turned(
        "send.one-maximum",
        TRANSMIT,
        "return Parameters(code_ratios(lar), (block,) * 4)",
        "return Parameters(code_ratios(lar), (block,) * 3 + (block._replace(xmaxc=block.xmaxc ^ 1),))",
    ),
    "descriptors of three frames": turned(
        "send.means", PROFILE, "DESCRIPTOR_FRAMES = 4", "DESCRIPTOR_FRAMES = 3"
    ),
    "each descriptor twice": turned(
        "send.every-frame",
        TRANSMIT,
        "return SentFrame(descriptor(j), False)",
        "return SentFrame(descriptor(j - j % 2), False)",
    ),
    "SP 1 alone": turned("line.downlink", CALL, "kind_of_sp(one.sp)", "kind_of_sp(True)"),
    "SP turned": turned("line.downlink", CALL, "kind_of_sp(one.sp)", "kind_of_sp(not one.sp)"),
    "a sync bit of 0": turned(
        "line.sync", "rules.frame", '"0" * 16, "1" + control', '"0" * 16, "0" + control'
    ),
    "shifts of 5 octets a step": turned(
        "line.shift", PROFILE, "STEP_OCTETS = 4", "STEP_OCTETS = 5"
    ),
    "no lag above 99": turned(
        "encoder.lag", CODEC, "greatest = max(correlations)", "greatest = max(correlations[:60])"
    ),
    "a decision level of gains": turned("encoder.lag-gain", CODEC, "DLB = (6554,", "DLB = (9554,"),
    "the weighting filter": turned("encoder.grid", CODEC, "5741, 8192, 5741", "5741, 6192, 5741"),
    "an inverse mantissa": turned(
        "encoder.pulses", CODEC, "NRFAC = (29128, 26215, 23832", "NRFAC = (29128, 26215, 19832"
    ),
    "a factor of codes": turned(
        "encoder.ratio-codes send.means",
        CODEC,
        "A = (20480, 20480, 20480, 20480, 13964",
        "A = (20480, 20480, 18480, 20480, 13964",
    ),
    "preemphasis": turned("encoder.preemphasis", "rules.preprocessing", "-28180", "-26700"),
}
