"""The numbers of this project's profile, each once: what the standards leave open, and this project
chose.

Tables that a standard has stand where they are used: GSM 06.10 in `parameters` and the model's
`codec`, GSM 08.60 in `frame`, G.711 in `g711`, RFC 3551 in `payload_types`.
"""

from typing import Dict, NamedTuple

# Lines (docs/FILES.md). Octets in a period of 20 ms; an octet of an idle line to the exchange.
FRAME_OCTETS = 40
PCM_OCTETS = 160
PERIODS_A_SECOND = 50
SAMPLES_A_SECOND = 8000
FRAME_BITS = 320
IDLE_A = 0xD5
IDLE_MU = 0xFF

# Numbers of calls, of periods, and the most blocks that a command on one call takes.
MOST_CALLS = 4096
MOST_STAMP = 4_294_967_294
MOST_PERIODS = 4_294_967_295

# Patterns of C1 to C5 (docs/FILES.md, "Control bits").
UP_SPEECH = "00010"
UP_IDLE = "10000"
UP_OTHER = "11111"  # what is written where a frame of another kind is written
DOWN_SPEECH = "11100"
DOWN_IDLE = "01110"

# The search for frames on an uplink: so many misses in a row end the lock.
MISSES_TO_HUNT = 3

# The source of random numbers of a call: r becomes (STEP r + ADD) mod MODULUS, and starts at the
# call's number.
RANDOM_STEP = 25173
RANDOM_ADD = 13849
RANDOM_MODULUS = 65536

# Lost speech (modelled on GSM 06.11) and comfort noise (modelled on GSM 06.12).
SILENT_FROM_LOST = 17  # the lost frame from which on there is silence
SILENT_FROM_FALL = 17  # the period of a fall of noise from which on there is silence
MUTING_STEP = 4  # by how much the coded block maxima fall with each frame
GRID_VALUES = 4  # grid positions among which one is drawn
NOISE_LAGS = (40, 120, 40, 120)
PULSE_VALUES = 6  # values of a pulse of noise that are drawn, from LEAST_PULSE on
LEAST_PULSE = 1
APPROACH_STEPS = 8  # frames over which noise approaches a new silence descriptor
FALL_FROM_MISSED = 2  # descriptors that were due and didn't come, from which on noise falls

# The frame of silence: what is heard of the quiet codec.
SILENCE_LARC = (42, 39, 21, 10, 9, 4, 3, 2)
SILENCE_LAG = 40
SILENCE_GRID = 1
SILENCE_PULSES = (3, 4, 3, 4, 4, 3, 3, 3, 3, 4, 4, 3, 3)

TAF_PERIODS = 24  # from one silence descriptor of a pause to the next (GSM 06.31)

# Discontinuous transmission (modelled on GSM 06.31 and 06.32).
FIRST_LEVEL = 256  # a frame is speech from this peak on, before any order
MOST_LEVEL = 32767
# the frame of a pause for which its first descriptor is made; those before it may be a hangover
DESCRIBED_FROM = 5
DESCRIPTOR_FRAMES = 4  # the frames that a descriptor is made of
HANGOVER_AFTER = (
    24  # frames from a new descriptor to the first frame of a pause that has a hangover
)

# Time alignment (modelled on GSM 08.60). A shift is counted in octets of the Pcm line, two bits of
# the downlink each.
MOST_STEPS = 39  # the alignment fields 1 to 39 ask for so many steps
STEP_OCTETS = 4
SMALL_DELAY_FIELD = 62
SMALL_DELAY_OCTETS = 2
ADVANCE_FIELD = 63
ADVANCE_OCTETS = -2
LEADING_ONES = 320  # ones at the start of a Down line, before the first frame

# Time slots: four channels, two bits each of an octet.
CHANNELS = 4
MOST_SLOT_CALL = MOST_CALLS - CHANNELS + 1

# The base station's end (docs/commands/follow.md).
FOUND_BITS = 316  # a downlink frame may lack its four time bits
MOST_WANTED = 316
WANTED_STEP = 4
FRAMES_OF_WAIT = 8  # frames after which a request that wasn't met is made again

# Orders and texts (docs/OPERATORS.md, docs/FILES.md).
MOST_ORDER_OCTETS = 1_048_576
MOST_ORDERS = 65_536
MOST_MARKED_OCTETS = 1_310_720  # a mark and its orders together
SUM_MODULUS = 1 << 32  # of the sums of octets in a mark, a drill and a live drill


class OptionRange(NamedTuple):
    """The least value of an option and the greatest, the value without the option, and whether it
    has to be there."""

    least: int
    most: int
    default: int
    is_required: bool = False


# Options of the commands.
PACE_OPTIONS = {
    "workers": OptionRange(1, 64, 4),
    "batch": OptionRange(1, 250, 50),
    "slice": OptionRange(1, 250, 5),
}
DRAWN_OPTIONS = {
    "seed": OptionRange(0, 4_294_967_295, 1),
    "calls": OptionRange(1, 256, 64),
    "periods": OptionRange(1, 1_000, 200),
}
END_OF_RUN = OptionRange(1, MOST_PERIODS, MOST_PERIODS)
OPTIONS: Dict[str, Dict[str, OptionRange]] = {
    "run": {**PACE_OPTIONS, "periods": END_OF_RUN},
    "resume": {**PACE_OPTIONS, "periods": END_OF_RUN},
    "save": {**PACE_OPTIONS, "periods": END_OF_RUN._replace(is_required=True)},
    "drill": {**PACE_OPTIONS, **DRAWN_OPTIONS},
    "live": {**DRAWN_OPTIONS, "callers": OptionRange(1, 64, 4), "inbox": OptionRange(1, 1_024, 8)},
}

# What a drill draws (docs/commands/drill.md). The generator: x becomes (FACTOR x + ADD) mod
# MODULUS.
DRILL_FACTOR = 1_664_525
DRILL_ADD = 1_013_904_223
DRILL_MODULUS = 1 << 32
DRILL_CALLS = 4_096  # call C begins at the seed times this, plus C
DRILL_DRAWS = 256  # a draw is the highest octet of the generator
# The frame on Up: from which draw on it is of which kind (frame.py); None: no frame.
DRILL_FRAMES = (
    (250, None),
    (244, "idle"),
    (230, "bad"),
    (220, "invalid"),
    (200, "sid"),
    (0, "good"),
)
# the alignment fields that draws stand for; any other draw stands for 0
DRILL_FIELDS = {
    0: 39,
    1: 63,
}
DRILL_TAF_PERIODS = 24  # TAF is 1 in the last of each
DRILL_PCM_PERIODS = 32  # so many periods of an idle Pcm line and as many that are drawn, in turn
DRILL_BRIDGE_CALLS = 4  # of each four calls the first is bridged with the next
