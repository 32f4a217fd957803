"""Trials that are drawn from a seed: files, words and streams of one command or of a few, for the
model and for `trau`.

Lines are put together of speech, silence descriptors, losses, slips, broken sync bits and random
bits; orders are mostly such as make sense, and some that don't; in two of five trials a line, a
stream or the size of files is made to fail.
"""

import random
from pathlib import Path
from typing import Dict, List, NamedTuple, Optional, Sequence, Tuple, Union

from trau.rules import profile
from trau.rules.frame import (
    Bits,
    DownFrame,
    FrameKind,
    UpFrame,
    bits_of,
    data_of,
    kind_of_sp,
    octets_of,
    write_down,
    write_up,
)
from trau.rules.g711 import Law

TOP = Path(__file__).resolve().parents[3]

# Real speech: good uplink frames one after the other, and A-law octets.
SPEECH_UP = (TOP / "examples/7.up").read_bytes()
SPEECH_PCM = b"".join((TOP / f"examples/farm/{call}.pcm").read_bytes() for call in (1, 2, 3, 4))

FULL_DEVICE = "/dev/full"
ENDLESS_DEVICE = "/dev/zero"
# At most so many periods of all calls of a farm together, so that a trial takes some seconds at
# most.
MOST_WORK = 240


class Link(NamedTuple):
    """A link in a file's place."""

    target: str


class Folder(NamedTuple):
    """A folder in a file's place."""


Entry = Union[bytes, Link, Folder]


class Change(NamedTuple):
    """A change of what a step printed before the next step reads it: the first `old` is replaced,
    and an empty one changes nothing."""

    old: bytes
    new: bytes

    def of(self, printed: bytes) -> bytes:
        """What a step printed, so changed."""
        return printed.replace(self.old, self.new, 1) if self.old else printed


class Step(NamedTuple):
    """A command: its words, what standard input gives (None: it can't be read), where standard
    output goes."""

    words: Sequence[str]
    stdin: Optional[bytes]
    to_full_device: bool = False
    most_octets: Optional[int] = None  # the limit on the size of files, that of standard output too
    # Not None: standard input is what the step before printed, so changed, and then `stdin`.
    change: Optional[Change] = None

    def marked(self, before: bytes) -> bytes:
        """What standard input has of `before`, which the step before printed."""
        return b"" if self.change is None else self.change.of(before)


class Drawing(NamedTuple):
    """What is drawn for a trial: the files of its folders, and its steps."""

    files: Dict[str, Entry]
    steps: List[Step]


class Trial(NamedTuple):
    """Files, and the commands that are run, each in a folder of its own that has these files."""

    seed: int
    files: Dict[str, Entry]
    steps: Sequence[Step]


def draw_trial(seed: int) -> Trial:
    """The trial of a seed."""
    source = random.Random(seed)
    kinds = (run_trial, parts_trial, tool_trial, slots_trial, follow_trial, drawn_trial)
    kind = source.choices(kinds, (60, 12, 14, 4, 4, 6))[0]
    drawing = kind(source)
    if kind is not drawn_trial and source.random() < 0.4:
        drawing = with_fault(source, drawing)
    return Trial(seed, *drawing)


# Uplinks


def random_bits(source: random.Random, count: int) -> Bits:
    """So many random bits."""
    return "".join([str(source.getrandbits(1)) for _ in range(count)])


def speech_data(source: random.Random) -> Bits:
    """The data bits of a frame of real speech, or random ones."""
    if source.random() < 0.2:
        return random_bits(source, 260)
    start = source.randrange(len(SPEECH_UP) // profile.FRAME_OCTETS) * profile.FRAME_OCTETS
    return data_of(bits_of(SPEECH_UP[start : start + profile.FRAME_OCTETS]))


def random_field(source: random.Random) -> int:
    """An alignment field, mostly 0."""
    return source.choice(
        (0, 0, 0, 0, 0, 0, source.randrange(64), source.randrange(1, 40), 62, 63, 63)
    )


def uplink_frame(source: random.Random, shape: str) -> Bits:
    """The 320 bits of one period of an uplink of this shape."""
    if shape == "zeros":
        return "0" * 320
    if shape == "noise":
        return random_bits(source, 320)
    taf, dtxd = source.random() < 0.3, source.random() < 0.8
    bits = list(
        write_up(UpFrame(FrameKind(shape), taf, dtxd, random_field(source), speech_data(source)))
    )
    if source.random() < 0.1:
        for place in (
            *range(29, 31),
            *range(310, 320),
        ):  # C13 to C14, C16 to C21 and the time bits, whatever they mean
            bits[place] = str(source.getrandbits(1))
    return "".join(bits)


def with_bit_turned(frame: Bits, place: int) -> Bits:
    """A frame with the other bit at this place."""
    return frame[:place] + str(1 - int(frame[place])) + frame[place + 1 :]


def uplink_line(source: random.Random, periods: int) -> bytes:
    """An Up line of so many periods: stretches of one manner each, with slips and broken sync bits
    between them, or a hostile line."""
    if source.random() < 0.06:
        return hostile_line(source, periods)
    bits = random_bits(source, source.choice((0, 0, 0, 5, source.randrange(1, 400))))
    manners: Sequence[Sequence[str]] = (
        ("good",),
        ("good", "good", "good", "bad"),
        ("sid", "bad", "bad", "bad"),
        ("bad",),
        ("good", "sid", "invalid", "bad", "idle", "other", "zeros", "noise"),
        ("idle", "good"),
        ("zeros",),
    )
    while len(bits) < periods * 320:
        manner, rate = source.choice(manners), source.choice((0, 0, 0.1, 0.6))
        for _ in range(source.randrange(1, 25)):
            frame = uplink_frame(source, source.choice(manner))
            if source.random() < rate:
                frame = with_bit_turned(frame, source.choice((*range(16), *range(16, 320, 16))))
            bits += frame
        if source.random() < 0.3:
            bits = bits[: len(bits) - source.randrange(1, 200)]
        elif source.random() < 0.2:
            bits += random_bits(source, source.randrange(1, 400))
    return octets_of(bits[: periods * 320]) + source.randbytes(source.choice((0, 0, 1, 13, 39)))


def hostile_line(source: random.Random, periods: int) -> bytes:
    """An Up line that strains the search or the downlink: no frame at all, the same shift in each
    frame, frames that overlap."""
    field = source.choice((0, 39, 62, 63))
    frame = write_up(
        UpFrame(
            FrameKind.SPEECH, False, True, field, source.choice((speech_data(source), "1" * 260))
        )
    )
    piece = source.choice(("0" * 320, "1" * 320, frame, frame, frame[:305], frame[:316]))
    count = periods * 320 // len(piece) + 1
    return octets_of((piece * count)[: periods * 320])


def exchange_line(source: random.Random, law: Law, periods: int) -> bytes:
    """A Pcm line of so many periods of speech, silence, noise and the loudest octets, in
    stretches."""
    octets = b""
    while len(octets) < periods * profile.PCM_OCTETS:
        size = source.randrange(1, 30) * profile.PCM_OCTETS
        start = source.randrange(len(SPEECH_PCM) - size)
        speech = SPEECH_PCM[start : start + size]
        idle = bytes([law.idle()]) * size
        manners = (
            speech.translate(Law.A.table_to(law)),
            idle,
            source.randbytes(size),
            bytes(source.choices((0x2A, 0xAA, 0x00, 0x80), k=size)),
        )
        octets += source.choices(manners, (5, 3, 1, 1))[0]
    return octets[: periods * profile.PCM_OCTETS] + source.randbytes(
        source.choice((0, 0, 1, 100, 159))
    )


# Orders


class DrawnCall(NamedTuple):
    """A call of a farm that is drawn: its number, its law, its opening, and the periods of its
    lines."""

    number: int
    law: Law
    opening: int
    periods: int


class DrawnOrder(NamedTuple):
    """An order that is drawn: its stamp, and its words, which may be bad."""

    stamp: int
    words: str


def draw_members(source: random.Random) -> List[DrawnCall]:
    """One to six calls."""
    count = source.randrange(1, 7)
    numbers = source.sample(source.choice((range(1, 10), range(1, 4097))), count)
    base = source.choice((0, 0, 0, 0, 7, 4_000_000_000))
    most = MOST_WORK // count
    return [
        DrawnCall(
            number,
            source.choice((Law.A, Law.A, Law.MU)),
            base + source.choice((0, 0, source.randrange(30))),
            source.choice(
                (
                    source.randrange(most),
                    source.randrange(most // 2, most),
                    source.randrange(most // 2, most),
                    most,
                    1,
                    0,
                )
            ),
        )
        for number in numbers
    ]


def draw_orders(source: random.Random, members: Sequence[DrawnCall]) -> List[DrawnOrder]:
    """Orders by stamp: an `open` of each call, and others, some of which are refused."""
    opens = [
        DrawnOrder(
            member.opening, f"open {member.number}" + (" mulaw" if member.law is Law.MU else "")
        )
        for member in members
    ]
    orders = opens + [draw_order(source, members) for _ in range(source.choice((0, 2, 5, 10, 20)))]
    return sorted(orders, key=lambda order: order.stamp)


def draw_order(source: random.Random, members: Sequence[DrawnCall]) -> DrawnOrder:
    """An order on calls of the farm, mostly while they are open, often at an end; now and then on
    another call or another time."""
    one, other = source.choice(members), source.choice(members)
    if source.random() < 0.93:
        other = source.choice([member for member in members if member is not one] or [one])
    first = max(one.opening, other.opening)
    last = max(first, min(one.opening + one.periods, other.opening + other.periods))
    inside, anywhere = source.randrange(first, last + 1), source.randrange(last + 4)
    stamp = source.choices((inside, last, anywhere), (6, 1, 1))[0]
    call = one.number if source.random() < 0.97 else source.randrange(1, 4097)
    words = (
        f"bridge {call} {other.number}",
        f"unbridge {call}",
        f"close {call}",
        f"level {call} {source.choice((0, 1, 256, 2000, 32767, source.randrange(32768)))}",
        f"dtx {call} {source.choice(('on', 'on', 'off', 'uplink'))}",
        f"open {call}",
    )
    return DrawnOrder(stamp, source.choices(words, (8, 3, 1, 3, 4, 1))[0])


def text_of_orders(source: random.Random, orders: Sequence[DrawnOrder]) -> bytes:
    """The text of orders, now and then with a line that isn't in the grammar, or without its last
    line feed."""
    lines = [f"{stamp} {words}".encode() for stamp, words in orders]
    if source.random() < 0.06:
        bad = (
            b"",
            b"0  open 1",
            b"00 open 1",
            b"1 open 0",
            b"1 open 4097",
            b"0 dtx 1 maybe",
            b"4294967295 open 1",
            b"0 level 1 32768",
        )
        lines.insert(
            source.randrange(len(lines) + 1),
            source.choice(bad + (b"0 open 1\r", b"\xff\xfe", b"0 open 1 alaw", b"+1 open 1")),
        )
    if source.random() < 0.01:
        lines *= profile.MOST_ORDERS // len(lines) + 1
    if source.random() < 0.01:
        lines.append(b"x" * profile.MOST_MARKED_OCTETS)
    text = b"".join(line + b"\n" for line in lines)
    return text[:-1] if source.random() < 0.2 else text


def draw_farm(source: random.Random) -> Tuple[Dict[str, Entry], List[DrawnCall], bytes]:
    """The incoming lines of a farm, its calls, and its orders."""
    members = draw_members(source)
    files: Dict[str, Entry] = {}
    for member in members:
        longer = source.choice((0, 0, 3))
        up, pcm = source.choice(((0, longer), (longer, 0)))
        files[f"{member.number}.up"] = uplink_line(source, member.periods + up)
        files[f"{member.number}.pcm"] = exchange_line(source, member.law, member.periods + pcm)
        if source.random() < 0.2:
            files[f"{member.number}.{source.choice(('down', 'out'))}"] = b"older" * source.choice(
                (1, 9_000)
            )
    return files, members, text_of_orders(source, draw_orders(source, members))


# Words


def option(source: random.Random, name: str, value: int) -> List[str]:
    """An option as two words or as one."""
    return [f"--{name}", str(value)] if source.getrandbits(1) else [f"--{name}={value}"]


def pace_words(source: random.Random) -> List[List[str]]:
    """Some of the options on workers, batch and slice, each as its words."""
    values = {
        "workers": source.randrange(1, 9),
        "batch": source.choice((1, 2, 7, 50, 250)),
        "slice": source.choice((1, 3, 9, 250)),
    }
    return [option(source, name, value) for name, value in values.items() if source.random() < 0.5]


def joined(source: random.Random, command: str, options: List[List[str]]) -> List[str]:
    """A command with its options in any order, and now and then with words that are wrong."""
    source.shuffle(options)
    words = [command] + [word for one in options for word in one]
    if source.random() < 0.04:
        wrong = (
            "--",
            "--help",
            "--workers",
            "--workers=0",
            "--batch=251",
            "--slice=01",
            "--seed=1",
            "--periods=4294967296",
            "x",
            "",
            "\udcff",
        )
        words.insert(source.randrange(1, len(words) + 1), source.choice(wrong))
    return words


def periods_words(source: random.Random, members: Sequence[DrawnCall]) -> List[List[str]]:
    """`--periods` in one of four runs, around the ends of the calls."""
    first = min(member.opening for member in members)
    last = max(member.opening + member.periods for member in members)
    return (
        [option(source, "periods", source.randrange(max(first, 1), last + 5))]
        if source.random() < 0.25
        else []
    )


# Trials by kind


def run_trial(source: random.Random) -> Drawing:
    """A run; now and then with endless lines, which then have an end of the run."""
    files, members, orders = draw_farm(source)
    options = pace_words(source) + periods_words(source, members)
    if source.random() < 0.04:
        files[f"{members[0].number}.up"] = files[f"{members[0].number}.pcm"] = Link(ENDLESS_DEVICE)
        options = pace_words(source) + [
            option(source, "periods", members[0].opening + source.randrange(1, MOST_WORK))
        ]
    return Drawing(files, [Step(joined(source, "run", options), orders)])


def parts_trial(source: random.Random) -> Drawing:
    """A run in two parts, now and then with a mark or with orders that aren't those of the first
    part."""
    files, members, orders = draw_farm(source)
    first = min(member.opening for member in members)
    last = max(member.opening + member.periods for member in members)
    mark = option(source, "periods", source.randrange(max(first, 1), last + 5))
    changes = (
        (b"save ", b"save 0"),
        (b"down ", b"down 1"),
        (b" from ", b"  from "),
        (b"orders", b"order"),
        (b"\ncall ", b"\ncall 1"),
    )
    change = Change(*source.choice(changes)) if source.random() < 0.3 else Change(b"", b"")
    later = orders if source.random() < 0.9 else orders[orders.find(b"\n") + 1 :]
    rest = joined(
        source,
        "resume",
        pace_words(source) + periods_words(source, members) * (source.random() < 0.5),
    )
    steps = [
        Step(joined(source, "save", pace_words(source) + [mark]), orders),
        Step(rest, later, change=change),
    ]
    return Drawing(files, steps)


def tool_trial(source: random.Random) -> Drawing:
    """One of the commands on one call."""
    call, command = source.choice((7, 4096)), source.choice(("relay", "decode", "encode", "frames"))
    periods = source.randrange(40)
    good = [
        octets_of(write_up(UpFrame(FrameKind.SPEECH, False, True, 0, speech_data(source))))
        for _ in range(periods)
    ]
    whole = b"".join(good)
    up = (
        uplink_line(source, periods)
        if command == "frames" or source.random() < 0.2
        else whole[: len(whole) - source.choice((0, 0, 0, 1, 39))]
    )
    words = (
        [command, str(call)]
        if source.random() < 0.95
        else source.choice(([command], [command, "07"], [command, "7", "--"], [command, "4097"]))
    )
    files: Dict[str, Entry] = {
        f"{call}.up": up,
        f"{call}.pcm": exchange_line(source, Law.A, periods),
    }
    return Drawing(files, [Step(words, b"")])


def slots_trial(source: random.Random) -> Drawing:
    """A time slot that is cut or put together."""
    call, size = source.choice((1, 4093)), source.choice((0, 3, 40, 160, 1000))
    files: Dict[str, Entry] = {
        f"{call + channel}.up": source.randbytes(size + source.choice((0, 0, 1, 45)))
        for channel in range(4)
    }
    files[f"{call}.pcm"] = source.randbytes(source.randrange(900))
    words = [source.choice(("split", "merge")), str(source.choice((call, call, call, 4094)))]
    return Drawing(files, [Step(words, b"")])


def follow_trial(source: random.Random) -> Drawing:
    """A downlink of frames that stand in step, are moved or broken, followed."""
    bits = "1" * source.choice((320, 0, source.randrange(400)))
    for _ in range(source.randrange(60)):
        is_idle = source.choice((False, False, False, True))
        data, speech_kind = speech_data(source), kind_of_sp(source.random() < 0.7)
        frame = write_down(DownFrame(FrameKind.IDLE if is_idle else speech_kind, data))
        if source.random() < 0.1:
            frame = with_bit_turned(frame, source.randrange(32))
        bits += frame[: source.choice((320, 320, 320, 320, 316))] + "1" * source.choice(
            (0, 0, 0, 4, 8 * source.randrange(40))
        )
    octets = octets_of(bits[: len(bits) // 8 * 8])
    want = source.choice((0, 4, 100, 316, 6, 320))
    return Drawing({"9.up": octets}, [Step(["follow", "9", str(want)], b"")])


def drawn_trial(source: random.Random) -> Drawing:
    """A drill or a live drill."""
    calls = source.choice((1, 2, 5, 6))
    numbers = {"seed": source.choice((0, 1, 4_294_967_295, source.getrandbits(32))), "calls": calls}
    numbers["periods"] = source.randrange(1, MOST_WORK // calls)
    drawn = [option(source, name, value) for name, value in numbers.items()]
    live = [
        option(source, "callers", source.randrange(1, 9)),
        option(source, "inbox", source.choice((1, 2, 8, 1024))),
    ]
    words = joined(
        source, *source.choice((("live", drawn + live), ("drill", drawn + pace_words(source))))
    )
    return Drawing({}, [Step(words, b"", to_full_device=source.random() < 0.1)])


# Faults


def with_fault(source: random.Random, drawing: Drawing) -> Drawing:
    """The trial with one or two faults of lines, or with a fault of a stream, or a limit on the
    size of files."""
    fault = source.choice(("lines", "lines", "lines", "stdin", "stdout", "size", "size"))
    files, steps = drawing
    changed = dict(files)
    if fault == "lines":
        numbers = sorted({name.split(".")[0] for name in files if name.endswith((".up", ".pcm"))})
        for _ in range(source.choice((1, 1, 2))):
            spoil_line(source, changed, numbers)
    if fault == "size":
        limit = source.choice(
            (0, source.randrange(200), source.randrange(3_000), source.randrange(20_000))
        )
        return Drawing(changed, [step._replace(most_octets=limit) for step in steps])
    last = steps[-1]
    if fault == "stdin" and not last.change:
        last = last._replace(stdin=None)
    if fault == "stdout":
        last = last._replace(to_full_device=True)
    return Drawing(changed, [*steps[:-1], last])


def spoil_line(source: random.Random, files: Dict[str, Entry], numbers: Sequence[str]) -> None:
    """Puts something else into the place of a line's file, or nothing; `numbers` are those of the
    calls."""
    call, other = source.choice(numbers), source.choice(numbers)
    incoming, outgoing = (
        f"{call}.{source.choice(('up', 'pcm'))}",
        f"{call}.{source.choice(('down', 'out'))}",
    )
    to_write: Sequence[Entry] = (Folder(), Link(FULL_DEVICE), Link("no/where"), Link(outgoing))
    to_read: Sequence[Entry] = (
        *(b"", Folder()),
        *(Link("nowhere"), Link(incoming), Link(f"{other}.up")),
    )
    if source.random() < 0.5:
        files[outgoing] = source.choice(to_write)
    elif source.random() < 0.4:
        files.pop(incoming, None)
    else:
        files[incoming] = source.choice(to_read)
