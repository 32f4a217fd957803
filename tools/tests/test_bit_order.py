"""The order of bits of slots (trau.recordings.bit_order): never a wrong one, on each line of the
repository, damaged ones too.

A sample of the cases is tried. `test_bit_order.py --long` tries all, and lines with other time and
spare bits, and short ones.
"""

import itertools
import random
import sys
import unittest
from collections import Counter
from types import SimpleNamespace

from support import DATA, EXAMPLES

from trau.recordings import bit_order, damages
from trau.recordings.bit_order import BitWay, decide
from trau.recordings.damages import AtFrame
from trau.rules.frame import bits_of, octets_of
from trau.rules.search import FRAME_OF_DOWNLINK
from trau.rules.slots import CHANNELS, merge, octets_from, octets_turned

IS_LONG = "--long" in sys.argv
LEAST_CASES = 722  # of a long test
EVERY = 1 if IS_LONG else 23  # a sample has each 23rd case
MOST_OCTETS = 4800
SEED = 2
NO_DAMAGE = {"sid": (), "drop": (), "zero": (), "align": [], "slip": []}
DAMAGES = {
    "pauses": {"sid": "50-90,120-200"},
    "losses": {"drop": "every:5"},
    "zeros": {"zero": "every:4"},
    "slips": {"slip": [AtFrame(60, -3), AtFrame(100, 7), AtFrame(150, 1)]},
    "field": {"align": [AtFrame(5, 17)]},
    "all": {
        **{"sid": "30-80,150-190", "drop": "every:7", "zero": "every:9"},
        **{"slip": [AtFrame(100, 5)], "align": [AtFrame(20, 13), AtFrame(21, 63)]},
    },
}


def damaged(octets, changes):
    """An uplink with these damages."""
    read = {
        name: damages.frames_named(value) if isinstance(value, str) else value
        for name, value in changes.items()
    }
    return damages.damaged("up", octets, SimpleNamespace(**{**NO_DAMAGE, **read}))[0]


def lines():
    """The up- and downlinks of the repository, and damages of one."""
    found = {"7.up": (EXAMPLES / "7.up").read_bytes()}
    for number in "1234":
        found[f"{number}.up"] = (EXAMPLES / "farm" / f"{number}.up").read_bytes()
        found[f"{number}.down"] = (EXAMPLES / "farm" / "wanted" / f"{number}.down").read_bytes()
    found["osmo-kinds.up"] = (DATA / "osmo-kinds.up").read_bytes()
    for name, changes in DAMAGES.items():
        found[name] = damaged(found["7.up"], changes)
    return found


def altered(line, how, source):
    """The line with other time or spare bits in each frame, at any bit."""
    bits = list(bits_of(line))
    for found in FRAME_OF_DOWNLINK.finditer("".join(bits)):
        spare = [found.start() + place for place in (310, 312, 313, 314, 315)]
        time = range(found.start() + 316, found.end())
        for place in {"time": time, "spare": spare}[how[0]]:
            bits[place] = "0" if how[1] == "0" else source.choice("01")
    return octets_of("".join(bits))


def slots_of(line, source, channels, fills):
    """Slots that carry a line: alone in one channel beside a filling, or four together."""
    size = len(line)
    for fill in fills:
        for channel in channels if fill != "four" else (0,):
            if fill == "four":
                parts = [line[start:] + line[:start] for start in (0, 400, 800, 1210)]
            else:
                filling = {"ones": b"\xff" * size, "zeros": bytes(size), "idle": b"\x55" * size}
                parts = [filling.get(fill, source.randbytes(size))] * CHANNELS
                parts[channel] = line
            yield merge(parts)


def readings_of(slot, offsets):
    """A slot as it may be recorded, after bits of another one and in either order, and the way that
    is right."""
    for offset, turned in itertools.product(offsets, (False, True)):
        moved = octets_from(b"\xff" + slot, 8 - offset) if offset else slot
        yield octets_turned(moved) if turned else moved, BitWay(turned, offset % 2)


def cases(alteration=None, size=MOST_OCTETS):
    """All cases: recorded octets, and the right way."""
    source = random.Random(SEED)
    for name, line in lines().items():
        line = line[:size]
        if alteration:
            line = altered(line, alteration, source)
        is_first = name == "7.up" and not alteration
        channels, offsets = (range(CHANNELS), range(8)) if is_first else ((0, 3), (0, 1, 6))
        fills = (
            ("ones", "zeros", "idle", "random", "four") if is_first else ("ones", "zeros", "four")
        )
        for slot in slots_of(line, source, channels, fills):
            yield from readings_of(slot, offsets)


def outcomes(tried):
    """How many of the cases are right, undecided, wrong, or have no frames."""
    counts = Counter()
    for octets, right in tried:
        order = decide(octets)
        if not order.ways:
            counts["nothing"] += 1
        elif len(order.ways) == 1:
            counts["right" if order.ways == (right,) else "wrong"] += 1
        else:
            counts["undecided"] += 1
            counts["named"] += right in order.ways
    return counts


class NeverWrong(unittest.TestCase):
    """The order that is decided is the right one."""

    def test_lines(self):
        every = list(cases())
        self.assertGreaterEqual(len(every), LEAST_CASES)
        counts = outcomes(every[::EVERY])
        self.assertEqual((counts["wrong"], counts["nothing"]), (0, 0), counts)
        self.assertEqual(counts["undecided"], counts["named"], counts)
        self.assertLessEqual(counts["undecided"], 2, counts)

    def test_other_time_and_spare_bits(self):
        for how in itertools.product(("time", "spare"), ("0", "random")):
            counts = outcomes(itertools.islice(cases(how), 0, None, EVERY))
            self.assertEqual(counts["wrong"], 0, (how, counts))

    def test_few_frames(self):
        for frames in (4, 10, 25):
            counts = outcomes(itertools.islice(cases(size=40 * frames + 20), 0, None, EVERY))
            self.assertEqual(counts["wrong"], 0, (frames, counts))


class Rules(unittest.TestCase):
    """What is said where nothing decides."""

    def test_no_frames(self):
        for octets in (b"", b"\xff" * 3000, random.Random(SEED).randbytes(3000)):
            self.assertEqual(decide(octets), ((), bit_order.NOTHING))

    def test_a_rule_is_named(self):
        four = merge([(EXAMPLES / "7.up").read_bytes()[:2000]] * 4)
        words = [bit_order.COUNT, *(rule.word for rule in bit_order.RULES)]
        self.assertIn(decide(four).rule, words)


if __name__ == "__main__":
    unittest.main(argv=[word for word in sys.argv if word != "--long"])
