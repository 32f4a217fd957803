"""Which slot carries the sound of an uplink (trau.recordings.pairs): by equal octets, by signs, and
none where it isn't sure."""

import csv
import random
import unittest
from array import array

import e1_lines
from support import CODEC, EXAMPLES, InFolder

from trau.recordings import lines, listening, pairs, slot_pairs

LIBRARY = listening.library_beside()
PERIODS = 320
SEED = 9
STARTS = (10, 25)
DELAYS = (137, 790)


def heard(octets, seed):
    """What a transcoder that keeps to the bit makes of an uplink, with its own noise."""
    receiver, parts = LIBRARY.Receiver(seed=seed), []
    for start in range(0, len(octets), 40):
        frame, kind, taf = LIBRARY.read_uplink(octets[start : start + 40])
        parts.append(receiver.receive_line(frame, kind, taf))
    return b"".join(parts)


def noisy(line, source):
    """A-law with noise, as of another transcoder."""
    samples = LIBRARY.expand(line, "alaw")
    for at, sample in enumerate(samples):
        samples[at] = max(-32768, min(32767, sample + source.randrange(-40, 41)))
    return LIBRARY.compress(samples, "alaw")


@unittest.skipUnless(LIBRARY, "pairs need the C library")
class Pairs(InFolder):
    """Uplinks and the slots with their sound on one line."""

    def setUp(self):
        super().setUp()
        voice = (EXAMPLES / "7.up").read_bytes()
        self.uplinks = [voice[:11_200], (voice[5_600:] + voice[:5_600])[:10_400]]

    def slots(self, change=lambda line: line):
        """The slots: one with two uplinks, and one for each with its sound, after a delay."""
        channels, slots = {}, {}
        for at, octets in enumerate(self.uplinks):
            channels[2 * at] = e1_lines.channel(PERIODS, (STARTS[at], octets), bits=2 * at)
            delay = b"\xd5" * (160 * STARTS[at] + DELAYS[at])
            sound = delay + change(heard(octets, 77 + at))
            slots[20 + at] = (sound + b"\xd5" * 160 * PERIODS)[: 160 * PERIODS]
        slots[1] = e1_lines.slot(PERIODS, channels)
        return slots

    def paired(self, slots):
        """By channel: the slot with which an uplink is paired, the delay in octets, and by what."""
        name = self.path("line.e1", e1_lines.line(PERIODS, slots))
        folder = self.folder / "calls"
        status, _, err = self.run_tool(lines.main, "unpack", name, folder)
        self.assertEqual((status, err), (0, ""))
        with open(folder / "calls.csv", newline="") as file:
            rows = {row["call"]: row for row in csv.DictReader(file)}
        found = {}
        for row in rows.values():
            if row["line"] == "up":
                other = rows.get(row["pair"], {"slot": ""})
                delay = float(row["delay_ms"] or 0) * 8
                found[row["channel"]] = (other["slot"], round(delay), row["paired_by"])
        return found

    def wanted(self, how):
        """The right pairs. A channel's bits that come later are of the uplink too."""
        return {"0": ("20", DELAYS[0], how), "2": ("21", DELAYS[1] - 1, how)}

    def test_equal_octets(self):
        self.assertEqual(self.paired(self.slots()), self.wanted(pairs.EQUAL))

    def test_signs(self):
        source = random.Random(SEED)
        found = self.paired(self.slots(lambda line: noisy(line, source)))
        self.assertEqual(found, self.wanted(pairs.ALIKE))

    def test_mulaw(self):
        def to_mulaw(line):
            return LIBRARY.compress(LIBRARY.expand(line, "alaw"), "mulaw")

        self.assertEqual(self.paired(self.slots(to_mulaw)), self.wanted(pairs.ALIKE))

    def test_other_sound_isnt_paired(self):
        slots = self.slots()
        slots[20], slots[21] = slots[20][::-1], slots[21][::-1]
        self.assertEqual({how for *_, how in self.paired(slots).values()}, {""})

    def test_two_slots_with_the_same_sound_arent_sure(self):
        slots = self.slots()
        slots[25] = slots[20]
        self.assertEqual(self.paired(slots)["0"], ("", 0, ""))

    def test_decoded(self):
        found = slot_pairs.decoded(b"\xff" * 5 + self.uplinks[0], 480, LIBRARY)
        self.assertEqual(found.start, 480 + 20)
        self.assertEqual(len(found.octets), 160 * len(found.good))
        self.assertEqual(found.octets, heard(self.uplinks[0], 1))


CALLS, CALL_PERIODS, APART = 30, 170, 20
BESIDE = 10


@unittest.skipUnless(LIBRARY, "pairs need the C library")
class ManyPairs(unittest.TestCase):
    """Thirty uplinks beside the slots with the sound of all: each is paired with its own, none with
    another."""

    @classmethod
    def setUpClass(cls):
        voice = (EXAMPLES / "7.up").read_bytes() + (CODEC / "speech-en-m3.up").read_bytes()
        starts = [40 * APART * call for call in range(CALLS)]
        cls.uplinks = [(voice + voice)[start : start + 40 * CALL_PERIODS] for start in starts]
        cls.delays = [53 + 311 * call % 700 for call in range(CALLS)]

    def assert_each(self, change, how):
        """Among the slots of ten calls each is paired with its own at its delay, and with none where
        that one lacks."""
        slots = []
        for call, octets in enumerate(self.uplinks):
            sound = b"\xd5" * self.delays[call] + change(heard(octets, call)) + b"\xd5" * 900
            slots.append(pairs.SlotSound(0, sound))
        for call, octets in enumerate(self.uplinks):
            decoded = slot_pairs.decoded(octets, 0, LIBRARY)
            near = {other % CALLS: slots[other % CALLS] for other in range(call, call + BESIDE)}
            wanted = pairs.Match(call, self.delays[call], how)
            self.assertEqual(pairs.match_of(decoded, near), wanted)
            del near[call]
            self.assertIsNone(pairs.match_of(decoded, near), call)

    def test_by_equal_octets(self):
        self.assert_each(lambda line: line, pairs.EQUAL)

    def test_by_signs(self):
        samples = LIBRARY.expand(bytes(range(256)), "alaw")
        quieter = LIBRARY.compress(array("h", (sample // 2 for sample in samples)), "alaw")
        self.assert_each(lambda line: line.translate(quieter), pairs.ALIKE)


if __name__ == "__main__":
    unittest.main()
