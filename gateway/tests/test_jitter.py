"""What networks do to a stream, in packets of all sizes: stragglers, longer paths, stops, doubled packets, two sources. No C library is
needed."""

import random
import sys
import unittest
from pathlib import Path


from trau.gateway.incoming import Incoming
from trau.gateway.jitter_buffer import LIMIT, PATIENCE, WINDOW, JitterBuffer
from trau.gateway.rtp import ALAW, GSM, SAMPLES
from spoiler import header

IDLE = b"\xd5"
DEPTH = 3
LATER = 300  # the tick at which a path gets longer
REST = 10  # ticks at least from one slip to the next


def gsm_stream(depth=DEPTH, is_soft=lambda frame: False):
    return Incoming(GSM, 33, JitterBuffer(depth, bytes(33), is_soft))


def line_stream(depth=DEPTH):
    return Incoming(ALAW, 0, JitterBuffer(depth, SAMPLES * IDLE, lambda line: False))


def frame(period):
    """A frame that carries its period."""
    return b"\xd0" + period.to_bytes(4, "big") + bytes(28)


def gsm_packet(number, frames=1, source=5):
    """A packet of some frames."""
    payload = b"".join(frame(frames * number + k) for k in range(frames))
    return header(GSM, number, SAMPLES * frames * number, source) + payload


def line_packet(number, size, first=0):
    """A packet of this many octets, none idle. All but the first one are moved on by `first`, so that they are off the grid."""
    stamp = number * size + (first if number else 0)
    return header(ALAW, number, stamp, 5) + bytes([1]) * size


def played(stream, packets, ticks):
    """The periods that are played, of the packets that `packets` gives for each tick."""
    for tick in range(ticks):
        for packet in packets(tick):
            stream.packet(packet, tick, 0)
        yield stream.buffer.take(tick)


def numbers(stream, packets, ticks):
    """The periods that the played frames carry; None where nothing is played."""
    return [frame and int.from_bytes(frame[1:5], "big") for frame in played(stream, packets, ticks)]


def on_path(packet, periods, late):
    """The packets of each tick, of so many periods, on a path that gets longer by `late` ticks."""

    def packets(tick):
        sent = tick - (late if tick >= LATER else 0)
        is_held = LATER <= tick < LATER + late
        return [packet(sent // periods)] if sent % periods == periods - 1 and not is_held else []

    return packets


class Stragglers(unittest.TestCase):
    def test_two_that_are_held_back_move_nothing(self):
        for late in (5, 10, 25, 45):

            def packets(tick):
                held = [LATER, LATER + 1]
                return [
                    gsm_packet(n)
                    for n in ([] if tick in held else [tick])
                    + (held if tick == LATER + late else [])
                ]

            stream = gsm_stream()
            wanted = [n for n in range(600 - DEPTH) if n not in (LATER, LATER + 1)]
            self.assertEqual(
                [n for n in numbers(stream, packets, 600) if n is not None], wanted, late
            )
            self.assertEqual((stream.counts["late"], stream.buffer.counts["slips-back"]), (2, 0))

    def test_swapped_packets_on_a_longer_path(self):
        swapped = on_path(lambda n: gsm_packet(n ^ 1), 1, 10)
        got = numbers(gsm_stream(), swapped, 600)
        self.assertNotIn(None, got[LATER + 20 :])

    def test_two_late_descriptors_of_a_pause_move_the_playing(self):
        def packets(tick):
            sent = tick - (5 if tick >= LATER else 0)
            return [gsm_packet(sent)] if sent % 24 == 0 else []

        stream = gsm_stream()
        got = numbers(stream, packets, LATER + 24 * 8)
        self.assertEqual((stream.counts["late"], sum(n is not None for n in got[LATER:])), (1, 7))


def reordered(packet, periods, late, ticks):
    """The packets of each tick, of so many periods: `late` gives the ticks that one is late, though newer ones are in time."""
    came = [[] for _ in range(ticks + LIMIT)]
    for number in range(ticks // periods):
        sent = periods * (number + 1) - 1
        came[sent + (late(number) if sent >= LATER else 0)].append(packet(number))
    return came.__getitem__


def some(share, late, seed):
    """Late by so many ticks: a share of the packets."""
    draw = random.Random(seed)
    return lambda number: late if draw.random() < share else 0


class Reordering(unittest.TestCase):
    """Paths on which packets come late again and again while newer ones are in time."""

    def lost(self, stream, packets, ticks=2000):
        """The periods that aren't played once the path reorders; half a period counts as a half."""
        got = list(played(stream, packets, ticks))[LATER:]
        return sum(
            1 if period is None else period.count(IDLE) // (SAMPLES // 2) / 2 for period in got
        )

    def test_some_packets_are_late(self):
        for share, late, periods, most in (
            (0.1, 6, 1, 20),
            (0.03, 6, 1, 30),
            (0.1, 20, 1, 40),
            (0.1, 9, 3, 40),
        ):
            for seed in range(10):
                stream = gsm_stream()
                lost = self.lost(
                    stream,
                    reordered(
                        lambda n: gsm_packet(n, periods), periods, some(share, late, seed), 2000
                    ),
                )
                self.assertLess(lost, most, (share, late, periods, seed))
                self.assertLessEqual(
                    -stream.buffer.shift, late + periods, (share, late, periods, seed)
                )

    def test_packets_in_no_order(self):
        for most_late, most in ((8, 30), (10, 50), (15, 60)):
            for seed in range(10):
                late = random.Random(seed).randrange
                lost = self.lost(
                    gsm_stream(), reordered(gsm_packet, 1, lambda n: late(most_late), 2000)
                )
                self.assertLess(lost, most, (most_late, seed))

    def test_two_paths_in_turn(self):
        for every, late in ((2, 8), (3, 6), (7, 12)):
            lost = self.lost(
                gsm_stream(), reordered(gsm_packet, 1, lambda n: 0 if n % every else late, 2000)
            )
            self.assertLess(lost, 30, (every, late))

    def test_octets_off_the_grid(self):
        for seed in range(10):
            packets = reordered(lambda n: line_packet(n, SAMPLES, 80), 1, some(0.1, 6, seed), 2000)
            self.assertLess(self.lost(line_stream(), packets), 20, seed)

    def test_once_in_order_again_the_depth_comes_back(self):
        def late(number):
            return 0 if number % 10 or number >= 600 else 6

        for ticks, least, most in ((600, DEPTH + 3, DEPTH + 4), (2000, DEPTH, DEPTH)):
            stream = gsm_stream()
            list(played(stream, reordered(gsm_packet, 1, late, 2000), ticks))
            self.assertTrue(least <= -stream.buffer.shift <= most, (ticks, stream.buffer.shift))

    def delay(self, late, ticks, behind=0, is_soft=True):
        """The delay after so many ticks of speech that is soft or not; packets are read while the process is late by `behind`."""
        stream, packets = gsm_stream(is_soft=lambda frame: is_soft), reordered(
            gsm_packet, 1, late, ticks
        )
        for tick in range(ticks):
            for packet in packets(tick):
                stream.packet(packet, tick, behind)
            stream.buffer.take(tick)
        return -stream.buffer.shift

    def test_one_burst_moves_nothing(self):
        for count in (3, 5, 10):
            for late in (12, 20, 30):
                held = range(LATER, LATER + count)
                self.assertEqual(
                    self.delay(lambda n: late if n in held else 0, LATER + 190),
                    DEPTH,
                    (count, late),
                )

    def test_nor_do_three_late_ones_on_a_path_that_is_well_again(self):
        late = {LATER: 20, LATER + 40: 20, LATER + 80: 20}
        self.assertEqual(self.delay(lambda n: late.get(n, 0), LATER + 600, is_soft=False), DEPTH)

    def test_nor_do_packets_that_are_rarely_late(self):
        self.assertEqual(self.delay(lambda n: 0 if n % 60 else 20, LATER + 190), DEPTH)

    def test_nor_do_packets_for_which_others_would_wait_too_long(self):
        self.assertEqual(self.delay(lambda n: 0 if n % 10 else 45, LATER + 190), DEPTH)

    def test_nor_does_a_late_process(self):
        self.assertEqual(self.delay(lambda n: 0 if n % 10 else 6, LATER + 190, behind=1), DEPTH + 1)

    def test_one_that_is_later_than_others_doesnt_count(self):
        late = {LATER: 5, LATER + 10: 30, LATER + 40: 7}
        self.assertEqual(self.delay(lambda n: late.get(n, 0), LATER + 190), DEPTH + 4)

    def test_a_fourth_burst_changes_what_is_owed(self):
        buffer = JitterBuffer(DEPTH, bytes(33), lambda frame: False)
        buffer.start(0)
        owed = []
        for tick, margin in ((0, -2), (20, -1), (40, -4), (60, -3), (90, -5), (200, -9)):
            buffer.straggle(margin, tick)
            owed.append(buffer.owed)
        self.assertEqual(owed, [0, 0, -2, -3, -4, -4])

    def test_slips_back_wait_for_what_doesnt_come(self):
        late = {LATER: 5, LATER + 10: 5, LATER + 20: 5, LATER + 100: 45}
        for ticks, delay in ((LATER + 100, DEPTH), (LATER + 110, DEPTH + 2)):
            self.assertEqual(self.delay(lambda n: late.get(n, 0), ticks, is_soft=False), delay)

    def test_half_a_period_is_left_out_by_no_slip(self):
        for owed, wanted in ((1, [b"half" + 4 * IDLE, None]), (-1, [None, b"halfhalf"])):
            buffer = JitterBuffer(0, 8 * IDLE, lambda line: False)
            buffer.owed, buffer.patience = owed, PATIENCE
            got = []
            for tick in range(2):
                buffer.put(0, 4 * tick, b"half", tick)
                got.append(buffer.take(tick))
            self.assertEqual(got, wanted)


class Stalls(unittest.TestCase):
    """A path brings nothing for a while, and then all at once, of which a tick reads four packets."""

    def delays(self, length, ticks):
        """The delay after each tick. In speech there is a pause of a second each 2.5 s."""
        stream, waiting = gsm_stream(), []
        for tick in range(ticks):
            if tick % 125 < 75 or tick % 24 == 0:
                waiting.append(tick)
            if not LATER <= tick < LATER + length:
                for number in waiting[:4]:
                    stream.packet(gsm_packet(number), tick, 0)
                del waiting[:4]
            stream.buffer.take(tick)
            yield -stream.buffer.shift

    def test_the_depth_comes_back_within_14_seconds(self):
        for length in (10, 20, 40):
            delays = list(self.delays(length, LATER + length + 700))
            self.assertEqual((max(delays), delays[-1]), (length + DEPTH - 1, DEPTH), length)


class Parts(unittest.TestCase):
    """Packets of which only a part is late."""

    def test_packets_of_several_frames_on_a_longer_path(self):
        for frames in (2, 3, 4):
            for late in range(DEPTH + 1, DEPTH + 6):
                stream = gsm_stream()
                got = numbers(stream, on_path(lambda n: gsm_packet(n, frames), frames, late), 1200)
                begin = LATER + late + 3 * frames + DEPTH
                self.assertEqual(
                    got[begin:], list(range(got[begin], got[begin] + 1200 - begin)), (frames, late)
                )

    def test_octets_on_a_longer_path(self):
        for size, first in ((160, 80), (160, 20), (320, 0), (480, 0), (480, 80)):
            for late in range(DEPTH + 1, DEPTH + 6):
                stream = line_stream()
                got = list(
                    played(
                        stream,
                        on_path(lambda n: line_packet(n, size, first), size // SAMPLES, late),
                        1200,
                    )
                )
                begin = LATER + late + 3 * size // SAMPLES + DEPTH + 1
                self.assertEqual(
                    [period for period in got[begin:] if not period or IDLE in period],
                    [],
                    (size, first, late),
                )

    def test_one_that_is_late_moves_nothing(self):
        def packets(tick):
            if tick == LATER + 2:
                return []
            return (
                [gsm_packet((tick - 4) // 3 if tick == LATER + 6 else tick // 3, 3)]
                if tick % 3 == 2 or tick == LATER + 6
                else []
            )

        stream = gsm_stream()
        list(played(stream, packets, 450))
        self.assertEqual((stream.counts["late"], stream.buffer.counts["slips-back"]), (1, 0))


class Doubled(unittest.TestCase):
    def test_doubled_packets_of_any_size(self):
        for size, first in ((80, 0), (160, 0), (160, 80), (240, 0), (100, 0), (999, 37)):
            for later in (0, 2, 5, 30):  # ticks after which the second one comes
                came = [[] for _ in range(600)]
                for number in range(500 * SAMPLES // size):
                    for tick in (0, later):
                        came[number * size // SAMPLES + tick].append(
                            line_packet(number, size, first)
                        )
                stream = line_stream()
                got = list(played(stream, came.__getitem__, 500))[DEPTH + 10 :]
                self.assertEqual(
                    sum((period or IDLE).count(IDLE) for period in got), 0, (size, first, later)
                )
                self.assertEqual(
                    (stream.counts["late"], dict(stream.buffer.counts)),
                    (0, {}),
                    (size, first, later),
                )

    def test_with_loss_and_jitter(self):
        for size in (80, 100, 160, 240, 320, 480):
            draw, came, arrived = random.Random(size), [[] for _ in range(1000)], set()
            for number in range(900 * SAMPLES // size):
                for _ in range(draw.choice((1, 2))):
                    if draw.random() > 0.05:
                        came[
                            int(number * size / SAMPLES + DEPTH - 1 + draw.random() * (DEPTH - 1))
                        ].append(line_packet(number, size))
                        arrived.add(number)
            stream = line_stream()
            got = b"".join(filter(None, played(stream, came.__getitem__, 1000)))
            self.assertEqual(
                (len(got.replace(IDLE, b"")), dict(stream.buffer.counts)),
                (size * len(arrived), {}),
                size,
            )

    def test_a_late_double_of_a_part_is_doubled(self):
        stream = line_stream(0)
        for tick in (0, 0, 1, 20):
            stream.packet(line_packet(0, 80), tick, 0)
            stream.buffer.take(tick)
        self.assertEqual(dict(stream.counts), {"doubled": 3})

    def test_what_came_in_time_is_played(self):
        for seed in range(20):
            draw = random.Random(seed)
            buffer, came = JitterBuffer(0, 40 * IDLE, lambda line: False), {}
            for tick in range(200):
                for _ in range(draw.randrange(12)):
                    period, part = tick + draw.randrange(-4, 5), draw.randrange(40)
                    piece = bytes([period & 63 | 1]) * draw.randrange(1, 41 - part)
                    wanted = set(range(part, part + len(piece)))
                    places = (
                        came.setdefault(period, set())
                        if period >= tick
                        else came.get(period, set())
                    )
                    reason = "doubled" if wanted <= places else "late" if period < tick else ""
                    self.assertEqual(buffer.put(period, part, piece, tick), reason)
                    places |= wanted if not reason else set()
                got = buffer.take(tick) or 40 * IDLE
                self.assertEqual(
                    {at for at in range(40) if got[at : at + 1] != IDLE}, came.get(tick, set())
                )


class FirstOctets(unittest.TestCase):
    """What is played at a place is the first octet that came for it in time, or the filler."""

    SIZE = 8

    def buffer(self):
        return JitterBuffer(0, self.SIZE * IDLE, lambda line: False)

    def test_an_overlap_replaces_nothing(self):
        buffer = self.buffer()
        buffer.put(0, 2, b"aaaa", 0)
        self.assertEqual(buffer.put(0, 0, b"bbbb", 0), "")
        self.assertEqual(buffer.put(0, 0, b"cccccccc", 0), "")
        self.assertEqual(buffer.put(0, 0, b"dddddddd", 0), "doubled")
        self.assertEqual(buffer.take(0), b"bbaaaacc")

    def test_what_was_played_isnt_played_again(self):
        buffer = self.buffer()
        buffer.put(0, 0, b"aaaa", 0)
        self.assertEqual(buffer.take(0), b"aaaa" + 4 * IDLE)
        self.assertEqual(buffer.put(0, 0, b"bbbbbb", 1), "late")
        for margin in (-1, -1):
            buffer.follow(margin, 1)  # so the playing moves back
        self.assertEqual(buffer.put(0, 0, b"bbbbbb", 1), "")
        self.assertEqual(buffer.take(1), 4 * IDLE + b"bb" + 2 * IDLE)

    def disturbed(self, draw, buffer, tick):
        """What a path and a clock may do before a tick."""
        if draw.random() < 0.05:
            buffer.owed, buffer.patience = draw.choice((2, 1, -1, -2)), draw.randrange(3)
        if draw.random() < 0.03:
            for margin in (-1, -draw.randrange(1, 9)):
                buffer.follow(margin, tick)
        if draw.random() < 0.02:
            buffer.give_up(draw.randrange(4), tick)

    def pieces(self, draw, buffer, tick, waiting, played):
        """Pieces come; `waiting` gets the first octet of each place, unless it was played."""
        for _ in range(draw.randrange(8)):
            period, part = tick + buffer.shift + draw.randrange(-6, 6), draw.randrange(self.SIZE)
            piece = bytes(
                draw.randrange(200) for _ in range(draw.randrange(1, self.SIZE + 1 - part))
            )
            places = [(period, part + k) for k in range(len(piece))]
            is_known = all(place in waiting or place in played for place in places)
            late = period < tick + buffer.shift
            reason = "doubled" if is_known else "late" if late else ""
            self.assertEqual(buffer.put(period, part, piece, tick, draw.random() < 0.9), reason)
            for place, octet in zip(places, piece):
                if not reason and place not in played:
                    waiting.setdefault(place, octet)

    def test_by_any_deeds(self):
        for seed in range(20):
            draw, buffer, waiting, played = random.Random(seed), self.buffer(), {}, set()
            for tick in range(300):
                self.disturbed(draw, buffer, tick)
                waiting = {
                    place: octet
                    for place, octet in waiting.items()
                    if place[0] >= tick + buffer.shift
                }
                self.pieces(draw, buffer, tick, waiting, played)
                before = buffer.shift
                got = buffer.take(tick) or self.SIZE * IDLE
                for k in range(self.SIZE if buffer.shift > before else 0):
                    waiting.pop((tick + before, k), None)  # a slip left it out
                places = [(tick + buffer.shift, k) for k in range(self.SIZE)]
                played.update(place for place in places if place in waiting)
                wanted = bytes(waiting.pop(place, IDLE[0]) for place in places)
                self.assertEqual(got, wanted, (seed, tick))


class Slips(unittest.TestCase):
    STOP = 20  # ticks that the path stops, then all comes at once

    def packets(self, tick):
        stop = range(LATER, LATER + self.STOP)
        return [
            gsm_packet(n)
            for n in ([] if tick in stop else [*stop, tick] if tick == stop.stop else [tick])
        ]

    def slips(self, stream, ticks, packets=None):
        """The ticks of the slips on, and the delay at the end."""
        ticks_of, before = [], 0
        for tick, _ in enumerate(played(stream, packets or self.packets, ticks)):
            if stream.buffer.counts["slips-on"] > before:
                before = stream.buffer.counts["slips-on"]
                ticks_of.append(tick)
        return ticks_of, -stream.buffer.shift

    def test_they_are_spread_in_speech(self):
        for is_soft in (False, True):
            slips, delay = self.slips(gsm_stream(is_soft=lambda frame: is_soft), 3000)
            self.assertGreater(len(slips), 10)
            self.assertGreaterEqual(
                min(late - early for early, late in zip(slips, slips[1:])), REST
            )
            self.assertEqual(delay, DEPTH)

    def test_they_look_for_soft_frames(self):
        heard = []

        def is_soft(frame):
            heard.append(int.from_bytes(frame[1:5], "big"))
            return heard[-1] % 50 == 0

        got = numbers(
            gsm_stream(is_soft=is_soft), self.packets, LATER + self.STOP + WINDOW + PATIENCE - 1
        )
        left_out = set(range(LATER + self.STOP, max(filter(None, got)))) - set(got)
        self.assertEqual({n % 50 for n in left_out}, {0})
        self.assertGreaterEqual(len(left_out), 4)

    def test_margins_are_those_of_packets_that_are_read_in_time(self):
        stream = gsm_stream()
        for number, behind in ((0, 0), (1, 0), (1, 0), (2, 9), (3, 0)):
            stream.packet(gsm_packet(number, 2), 2 * number, behind)
        self.assertEqual(stream.buffer.margins, 3 * [DEPTH])

    def test_where_nothing_comes_they_are_made_at_once(self):
        pause = range(LATER + self.STOP + WINDOW + 20, LATER + self.STOP + WINDOW + 60)
        slips, _ = self.slips(
            gsm_stream(), 1000, lambda tick: [] if tick in pause else self.packets(tick)
        )
        self.assertGreater(len(slips), 4)
        self.assertEqual(slips, list(range(slips[0], slips[0] + len(slips))))


class Sources(unittest.TestCase):
    def test_of_two_at_once_one_is_heard_whole(self):
        for frames in (1, 2, 3, 6):
            stream = gsm_stream()
            one = on_path(lambda n: gsm_packet(n, frames), frames, 0)
            other = on_path(lambda n: gsm_packet(n + 1000, frames, 6), frames, 0)
            got = numbers(
                stream, lambda tick: [*one(tick), *(other(tick) if tick >= LATER else [])], 900
            )
            begin = DEPTH + frames - 1
            self.assertEqual((got[begin:], stream.source), (list(range(900 - begin)), 5), frames)

    def test_two_forged_packets_take_nothing_over(self):
        def packets(tick):
            forged = [gsm_packet(tick + k, source=6) for k in range(2)] if tick % 3 == 2 else []
            return forged + [gsm_packet(tick)] + forged

        self.assertEqual(numbers(gsm_stream(), packets, 600)[DEPTH:], list(range(600 - DEPTH)))

    def test_another_is_heard_when_the_first_has_ended(self):
        stream = gsm_stream()
        got = numbers(
            stream,
            lambda tick: [gsm_packet(tick) if tick < LATER else gsm_packet(tick, source=6)],
            600,
        )
        self.assertEqual((stream.source, stream.counts["new-source"]), (6, 1))
        self.assertEqual(got[DEPTH : LATER + DEPTH], list(range(LATER)))
        begin = LATER + 3 * DEPTH
        self.assertEqual(got[begin:], list(range(begin - DEPTH, 600 - DEPTH)))

    def test_what_the_first_brought_is_played(self):
        def packets(tick):
            last = [gsm_packet(n) for n in range(LATER, LATER + 20)]
            return (
                [gsm_packet(tick)]
                if tick < LATER
                else last
                if tick == LATER
                else [gsm_packet(tick, source=6)]
            )

        stream = gsm_stream()
        self.assertEqual(
            numbers(stream, packets, 400)[DEPTH : LATER + 20 + DEPTH], list(range(LATER + 20))
        )
        self.assertEqual(stream.source, 6)

    def test_what_waits_while_the_process_is_late_is_no_stillness(self):
        stream = gsm_stream()
        numbers(stream, lambda tick: [gsm_packet(tick)], 100)
        for number in range(100, 140):
            stream.packet(gsm_packet(number, source=6), 100, 39)
            stream.packet(gsm_packet(number), 100, 39)
        self.assertEqual((stream.source, len(stream.buffer.periods)), (5, 40 + DEPTH))


class Reserve(unittest.TestCase):
    def test_a_longer_path_has_the_depth_again(self):
        draw = random.Random(8)

        came = {}
        for n in range(3000):
            late = 0 if n < LATER else 10 if n < LATER + 2 else 10 + draw.randrange(DEPTH)
            came.setdefault(n + late, []).append(gsm_packet(n))
        stream = gsm_stream()
        got = numbers(stream, lambda tick: came.get(tick, []), 3000)
        self.assertEqual((stream.counts["late"], stream.buffer.counts), (1, {"slips-back": 10}))
        self.assertEqual(
            got[LATER + 2 * DEPTH + 10 :], list(range(LATER + DEPTH, 3000 - 10 - DEPTH))
        )

    def test_what_a_stop_adds_doesnt_stay(self):
        stream = gsm_stream()
        list(played(stream, Slips().packets, 3000))
        self.assertEqual(-stream.buffer.shift, DEPTH)


if __name__ == "__main__":
    unittest.main()
