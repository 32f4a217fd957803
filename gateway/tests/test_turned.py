"""Calls on a turned clock, and their replay: spoiled networks, all kinds of frames, levels, DTX, bridges, late ticks."""

import os
import random
import re
import struct
import threading
import time
import unittest
import unittest.mock
from pathlib import Path

from support import (
    LINE,
    SPEECH,
    InFolder,
    Turned,
    cut,
    in_python,
    open_line,
    ports_of,
    repeated,
    with_program,
)

from trau import trau_fr
from trau.command_line.words import Refusal
from trau.gateway.calls import SILENCE
from trau.gateway.live import begin
from trau.gateway.rtp import ALAW, GSM, MULAW
from trau.rules.profile import MOST_ORDERS
from spoiler import Faults, schedule

SPOILED = {
    "clean": Faults(),
    "loss 5 %": Faults(loss=0.05),
    "loss 20 %": Faults(loss=0.2),
    "jitter 80 ms": Faults(jitter=0.08),
    "swapped and doubled": Faults(swapped=0.05, doubled=0.1),
    "8040 Hz": Faults(rate=8040, jitter=0.02),
    "7960 Hz": Faults(rate=7960, jitter=0.02),
    "all": Faults(loss=0.05, jitter=0.04, swapped=0.05, doubled=0.1),
}


def descriptors():
    """Silence descriptors of a sender that hears speech below its level."""
    sender = trau_fr.Sender()
    sent = [sender.send(trau_fr.expand(period), 32767, True) for period in LINE[:80]]
    return [frame.octets for frame in sent if not frame.speech]


DESCRIPTORS = descriptors()


def damaged(frame, draw, bits):
    """A frame with this number of wrong bits behind its first four."""
    number = int.from_bytes(frame, "big")
    for place in draw.sample(range(260), bits):
        number ^= 1 << place
    return number.to_bytes(33, "big")


class Station:
    """A base station that speaks, pauses, sends nonsense or nothing, by turns."""

    def __init__(self, draw):
        self.draw, self.mode, self.count = draw, "speech", 0

    def nonsense(self):
        draw = self.draw
        return draw.choice(
            (
                draw.choice(DESCRIPTORS),
                damaged(draw.choice(DESCRIPTORS), draw, draw.randrange(21)),
                bytes(draw.randrange(256) for _ in range(33)),
                b"\xd7" + bytes(draw.randrange(256) for _ in range(32)),
            )
        )

    def frame(self):
        """What comes in the next period, or None."""
        draw = self.draw
        self.count += 1
        if draw.random() < 0.03:
            self.mode = draw.choice(("speech", "pause", "nonsense", "gone"))
        if self.mode == "speech":
            return SPEECH[self.count % len(SPEECH)]
        if self.mode == "pause":
            return draw.choice(DESCRIPTORS) if self.count % 24 == 0 else None
        return self.nonsense() if self.mode == "nonsense" else None


def packets_of(station, periods, seed):
    """The packets of a base station."""
    frames = [station.frame() for _ in range(periods)]
    return schedule(
        [frame or b"" for frame in frames],
        GSM,
        seed,
        is_sent=lambda period: frames[period] is not None,
    )


def random_lines(draw, calls, periods):
    """Lines that change calls; some are refused."""
    lines = {}
    for period in range(1, periods):
        if draw.random() < 0.15:
            one, other = draw.choice(calls), draw.choice(calls)
            lines[period] = draw.choice(
                (
                    [f"level {one} {draw.choice((0, 256, 1000, 32767))}"],
                    [f"dtx {one} {draw.choice(('on', 'off'))}"],
                    [f"bridge {one} {other}"],
                    [f"bridge {one} {other}"],
                    [f"unbridge {one}", f"bridge {one} {other}"],
                    [f"unbridge {one}"],
                    [f"bridge {one} {other}", f"unbridge {one}"],
                    [
                        open_line(calls[-1] + period),
                        f"bridge {one} {calls[-1] + period}",
                        f"close {calls[-1] + period}",
                    ],
                )
            )
    return lines


class Spoiled(InFolder):
    @with_program
    def test_spoiled_networks(self):
        periods = 150
        turned = Turned(self.folder / "rec", every=7)
        opens = []
        for call, faults in enumerate(SPOILED.values(), 1):
            is_mulaw = call % 2 == 0
            kind = MULAW if is_mulaw else ALAW
            opens.append(open_line(call, "mulaw dtx on level 900" if is_mulaw else ""))
            turned.bring(
                call,
                schedule(repeated(SPEECH, periods), GSM, call, faults, 0.013),
                schedule(repeated(LINE, periods, 20 * call), kind, call + 50, faults, 0.017),
            )
        said = turned.run({0: opens}, periods)
        self.assertEqual(sum(line.startswith("ok 0 open") for line in said), len(SPOILED))
        lines = self.assert_replays(self.folder / "rec")
        self.assertEqual(lines[-1], f"calls {len(SPOILED)} differ 0")

    def test_a_clean_network_loses_nothing(self):
        periods = 120
        turned = Turned(self.folder / "rec")
        turned.bring(
            1,
            schedule(SPEECH[:100], GSM, 1, start=0.011),
            schedule(LINE[:100], ALAW, 2, start=0.011),
        )
        turned.run({0: [open_line(1, "prime off")]}, periods)
        up = cut((self.folder / "rec/1.up").read_bytes(), 40)
        heard = [trau_fr.read_uplink(frame) for frame in up]
        self.assertEqual(
            [line.octets for line in heard if line.kind == trau_fr.Kind.SPEECH], SPEECH[:100]
        )
        self.assertIn(b"".join(LINE[:100]), (self.folder / "rec/1.pcm").read_bytes())

    def test_what_is_sent_is_what_is_recorded(self):
        periods = 60
        turned = Turned(self.folder / "rec")
        turned.bring(1, schedule(SPEECH[:50], GSM, 1), schedule(LINE[:50], ALAW, 2))
        turned.run({0: [open_line(1)]}, periods)
        to_gsm, to_pcm = turned.sent(1)
        self.assertEqual(
            b"".join(packet[12:] for packet in to_pcm), (self.folder / "rec/1.out").read_bytes()
        )
        down = cut((self.folder / "rec/1.down").read_bytes(), 40)[1:]
        self.assertEqual(
            [packet[12:] for packet in to_gsm[:-1]],
            [trau_fr.read_downlink(frame).octets for frame in down],
        )


class Kinds(InFolder):
    def run_at_random(self, seed, calls, periods):
        """A recording of calls with all kinds of frames, and lines at random."""
        draw = random.Random(seed)
        turned = Turned(self.folder / "rec", every=draw.choice((1, 5)))
        opens = []
        for call in calls:
            law = draw.choice(("", "mulaw"))
            opens.append(
                open_line(
                    call,
                    f"{law} depth {draw.randrange(5)} prime {draw.choice(('on', 'off'))}".strip(),
                )
            )
            line = repeated(LINE, periods, 17 * call)
            exchange = schedule(line, MULAW if law else ALAW, call, Faults(loss=0.03))
            turned.bring(call, packets_of(Station(draw), periods, seed + call), exchange)
        turned.run({0: opens, **random_lines(draw, calls, periods)}, periods)
        return turned

    @with_program
    def test_all_kinds_and_bridges(self):
        self.run_at_random(7, range(1, 9), 300)
        orders = (self.folder / "rec/orders.txt").read_text()
        for verb in ("bridge", "unbridge", "level", "dtx"):
            self.assertGreater(orders.count(f" {verb} "), 2)
        self.assert_replays(self.folder / "rec")


class Bridges(InFolder):
    """A bridge has at least one period: what would end it before waits until that is done."""

    def spoken(self):
        """A gateway with speech for two calls."""
        turned = Turned(self.folder / "rec")
        for call in (1, 2):
            turned.bring(
                call,
                schedule(SPEECH[:60], GSM, call),
                schedule(repeated(LINE, 60, 9 * call), ALAW, call + 9),
            )
        return turned

    def orders(self):
        """The orders of the recording but those of `open`."""
        orders = (self.folder / "rec/orders.txt").read_text().splitlines()
        return [order for order in orders if order.split()[1] not in ("open", "level", "dtx")]

    def said_if_it_ends_at_once(self, *lines):
        """What is said from the period on in which the bridge begins."""
        lines = {0: [open_line(1), open_line(2)], 20: ["bridge 1 2", *lines]}
        said = self.spoken().run(lines, 60)
        return said[said.index("ok 20 bridge 1") :]

    @with_program
    def test_its_end_waits_for_the_first_period(self):
        said = self.said_if_it_ends_at_once("unbridge 1", "level 2 900", "bridge 1 2", "counts 1")
        refused = "refused 21 bridge 1 2: its bridge ended in this very period"
        wanted = ["ok 20 bridge 1", "ok 21 unbridge 1", "ok 21 level 2", refused]
        self.assertEqual(said[:4], wanted)
        self.assertEqual(self.orders()[:2], ["20 bridge 1 2", "21 unbridge 1"])
        self.assert_replays(self.folder / "rec")

    @with_program
    def test_the_close_of_its_call_waits_for_the_first_period(self):
        said = self.said_if_it_ends_at_once("close 1", "counts 2")
        self.assertEqual([said[2], said[4]], ["ok 21 close 1", "ok 21 counts 2"])
        self.assertEqual(self.orders()[:2], ["20 bridge 1 2", "21 close 1"])
        self.assert_replays(self.folder / "rec")

    @with_program
    def test_the_end_of_the_gateway_waits_for_the_first_period(self):
        turned = self.spoken()
        for line in (open_line(1), open_line(2), "bridge 1 2"):
            turned.board.execute(line, 0)
        turned.run({}, 0)
        self.assertEqual(self.orders(), ["0 bridge 1 2", "1 close 1", "1 close 2"])
        for side, octets in (("up", 40), ("out", 160)):
            self.assertEqual((self.folder / f"rec/1.{side}").stat().st_size, octets)
        self.assert_replays(self.folder / "rec")

    def test_before_the_first_period_it_cant_end(self):
        turned, calls = Turned(self.folder / "rec"), self.folder / "calls"
        lines = [open_line(1), open_line(2), "bridge 1 2", "unbridge 2"]
        calls.write_text("".join(f"{line}\n" for line in lines))
        with self.assertRaisesRegex(Refusal, "line 4: the bridge has had no period$"):
            begin(turned.board, calls)
        self.assertFalse((self.folder / "rec").exists())


class Quiet(InFolder):
    @with_program
    def test_without_prime_nothing_goes_to_the_base_station(self):
        turned = Turned(self.folder / "rec")
        turned.bring(1, (), schedule(LINE[:40], ALAW, 2))
        turned.bring(2, (), schedule(LINE[:40], ALAW, 3))
        turned.run({0: [open_line(1, "prime off"), open_line(2)]}, 50)
        self.assertEqual([len(sent) for sent in turned.sent(1) + turned.sent(2)], [0, 50, 50, 50])
        self.assertEqual(
            trau_fr.read_uplink((self.folder / "rec/2.up").read_bytes()[:40]).octets, SILENCE
        )
        self.assert_replays(self.folder / "rec")

    def test_descriptors_leave_at_the_beginning_and_each_24th_period(self):
        turned = Turned(self.folder / "rec")
        turned.run({0: [open_line(1, "dtx on")]}, 60)
        to_gsm, _ = turned.sent(1)
        stamps = [struct.unpack_from(">I", packet, 4)[0] for packet in to_gsm]
        self.assertEqual(
            [(stamp - stamps[0] & 0xFFFFFFFF) // 160 for stamp in stamps], [0, 1, 2, 3, 4, 28, 52]
        )
        self.assertEqual([packet[1] >> 7 for packet in to_gsm], [1, 0, 0, 0, 0, 0, 0])

    def test_speech_after_a_pause_has_the_marker(self):
        turned = Turned(self.folder / "rec")
        turned.bring(1, (), schedule(LINE[60:100], ALAW, 2, start=1.0))
        turned.run({0: [open_line(1, "dtx on")]}, 90)
        to_gsm, _ = turned.sent(1)
        is_speech = [
            False,
            *(trau_fr.kind_of(packet[12:]) == trau_fr.Kind.SPEECH for packet in to_gsm),
        ]
        wanted = [int(now and not before) for before, now in zip(is_speech, is_speech[1:])]
        self.assertEqual([packet[1] >> 7 for packet in to_gsm], wanted)
        self.assertGreater(sum(wanted), 1)

    def test_a_first_frame_that_isnt_good_is_replaced(self):
        turned = Turned(self.folder / "rec")
        for call, first in enumerate(
            (bytes(33), damaged(DESCRIPTORS[0], random.Random(1), 9), SPEECH[5]), 1
        ):
            turned.bring(call, schedule([first], GSM, call), schedule(LINE[:40], ALAW, call + 3))
        turned.run({0: [open_line(call, "depth 0") for call in (1, 2, 3)]}, 50)
        first = [
            trau_fr.read_uplink((self.folder / f"rec/{call}.up").read_bytes()[:40]).octets
            for call in (1, 2, 3)
        ]
        self.assertEqual(
            (first, [len(turned.sent(call)[0]) for call in (1, 2, 3)]),
            ([SILENCE, SILENCE, SPEECH[5]], [50] * 3),
        )

    def test_a_call_that_hears_nothing_is_told(self):
        turned = Turned(self.folder / "rec")
        turned.bring(1, schedule(repeated(SPEECH, 300), GSM, 1, start=6.0), ())
        said = turned.run({0: [open_line(1)]}, 401)
        self.assertIn("call 1 gsm hears nothing at 251", said)
        self.assertIn("call 1 gsm hears again at 301", said)

    def test_why_it_hears_nothing_is_of_now(self):
        turned = Turned(self.folder / "rec")
        for call, wrong in ((1, 0), (2, 5.0)):  # when packets of another type come
            good = schedule(LINE[:50], ALAW, call, start=2.0)
            turned.bring(call, (), [*good, *schedule(LINE[:70], MULAW, call, start=wrong)])
        said = turned.run({0: [open_line(1), open_line(2)]}, 450)
        pattern = r"call (\d) pcm hears nothing at \d+(.*)"
        self.assertEqual(
            [re.match(pattern, line).groups() for line in said if "pcm hears nothing" in line],
            [("1", ""), ("2", ": other-type 70")],
        )


class Late(InFolder):
    @with_program
    def test_late_ticks(self):
        turned = Turned(self.folder / "rec")
        periods = 200
        for call in (1, 2):
            turned.bring(
                call,
                schedule(repeated(SPEECH, 400), GSM, call),
                schedule(repeated(LINE, 400), ALAW, call + 9),
            )
        board, process = turned.board, turned.board.process
        stops = {50: 0.7, 120: 3.3}

        def slow(phase, period, behind):
            process(phase, period, behind)
            turned.time.time += int(stops.pop(period, 0) * 1e9)

        board.process = slow
        said = turned.run({0: [open_line(1), open_line(2)], 121: ["bridge 1 2"]}, periods + 164)
        self.assertEqual((turned.time.clock.given_up, stops), (164, {}))
        every, first, *rest = (self.folder / "rec/clock.txt").read_text().splitlines()
        self.assertRegex(first, r"^0 at \d{4}-\d\d-\d\dT\d\d:\d\d:\d\d\.\d{3}\+00:00$")
        self.assertEqual((every, rest), ("0 every 1", ["120 given-up 164", "200 end 9"]))
        self.assertIn("given up 164 periods at 120", said)
        self.assertIn("late 135 latest 695 ms at 100", said)
        closing = next(line for line in said if line.startswith("call 1 from"))
        self.assertIn("gsm-given-up", closing)
        self.assertRegex(closing, rf" held-up {34 + 164} ")
        for word in ("late", "jumps", "slips", "missing"):
            self.assertNotIn(word, closing)
        self.assert_replays(self.folder / "rec")

    def test_no_call_is_opened_while_the_clock_is_late(self):
        turned = Turned(self.folder / "rec")
        process = turned.board.process

        def slow(phase, period, behind):
            process(phase, period, behind)
            turned.time.time += {(10, 3): 240, (90, 3): 200, (119, 3): 1_100}.get(
                (period, phase), 0
            ) * 1_000_000

        turned.board.process = slow
        lines = {
            0: [open_line(1)],
            11: [open_line(2), "level 1 300", "close 1"],
            91: [open_line(3)],
        }
        lines.update({period: [open_line(period)] for period in (30, 63, 120, 169, 170)})
        said = [line for line in turned.run(lines, 230) if line.startswith(("ok", "refused"))]
        refused = {
            f"refused {period} {open_line(call)[:80]}: the gateway was behind its clock in the last second"
            for period, call in ((11, 2), (30, 30), (120, 120), (169, 169))
        }
        wanted = {
            "ok 0 open 1",
            "ok 11 level 1",
            "ok 11 close 1",
            "ok 63 open 63",
            "ok 91 open 3",
            "ok 170 open 170",
        }
        self.assertEqual(set(said), refused | wanted)

    def test_an_overloaded_gateway_takes_no_calls(self):
        for cost in (5.5, 6, 7):  # milliseconds for each turn of 5
            turned = Turned(self.folder / f"rec{cost}")

            def slow(phase, period, behind):
                turned.time.time += int(cost * 1_000_000)

            turned.board.process = slow
            lines = {period: [f"{open_line(1)} record off", "close 1"] for period in range(2500)}
            said = turned.run({0: lines[0], **lines}, 2500)
            taken = [
                int(line.split()[1]) for line in said if line.startswith("ok") and " open " in line
            ]
            self.assertGreater(turned.time.clock.given_up, 0)
            self.assertLess(taken[-1], 101, cost)

    def test_a_gateway_near_its_limit_takes_no_calls(self):
        for cost, refusals in ((3.9, 0), (4.1, 1)):  # milliseconds for each turn of 5
            turned = Turned(self.folder / f"rec{cost}")

            def busy(phase, period, behind):
                turned.time.time += int(cost * 1_000_000)

            turned.board.process = busy
            lines = {40: [open_line(1)], 60: [open_line(2), "counts", "close 1"]}
            said = turned.run(lines, 61)
            self.assertIn("ok 40 open 1", said)
            reason = f"the gateway uses {int(cost * 20)} % of its time"
            refused = [line for line in said if line.startswith("refused 60 open 2 ")]
            self.assertEqual([line.endswith(reason) for line in refused], [True] * refusals)
            self.assertEqual(
                sum(line.endswith(f" load {int(cost * 20)} %") for line in said), 1, said
            )

    def test_the_latest_turn_is_of_the_time_since_it_was_said(self):
        turned = Turned(self.folder / "rec")
        stops = {60: 700, 130: 300}

        def slow(phase, period, behind):
            turned.time.time += stops.pop(period, 0) * 1_000_000

        turned.board.process = slow
        said = turned.run({180: ["counts"]}, 200)
        self.assertEqual(
            [line.split(" latest ")[1] for line in said if line.startswith("late ")],
            ["695 ms at 100", "295 ms at 150"],
        )
        self.assertIn(" latest 695 ms ", said[-2])


class Ends(InFolder):
    @with_program
    def test_what_is_held_at_a_fault_of_the_gateway_is_written(self):
        turned = Turned(self.folder / "rec", every=50)
        process = turned.board.process

        def faulty(phase, period, behind):
            if (period, phase) == (20, 1):
                raise MemoryError
            process(phase, period, behind)

        turned.board.process = faulty
        with self.assertRaises(MemoryError):
            turned.run({0: [open_line(1), open_line(2)]}, 60)
        self.assertEqual(
            self.assert_replays(self.folder / "rec")[1:3],
            ["call 1 periods 20 equal", "call 2 periods 20 equal"],
        )


class Recorded(InFolder):
    """Which calls go to which recording."""

    def run_two(self, lines, periods=80, words=""):
        """Two calls that speak, and these lines."""
        turned = Turned(self.folder / "rec")
        for call in (1, 2):
            turned.bring(
                call,
                schedule(SPEECH[:periods], GSM, call),
                schedule(LINE[:periods], ALAW, call + 5),
            )
        return turned, turned.run({0: [open_line(1, words)], **lines}, periods)

    def orders(self, name):
        return (self.folder / name / "orders.txt").read_text().splitlines()

    @with_program
    def test_a_new_recording_is_begun(self):
        new = self.folder / "new"
        lines = {
            20: [f"record {new}", open_line(2), "bridge 1 2"],
            40: ["level 1 300", "close 1"],
            41: [open_line(1)],
        }
        _, said = self.run_two(lines)
        self.assertIn("refused 20 bridge 1 2: the calls aren't in one recording", said)
        self.assertEqual(self.orders("rec")[3:], ["40 level 1 300", "40 close 1"])
        self.assertEqual(
            [line for line in self.orders("new") if "open" in line], ["0 open 2", "21 open 1"]
        )
        ends = [
            (self.folder / name / "clock.txt").read_text().splitlines()[-1]
            for name in ("rec", "new")
        ]
        self.assertEqual(ends, ["40 end 5", "60 end 8"])
        for name, count in (("rec", 1), ("new", 2)):
            self.assertEqual(self.assert_replays(self.folder / name)[-1], f"calls {count} differ 0")

    @with_program
    def test_a_number_that_was_used_begins_a_new_recording(self):
        (self.folder / "rec-2").mkdir()
        lines = {
            20: ["close 1", open_line(1), open_line(2)],
            30: ["close 1"],
            40: [open_line(1)],
            50: [f"record {self.folder / 'new'}"],
            60: ["close 1", open_line(1)],
            70: ["close 1", open_line(1)],
        }
        turned, said = self.run_two(lines)
        begun = [line for line in said if "begun" in line]
        names = [(20, "rec-3"), (40, "rec-4"), (70, "new-2")]
        self.assertEqual(
            begun, [f"recording {self.folder / name} begun at {period}" for period, name in names]
        )
        for name, count in (("rec", 1), ("rec-3", 2), ("rec-4", 1), ("new", 1), ("new-2", 1)):
            self.assertEqual(self.assert_replays(self.folder / name)[-1], f"calls {count} differ 0")

    def test_descriptors_are_reckoned_for_all_recordings(self):
        turned = Turned(self.folder / "rec")
        turned.board.most_descriptors = 64 + 10 * 3 + 4
        new = [f"record {self.folder / str(number)}" for number in range(2)]
        lines = [open_line(1), new[0], open_line(2), new[1], open_line(3)]
        said = turned.run({0: [*lines, "close 2", open_line(4)]}, 2)
        self.assertEqual(
            [line for line in said if line.startswith("refused")],
            [f"refused 0 {open_line(3)[:80]}: the process may have 98 descriptors alone"],
        )
        self.assertIn("ok 0 open 4", said)

    def test_recordings_that_are_written_are_forgotten(self):
        turned = Turned(self.folder / "rec")
        process, ended = turned.board.process, []

        def patient(phase, period, behind):
            process(phase, period, behind)
            for recorder in turned.board.ended:
                recorder.writer.join()
            ended.append(len(turned.board.ended))

        turned.board.process = patient
        turned.recorder.without[3] = "a file"  # so that it isn't whole
        lines = {period: ["close 1", open_line(1)] for period in range(10, 100, 10)}
        turned.run({0: [open_line(1)], **lines}, 120)
        self.assertLessEqual(max(ended), 5)
        self.assertEqual(ended[-1], 0)
        self.assertFalse(turned.board.is_whole)

    def test_the_clock_makes_no_folder(self):
        makers, really = [], Path.mkdir

        def mkdir(*given, **words):
            makers.append(threading.current_thread())
            really(*given, **words)

        turned = Turned(self.folder / "rec")
        with unittest.mock.patch.object(Path, "mkdir", mkdir):
            said = turned.run({5: [f"record {self.folder / 'new'}", open_line(1)]}, 10)
        self.assertEqual((len(makers), threading.main_thread() in makers), (1, False))
        self.assertIn("ok 5 record", said[0])
        self.assertEqual((self.folder / "new/1.out").stat().st_size, 5 * 160)

    @with_program
    def test_a_folder_that_cant_be_made(self):
        with unittest.mock.patch("trau.gateway.recorder.TO_BEGIN", 60):
            _, said = self.run_two({20: [f"record {self.folder / 'rec'}", open_line(2)]})
        self.assertIn(f"refused 20 record {self.folder / 'rec'}: File exists", said)
        self.assertEqual([line for line in said if "ended" in line], [])
        self.assertEqual(self.assert_replays(self.folder / "rec")[-1], "calls 2 differ 0")

    @with_program
    def test_a_folder_that_cant_be_made_by_a_slow_disk(self):
        is_over, really = threading.Event(), Path.mkdir

        def mkdir(*given, **words):
            is_over.wait(60)
            really(*given, **words)

        turned = Turned(self.folder / "rec")
        process = turned.board.process

        def until_40(phase, period, behind):
            process(phase, period, behind)
            if period == 40:
                is_over.set()

        turned.board.process = until_40
        lines = {
            0: [open_line(1)],
            20: [f"record {self.folder / 'rec'}", open_line(2)],
            50: [f"record {self.folder / 'new'}", "close 2"],
        }
        with unittest.mock.patch.object(Path, "mkdir", mkdir), unittest.mock.patch(
            "trau.gateway.recorder.TO_BEGIN", 0
        ):
            said = turned.run(lines, 80)
        self.assertIn(f"ok 20 record {self.folder / 'rec'}", said)
        self.assertIn(f"recording {self.folder / 'rec'} ended: File exists", said)
        self.assertEqual(
            self.assert_replays(self.folder / "rec"),
            ["call 1 periods 80 equal", "calls 1 differ 0"],
        )

    @with_program
    def test_a_name_that_no_folder_can_have(self):
        _, said = self.run_two({20: ["record a\0b"], 21: [open_line(2)]})
        self.assertIn("refused 20 record a\0b: a folder's name has no NUL", said)
        self.assertEqual(self.assert_replays(self.folder / "rec")[-1], "calls 2 differ 0")

    def test_a_name_that_isnt_utf_8(self):
        new = self.folder / os.fsdecode(b"caf\xe9")
        with unittest.mock.patch("trau.gateway.recorder.TO_BEGIN", 60):
            _, said = self.run_two({20: [f"record {new}", open_line(2)]}, 30)
        self.assertIn("ok 20 record", said[1])
        self.assertEqual((new / "2.out").stat().st_size, 10 * 160)

    @with_program
    def test_after_a_full_disk(self):
        lines = {
            20: ["close 1", open_line(1)],
            30: ["close 1", f"record {self.folder / 'new'}", open_line(2)],
        }
        turned = Turned(self.folder / "rec")
        turned.recorder.fail("No space left on device")
        turned.recorder.orders = MOST_ORDERS
        said = turned.run({0: [open_line(1)], **lines}, 50)
        self.assertEqual([line for line in said if line.startswith("refused")], [])
        self.assertEqual(
            self.assert_replays(self.folder / "new"),
            ["call 2 periods 20 equal", "calls 1 differ 0"],
        )

    def test_a_recording_that_has_ended_is_said(self):
        turned = Turned(self.folder / "rec")
        turned.recorder.fail("No space left on device")
        ended = f"recording {self.folder / 'rec'} ended: No space left on device"
        lines = [open_line(1), open_line(2, "record on"), open_line(3, "record off")]
        said = turned.run({0: [*lines, "counts 1", "counts 3", "counts"]}, 4)
        self.assertEqual(said[1:3], [f"call 1 isn't recorded: {ended}", "ok 0 open 1"])
        self.assertTrue(said[3].endswith(f": {ended}"), said[3])
        self.assertEqual(said[4], "ok 0 open 3")
        self.assertRegex(said[5], f"^call 1 .*, not recorded: {ended}$")
        self.assertRegex(said[7], "^call 3 .* sent 0$|^call 3 from 0 at 0$")
        self.assertRegex(said[9], f"^at 0 calls 2 .* load 0 %, {ended}$")

    def test_a_folder_that_is_moved(self):
        turned = Turned(self.folder / "rec")
        process = turned.board.process

        def moving(phase, period, behind):
            if (period, phase) == (10, 0):
                (self.folder / "rec").rename(self.folder / "moved")
            process(phase, period, behind)

        turned.board.process = moving
        said = turned.run({0: [open_line(1)], 20: [open_line(2)]}, 30)
        self.assertEqual([line for line in said if "ended" in line], [])
        sizes = [(self.folder / f"moved/{call}.out").stat().st_size for call in (1, 2)]
        self.assertEqual(sizes, [30 * 160, 10 * 160])
        self.assertEqual((self.folder / "moved/clock.txt").read_text().splitlines()[-1], "30 end 8")

    def without_files(self):
        """A gateway in which the files of call 2 can't be made; period 10 waits until that is known."""
        turned = Turned(self.folder / "rec")
        (self.folder / "rec/2.pcm").touch()
        process = turned.board.process

        def patient(phase, period, behind):
            process(phase, period, behind)
            while period == 10 and not turned.recorder.without:
                time.sleep(0.001)

        turned.board.process = patient
        return turned

    def test_a_file_that_cant_be_opened_ends_its_call_alone(self):
        turned = self.without_files()
        said = turned.run(
            {0: [open_line(1), open_line(2)], 29: ["counts 2", "close 2"], 30: [open_line(3)]}, 40
        )
        self.assertEqual(
            [line for line in said if "isn't recorded" in line or "ended" in line],
            ["call 2 isn't recorded: File exists"],
        )
        self.assertIn(", not recorded: File exists", said[said.index("ok 29 counts 2") - 1])
        sizes = [(self.folder / f"rec/{call}.out").stat().st_size for call in (1, 3)]
        self.assertEqual(sizes, [40 * 160, 10 * 160])
        left = sorted(path.name for path in (self.folder / "rec").glob("2.*"))
        self.assertEqual(left, ["2.pcm"])
        self.assertTrue((self.folder / "rec/clock.txt").read_text().endswith("40 end 12\n"))
        self.assertFalse(turned.recorder.is_whole)

    @with_program
    def test_a_call_without_files_joins_no_recorded_one(self):
        said = self.without_files().run({0: [open_line(1), open_line(2)], 20: ["bridge 1 2"]}, 40)
        self.assertIn("refused 20 bridge 1 2: the calls aren't in one recording", said)
        status, lines = self.checked(self.folder / "rec")
        named = "call 2 periods 0 a line is short or missing"
        self.assertEqual((status, lines[:2]), (1, [named, "call 1 periods 40 equal"]))

    @with_program
    def test_calls_that_arent_recorded(self):
        lines = {
            1: [open_line(2, "record off"), open_line(3)],
            20: ["bridge 1 3", "bridge 1 2"],
            60: ["close 2", open_line(2)],
        }
        turned, said = self.run_two(lines, words="record off")
        self.assertEqual(
            [line for line in said if "bridge" in line],
            ["refused 20 bridge 1 3: the calls aren't in one recording", "ok 20 bridge 1"],
        )
        self.assertEqual(
            [line for line in self.orders("rec") if "open" in line], ["1 open 3", "60 open 2"]
        )
        self.assertEqual(len(turned.sent(1)[1]), 80)
        self.assertFalse((self.folder / "rec/1.up").exists())
        self.assert_replays(self.folder / "rec")

    def test_what_the_network_did(self):
        turned = Turned(self.folder / "rec")
        turned.bring(
            1,
            schedule(SPEECH[:150], GSM, 1, Faults(loss=0.1, doubled=0.1)),
            schedule(LINE[:20], ALAW, 2),
        )
        with unittest.mock.patch("trau.gateway.switchboard.HOUR", 70):
            turned.run({0: [open_line(1)]}, 150)
        events = (self.folder / "rec/events.txt").read_text().splitlines()
        self.assertEqual(
            [line.split()[0] for line in events], ["1", "51", "101", "150"][-len(events) :]
        )
        for line in events:
            self.assertRegex(line, r"^\d+ call 1( gsm-(missing|doubled) \d+)+$")
        clock = (self.folder / "rec/clock.txt").read_text().splitlines()
        self.assertEqual(
            [line.split()[:2] for line in clock[1:]],
            [["0", "at"], ["70", "at"], ["140", "at"], ["150", "end"]],
        )

    def test_what_isnt_played_is_no_event(self):
        turned = Turned(self.folder / "rec")
        speech = schedule(SPEECH[:60], GSM, 1)
        events = [
            (time, bytes((packet[0], 101)) + packet[2:16]) if 20 <= k < 30 else (time, packet)
            for k, (time, packet) in enumerate(speech)
        ]
        turned.bring(1, events, schedule(LINE[:60], ALAW, 2))
        said = turned.run({0: [open_line(1)]}, 70)
        self.assertIn(" gsm-other-type 10 gsm-packets 60 ", said[-1])
        self.assertNotIn("missing", (self.folder / "rec/events.txt").read_text())


class Types(InFolder):
    @with_program
    def test_payload_types_of_the_line_open(self):
        turned = Turned(self.folder / "rec")
        turned.bring(1, schedule(SPEECH[:60], 96, 1), schedule(LINE[:60], 120, 2))
        turned.bring(2, schedule(SPEECH[:60], GSM, 3), schedule(LINE[:60], ALAW, 4))
        words = "gsm-type 96 pcm-type 120"
        said = turned.run({0: [open_line(1, words), open_line(2, words)]}, 70)
        sent = [{packet[1] & 127 for packet in packets} for packets in turned.sent(1)]
        self.assertEqual(sent, [{96}, {120}])
        self.assertIn(" speech 61 ", said[-2])
        self.assertRegex(said[-1], "gsm-other-type 60 .*pcm-other-type 60 ")
        self.assert_replays(self.folder / "rec")


class Symmetric(InFolder):
    @with_program
    def test_a_peer_behind_an_address_translator(self):
        turned, there = Turned(self.folder / "rec"), ("10.0.0.7", 4000)
        gsm, pcm = ports_of(1)
        turned.network.bring(gsm, there, schedule(SPEECH[:60], GSM, 1))
        turned.network.bring(pcm, ("127.0.0.1", pcm + 1), schedule(LINE[:60], ALAW, 2))
        said = turned.run({0: [open_line(1, "from any")], 40: ["counts 1"]}, 70)
        ends = [turned.network.endpoints[port].peer for port in (gsm, pcm)]
        self.assertEqual(ends, [there, ("127.0.0.1", pcm + 1)])
        self.assertRegex(said[-3], " gsm-moved 1 gsm-packets 40 ")
        self.assert_replays(self.folder / "rec")


class Lines(InFolder):
    def test_refusals(self):
        turned = Turned(self.folder / "rec")
        first = [open_line(n) for n in (1, 2, 3)] + [
            open_line(1),
            "close 9",
            "bridge 1 1",
            "bridge 1 2",
            "bridge 3 2",
            "unbridge 3",
        ]
        first += ["level 1 32768", "level 1", "dtx 1 x", "what", "open"]
        said = turned.run(
            {
                0: first,
                1: ["unbridge 1", "bridge 1 3"],
                2: ["bridge 1 3", "close 1", "bridge 3 2"],
                3: [open_line(1)],
            },
            4,
        )
        refusals = [line.split(": ", 1)[1] for line in said if line.startswith("refused")]
        self.assertEqual(
            refusals[:5],
            [
                "the call is open",
                "the call isn't open",
                "a bridge of a call with itself",
                "the call is bridged",
                "the call isn't bridged",
            ],
        )
        self.assertEqual(
            refusals[-2:],
            ["its bridge ended in this very period"] * 2,
        )
        self.assertEqual(len(refusals), 12)

    def test_nonsense(self):
        draw = random.Random(9)
        words = (
            "open close level dtx bridge unbridge gsm pcm mulaw depth prime strict on off".split()
        )
        words += "1 2 3 0 -1 99999 10.0.0.1:5 :: \x00 é ٣".split()
        words += [f"{port}" for port in ports_of(1)] + ["127.0.0.1:7"]
        sizes = (1, 2, 3, 3, 3, 12)
        lines = {
            k: [" ".join(draw.choices(words, k=draw.choice(sizes))) for _ in range(40)]
            for k in range(200)
        }
        turned = Turned(self.folder / "rec")
        said = turned.run({**lines, 0: [open_line(1), open_line(2)]}, 200)
        self.assertGreater(sum(line.startswith("ok") for line in said), 5)
        self.assertGreater(sum(line.startswith("refused") for line in said), 7900)

    def test_counts_of_calls_that_are_open(self):
        turned = Turned(self.folder / "rec")
        turned.bring(
            1, schedule(SPEECH[:30], GSM, 1, Faults(loss=0.2)), schedule(LINE[:30], ALAW, 2)
        )
        said = turned.run(
            {0: [open_line(1)], 40: ["counts 1", "counts 2", "counts", "counts 1 2"]}, 50
        )
        first = said.index("ok 40 counts 1")
        self.assertRegex(
            said[first - 1],
            r"^call 1 from 0 at 40 .* gsm-missing 4 gsm-packets 26 gsm-sent 40 pcm-packets 30 pcm-sent 40$",
        )
        self.assertEqual(said[first + 1], "refused 40 counts 2: the call isn't open")
        self.assertRegex(
            said[first + 2],
            r"^at 40 calls 1 late 0 latest 0 ms given-up 0 dropped 0 processor \d+\.\d\d s load 0 %$",
        )
        self.assertRegex(said[first + 4], "^refused 40 counts 1 2: it isn't open, close")
        self.assertEqual(sum(line.startswith("call 1 from 0 to 50 ") for line in said), 1)
        self.assertNotIn("counts", (self.folder / "rec/orders.txt").read_text())

    @in_python
    def test_a_fault_is_named(self):
        turned = Turned(self.folder / "rec")
        turned.bring(1, schedule(SPEECH[:30], GSM, 1), schedule(LINE[:30], ALAW, 2))

        def packet(data, tick, behind):
            raise OSError(28, "No space\nleft")

        process = turned.board.process

        def faulty(phase, period, behind):
            if period == 10:
                turned.board.connections[1].call.gsm.packet = packet
            process(phase, period, behind)

        turned.board.process = faulty
        said = turned.run({0: [open_line(1)], 40: ["counts 1"]}, 110)
        named = ", gsm-fault: No space left"
        self.assertEqual(
            [
                line.endswith(f" pcm-sent {sent}{named}")
                for sent, line in zip((40, 110), said[-3::2])
            ],
            [True, True],
            said,
        )
        events = [
            line
            for line in (self.folder / "rec/events.txt").read_text().splitlines()
            if "fault" in line
        ]
        self.assertEqual(len(events), 1)
        self.assertRegex(events[0], rf"^51 call 1 .*gsm-fault 20{named}$")

    def test_the_most_calls(self):
        turned = Turned(self.folder / "rec")
        turned.board.most_calls = 2
        said = turned.run({0: [open_line(n) for n in (1, 2, 3)], 1: ["close 1", open_line(4)]}, 2)
        self.assertEqual(sum(line.endswith(": 2 calls are open") for line in said), 1)
        self.assertIn("ok 1 open 4", said)

    def test_a_recording_that_is_full(self):
        turned = Turned(self.folder / "rec")
        board, recorder = turned.board, turned.recorder

        def fill(phase, period, behind):
            recorder.orders = MOST_ORDERS - 2 if period == 1 else recorder.orders
            process(phase, period, behind)

        process, board.process = board.process, fill
        said = turned.run(
            {0: [open_line(1)], 2: [open_line(2), "level 1 5", "dtx 1 on", "close 1"]}, 4
        )
        full = [line.split()[2] for line in said if line.endswith("as many orders as a run takes")]
        self.assertEqual((full, recorder.orders), (["dtx"], MOST_ORDERS))
        self.assertIn("ok 2 close 1", said)
        self.assertIn(f"recording {self.folder / 'rec-2'} begun at 2", said)

    def test_both_calls_of_a_bridge_are_in_one_phase(self):
        turned = Turned(self.folder / "rec")
        phases = []
        process = turned.board.process

        def seen(phase, period, behind):
            process(phase, period, behind)
            phases.append(
                (period, sorted(each.phase for each in turned.board.connections.values()))
            )

        turned.board.process = seen
        turned.run({0: [open_line(n) for n in (1, 2, 3, 4)], 3: ["bridge 2 4"]}, 5)
        self.assertEqual((phases[0], phases[-1]), ((0, [0, 1, 2, 3]), (4, [0, 1, 1, 2])))
        self.assertEqual(turned.network.phases, {})

    def test_phases_are_balanced_after_bridges(self):
        turned, calls = Turned(self.folder / "rec"), range(1, 9)
        seen, process = {}, turned.board.process

        def looked(phase, period, behind):
            process(phase, period, behind)
            seen[period] = sorted(each.phase for each in turned.board.connections.values())

        turned.board.process = looked
        bridges = [f"bridge {call} {call + 1}" for call in (1, 3, 5, 7)]
        again = [f"unbridge {call}" for call in (1, 3, 5, 7)]
        other = [f"bridge {one} {two}" for one, two in ((1, 5), (3, 7), (2, 6), (4, 8))]
        lines = {0: [open_line(n) for n in calls], 1: bridges, 2: again, 3: other}
        turned.run(lines, 5)
        self.assertEqual(list(seen.values()), [[0, 0, 1, 1, 2, 2, 3, 3]] * 5)


if __name__ == "__main__":
    unittest.main()
