"""Tests of timeline.py: its search against the reports of four recorded farms, its shifts against their downlinks, the
picture and the page, and what is refused."""

import base64
import json
import math
import re
import shutil
import unittest
import zlib
import xml.etree.ElementTree as ElementTree
from collections import Counter
from itertools import groupby

from support import CODEC, EXAMPLES, TOP, InFolder

from trau.runs import levels
from trau.pictures import layout
from trau.pictures import looks
from trau.pictures import picture
from trau.pictures import rows
from trau.pictures import svg
from trau.pictures import timeline
from trau.rules.frame import FrameKind, bits_of
from trau.rules.g711 import Law
from trau.rules.orders import Order
from trau.rules.report import ReportedBridge, Reply, ReportedCall
from trau.rules.search import FRAME_OF_DOWNLINK
from trau.runs.run_lines import Answered, RecordedCall, Run
from trau.runs.uplink_periods import FRAME_KINDS

SVG = "{http://www.w3.org/2000/svg}"


def lay(name, folder):
    """Lays a recorded farm into a folder, as checks/farms.sh does: incoming lines, orders, downlinks and the report."""
    sources = [TOP / "checks" / "farms" / name]
    if name == "mixed":
        sources = [EXAMPLES / "farm", EXAMPLES / "farm" / "wanted"]
    for source in sources:
        for file in source.iterdir():
            if re.fullmatch(r"\d+\.(up|pcm|down|out)|orders\.txt|report\.txt", file.name):
                shutil.copyfile(file, folder / file.name)
    if name == "harsh":
        for call in range(1, 6):
            shutil.copyfile(CODEC / f"farm-{call}.up", folder / f"{call}.up")
        shutil.copyfile(CODEC / "farm-report.txt", folder / "report.txt")


def levels_of(octets, law=Law.A):
    """The level of each whole period of a line."""
    return [levels.level_of_sum(total, law) for total in levels.sums(octets, law)]


class Parts(unittest.TestCase):
    def test_digital_milliwatt(self):
        # G.711: these eight octets again and again are a sine of 1000 Hz at 0 dBm0.
        octets = 20 * bytes([0x34, 0x21, 0x21, 0x34, 0xB4, 0xA1, 0xA1, 0xB4])
        self.assertAlmostEqual(levels_of(octets)[0], 0, places=1)
        self.assertEqual(len(levels_of(3 * octets + octets[:9])), 3)
        self.assertLess(levels_of(160 * bytes([0xD5]))[0], -66)

    def test_digital_milliwatt_of_mulaw(self):
        octets = 20 * bytes([0x1E, 0x0B, 0x0B, 0x1E, 0x9E, 0x8B, 0x8B, 0x9E])
        self.assertAlmostEqual(levels_of(octets, Law.MU)[0], 0, places=1)
        self.assertEqual(levels_of(160 * bytes([0xFF]), Law.MU), [-math.inf])

    def columns(self, values, losses, size):
        """The stretches of columns of looks, with a height of ten steps."""
        codes = bytes(looks.CODES[look] for look in values)
        return list(looks.columns(codes, looks.UplinkLook, losses, size, 10))

    def test_a_column_shows_losses_in_proportion(self):
        values = 100 * [looks.UplinkLook.SPEECH]
        values[41], values[44], values[46] = (
            looks.UplinkLook.MISSED,
            looks.UplinkLook.UNUSABLE,
            looks.UplinkLook.VALID_SID,
        )
        values[70:76] = 6 * [looks.UplinkLook.VALID_SID]
        values[80:87] = 7 * [looks.UplinkLook.UNUSABLE]
        stretches = self.columns(values, looks.LOSSES, 10)
        ends = [(each.start, each.end) for each in stretches]
        self.assertEqual(ends, [(0, 40), (40, 50), (50, 70), (70, 80), (80, 90), (90, 100)])
        shown = [
            " ".join(f"{part.look.name} {part.steps}" for part in each.parts) for each in stretches
        ]
        self.assertEqual(
            shown,
            [
                "SPEECH 10",
                "SPEECH 8 UNUSABLE 1 MISSED 1",
                "SPEECH 10",
                "VALID_SID 10",
                "SPEECH 3 UNUSABLE 7",
                "SPEECH 10",
            ],
        )
        self.assertEqual(stretches[3].said(), "speech, 4 periods, silence descriptor, 6 periods")
        self.assertEqual(
            list(looks.columns(bytes([9]) * 7, looks.DownlinkLook, looks.DOWN_LOSSES, 3, 10)), []
        )

    def test_one_loss_of_thousands_is_seen(self):
        parts = looks.parts_of(
            {looks.UplinkLook.SPEECH: 9999, looks.UplinkLook.MISSED: 1}, looks.LOSSES, 10
        )
        self.assertEqual(parts, ((looks.UplinkLook.SPEECH, 9), (looks.UplinkLook.MISSED, 1)))
        parts = looks.parts_of(
            {looks.UplinkLook.UNUSABLE: 9999, looks.UplinkLook.MISSED: 1}, looks.LOSSES, 10
        )
        self.assertEqual(sum(part.steps for part in parts), 10)
        self.assertEqual(parts[-1].steps, 1)

    def test_what_came_before(self):
        kinds = "bad sid bad good bad miss bad idle bad other bad good none bad".split()
        codes = looks.looks(bytes(FRAME_KINDS.index(FrameKind(word)) for word in kinds))
        wanted = "quiet sid pause good bad miss bad idle quiet other quiet good none bad".split()
        words = [*(kind.value for kind in FRAME_KINDS), "pause", "quiet"]
        self.assertEqual([words[code] for code in codes], wanted)
        names = [kind.name for kind in FRAME_KINDS]
        self.assertEqual([look.name for look in looks.UplinkLook], [*names, "PAUSE", "QUIET"])

    def test_one_colour_a_meaning(self):
        meanings = {look.colour: look.words for look in (*looks.UplinkLook, *looks.DownlinkLook)}
        self.assertEqual(
            len(meanings), len({look.words for look in (*looks.UplinkLook, *looks.DownlinkLook)})
        )
        self.assertFalse(
            set(meanings) & {rows.OUT_COLOUR, rows.PCM_COLOUR, rows.BRIDGE_COLOUR, svg.ALARM}
        )

    def test_partners_are_neighbours(self):
        self.assertEqual(looks.order_of_rows([1, 2, 3, 4, 5], [(2, 4), (1, 3)]), [1, 3, 2, 4, 5])
        self.assertEqual(
            looks.order_of_rows([1, 2, 3, 4, 5], [(5, 1), (1, 3), (3, 5)]), [1, 5, 3, 2, 4]
        )
        self.assertEqual(looks.order_of_rows([7, 2], [(7, 9), (2, 2)]), [2, 7])


class Farms(InFolder):
    def runs(self):
        for name in ("mixed", "clean", "harsh", "mulaw"):
            folder = self.folder / name
            folder.mkdir()
            lay(name, folder)
            with self.subTest(name):
                yield name, folder, Run.read(folder, folder / "orders.txt", folder / "report.txt")

    def test_counts(self):
        calls = {}
        for name, folder, run in self.runs():
            report = (folder / "report.txt").read_text()
            for call in run.calls:
                counts = " ".join(f"{what} {count}" for what, count in call.counts().items())
                self.assertIn(f"\ncounts {call.number} {counts}\n", report)
            calls[name] = len(run.calls)
        self.assertEqual(calls, {"mixed": 4, "clean": 4, "harsh": 5, "mulaw": 4})

    def test_laws(self):
        laws = {name: {call.number: call.law for call in run.calls} for name, _, run in self.runs()}
        self.assertEqual(laws["mulaw"], {1: Law.MU, 3: Law.A, 1025: Law.A, 4096: Law.MU})
        self.assertEqual(
            {law for name in ("mixed", "clean", "harsh") for law in laws[name].values()}, {Law.A}
        )

    def test_shifts_are_those_of_the_downlinks(self):
        # Between the starts of two frames of a downlink there are 320 bits, and two more for each octet of the shift.
        seen = Counter()
        for _, folder, run in self.runs():
            for call in run.calls:
                bits = bits_of((folder / f"{call.number}.down").read_bytes())
                starts = [found.start() for found in FRAME_OF_DOWNLINK.finditer(bits)]
                shifts = [(after - before - 320) // 2 for before, after in zip(starts, starts[1:])]
                wanted = [shift for shift in shifts if shift]
                octets = [made.shift for made in call.made if made.shift]
                self.assertEqual(octets[: len(wanted)], wanted)
                self.assertLessEqual(len(octets) - len(wanted), 1)
                seen.update(wanted)
        self.assertGreater(seen[2], 0)
        self.assertGreater(seen[-2], 0)
        self.assertGreater(max(seen), 2)

    def test_pictures(self):
        for name, folder, run in self.runs():
            picture = folder / "run.svg"
            status, out, err = self.run_tool(timeline.main, folder, picture)
            self.assertEqual((status, err), (0, ""))
            self.assertRegex(
                out,
                rf"^timeline calls {len(run.calls)} from 0 to \d+ bridges {len(run.bridges)} shifts",
            )
            self.check_picture(run, ElementTree.parse(picture).getroot())

    def test_picture_of_eight_calls_by_500_periods(self):
        for name in ("mixed", "harsh"):
            (self.folder / name).mkdir()
            lay(name, self.folder / name)
        uplinks = [
            *sorted((self.folder / "harsh").glob("*.up")),
            *sorted((self.folder / "mixed").glob("*.up")),
        ]
        bridges = [
            ReportedBridge((1, 7), 20, 160, (140, 140), (0, 0)),
            ReportedBridge((8, 3), 101, 333, (232, 232), (0, 0)),
            ReportedBridge((7, 1), 301, 500, (199, 199), (0, 0)),
        ]
        calls = []
        for number, uplink in enumerate(uplinks[:8], 1):
            call = RecordedCall(number, ReportedCall(number, number + 500, "end up 0", {}))
            call.take((7 * uplink.read_bytes())[:20000], bridges)
            call.span.counts.update(call.counts())
            calls.append(call)
        words = [(call.number, f"open {call.number}", None) for call in calls] + [
            (120, "bridge 1 8", 3),
            (120, "unbridge 2", 4),
        ]
        orders = [
            Answered(Order(number, stamp, text.split(" ")[0], (1,), text), Reply(refusal))
            for number, (stamp, text, refusal) in enumerate(words, 1)
        ]
        run = Run(orders, bridges, calls, self.folder)
        for shape in (layout.FULL, layout.WITHOUT_LEVELS, layout.COMPACT):
            for width in (1300, 250):
                drawn = picture.Picture(run, width, shape).draw()
                self.check_picture(run, ElementTree.fromstring(drawn))

    def test_losses_of_a_long_run(self):
        # 100,000 periods in 1,000 pixels. One of each loss, each in the middle of good frames, and two in one column.
        kinds = bytearray([FRAME_KINDS.index(FrameKind.SPEECH)]) * 100000
        lost = {
            1060: "UNUSABLE",
            20050: "MISSED",
            30050: "OTHER",
            40060: "INVALID_SID",
            50050: "NONE",
            60010: "UNUSABLE",
            60090: "MISSED",
        }
        for period, name in lost.items():
            kinds[period] = FRAME_KINDS.index(FrameKind[name])
        call = RecordedCall(7, ReportedCall(0, 100000, "end up 0", {}))
        call.kinds = bytes(kinds)
        run = Run([Answered(Order(1, 0, "open", (7,), "open 7"), Reply())], [], [call], self.folder)
        drawn = picture.Picture(run, 1000, layout.FULL)
        root = ElementTree.fromstring(drawn.draw())
        boxes = [
            box
            for box in root.iter(f"{SVG}rect")
            if (box.findtext(f"{SVG}title") or "").startswith("call 7 from")
        ]
        height = float(layout.FULL.band)
        for period, name in lost.items():
            at = drawn.x(period)
            colours = {
                box.get("fill"): float(box.get("height"))
                for box in boxes
                if float(box.get("x")) <= at < float(box.get("x")) + float(box.get("width"))
            }
            lost = (
                (looks.UplinkLook.UNUSABLE, looks.UplinkLook.MISSED)
                if period > 60000
                else (looks.UplinkLook[name],)
            )
            wanted = {look.colour: 1.0 for look in lost}
            self.assertEqual(
                colours, {looks.UplinkLook.SPEECH.colour: height - len(lost), **wanted}, name
            )
        for box in boxes:
            self.assertGreaterEqual(float(box.get("width")), 1)
        # The boxes are next to one another, and no loss is in a box of another colour.
        area = sum(float(box.get("width")) * float(box.get("height")) for box in boxes)
        self.assertAlmostEqual(area, height * 1000, delta=1)
        titles = [box.findtext(f"{SVG}title") for box in boxes]
        told = "call 7 from 1050 to 1200 (21.00 s to 24.00 s): speech, 149 periods, lost: unusable within speech, 1 period"
        self.assertIn(told, titles)
        self.assert_inside(root)

    def check_picture(self, run, root):
        titles = [title.text for title in root.iter(f"{SVG}title")]
        texts = [text.text for text in root.iter(f"{SVG}text")]
        for call in run.calls:
            # The stretches of periods are the whole call, each from where the one before ends.
            place, seen = call.span.start, Counter()
            # A column that shows two losses has two boxes.
            for title, _ in groupby(titles):
                found = re.match(rf"call {call.number} from (\d+) to (\d+) \(.*?\): (.*)$", title)
                if found:
                    self.assertEqual(int(found[1]), place)
                    place = int(found[2])
                    parts = {
                        look.words: re.search(rf"(?:^|, ){look.words}, (\d+) period", found[3])
                        for look in looks.UplinkLook
                    }
                    counts = {words: int(part[1]) for words, part in parts.items() if part}
                    self.assertEqual(place - int(found[1]), sum(counts.values()))
                    seen.update(counts)
            self.assertEqual(place, call.span.end)
            parts = (looks.UplinkLook.UNUSABLE, looks.UplinkLook.PAUSE, looks.UplinkLook.QUIET)
            unusable = sum(seen[look.words] for look in parts)
            self.assertEqual(unusable, call.span.counts["bad"])
            for look in looks.UplinkLook:
                if look not in parts:
                    self.assertEqual(seen[look.words], call.span.counts[FrameKind[look.name].value])
            self.assertTrue(any(text.endswith(call.span.cause) for text in texts))
            shifts = len(list(call.shifts()))
            self.assertEqual(
                sum(title.startswith(f"call {call.number}, period ") for title in titles), shifts
            )
        for bridge in run.bridges:
            a, b = bridge.calls
            self.assertEqual(
                sum(
                    title.startswith(f"bridge of {a} and {b} from {bridge.start} ")
                    for title in titles
                ),
                2,
            )
        told = "\n".join(titles)
        for order in run.orders:
            self.assertIn(order.told(), told)
            self.assertTrue(any(text.endswith(order.told()) for text in texts))
        self.assert_inside(root)

    def assert_inside(self, root):
        width, height = float(root.get("width")), float(root.get("height"))
        for box in root.iter(f"{SVG}rect"):
            if box.get("x"):
                self.assertGreaterEqual(float(box.get("x")), 0)
                self.assertLessEqual(float(box.get("x")) + float(box.get("width")), width)
                self.assertLessEqual(float(box.get("y")) + float(box.get("height")), height)
        rows = {}
        for text in root.iter(f"{SVG}text"):
            size = {"head": 17, "name": 13, "small": 11, "tiny": 10}.get(
                (text.get("class") or "").split(" ")[0], 12
            )
            wide = len(text.text) * size * 0.56
            left = (
                float(text.get("x"))
                - {"start": 0, "middle": wide / 2, "end": wide}[text.get("text-anchor", "start")]
            )
            self.assertGreaterEqual(left, 0)
            self.assertLessEqual(left + wide, width)
            rows.setdefault(text.get("y"), []).append((left, left + wide, text.text))
        for row in rows.values():
            row.sort()
            for (_, right, one), (left, _, other) in zip(row, row[1:]):
                self.assertLessEqual(right, left, f"'{one}' and '{other}' overlap")


class Pictures(InFolder):
    def setUp(self):
        super().setUp()
        lay("mixed", self.folder)

    def test_orders_and_report_elsewhere(self):
        wanted = EXAMPLES / "farm" / "wanted" / "report.txt"
        (self.folder / "report.txt").unlink()
        (self.folder / "orders.txt").rename(self.folder / "words.txt")
        words = ["--report", wanted, "--orders", self.folder / "words.txt", "--width", "3000"]
        status, out, err = self.run_tool(
            timeline.main, self.folder, self.folder / "run.svg", *words
        )
        self.assertEqual((status, err), (0, ""))
        self.assertEqual(out, "timeline calls 4 from 0 to 153 bridges 2 shifts 9 refused 1\n")
        self.assertGreater(
            float(ElementTree.parse(self.folder / "run.svg").getroot().get("width")), 3000
        )

    def test_calls_that_never_had_a_period(self):
        # A call whose lines couldn't be read, with failed lines and an order that wasn't executed.
        counts = "good 0 sid 0 invalid 0 bad 0 idle 0 other 0 miss 0 none 0 made 0"
        report = f"order 1 ok\ncall 9 from 5 to 5 fault up\ncounts 9 {counts}\nline 9 up failed\nline 9 pcm failed\n"
        self.path("report.txt", (report + "end period 5 calls 1 left 1\n").encode())
        self.path("orders.txt", b"5 open 9\n4294967294 close 9")
        status, out, err = self.run_tool(timeline.main, self.folder, self.folder / "run.svg")
        self.assertEqual(
            (status, out, err),
            (0, "timeline calls 1 from 5 to 5 bridges 0 shifts 0 refused 0\n", ""),
        )
        self.assertIn("fault up, up failed, pcm failed", (self.folder / "run.svg").read_text())

    def drawn(self, *words):
        status, out, err = self.run_tool(
            timeline.main, self.folder, self.folder / "run.svg", *words
        )
        self.assertEqual((status, err), (0, ""))
        root = ElementTree.parse(self.folder / "run.svg").getroot()
        return (
            out,
            [title.text for title in root.iter(f"{SVG}title")],
            [text.text for text in root.iter(f"{SVG}text")],
        )

    def test_some_calls(self):
        out, titles, texts = self.drawn("--calls", "1,3")
        self.assertEqual(out, "timeline calls 2 from 0 to 153 bridges 1 shifts 8 refused 1\n")
        self.assertIn("call 3", texts)
        self.assertNotIn("call 2", texts)
        self.assertTrue(any("bridge of 1 and 3 from 120" in title for title in titles))
        self.assertFalse(any("bridge of 2 and 4" in title for title in titles))
        # A bridge with a call that isn't drawn is a bar all the same.
        out, titles, texts = self.drawn("--calls", "2")
        self.assertEqual(sum("bridge of 2 and 4" in title for title in titles), 1)
        self.assertIn("bridge with call 4", texts)

    def test_some_periods(self):
        out, titles, texts = self.drawn("--from", "50", "--to", "110")
        spans = [re.match(r"call \d (?:downlink )?from (\d+) to (\d+) ", title) for title in titles]
        spans = [(int(found[1]), int(found[2])) for found in spans if found]
        self.assertEqual(
            (min(start for start, _ in spans), max(end for _, end in spans)), (50, 110)
        )
        self.assertIn("4 calls, 2 bridges, periods from 50 to 110 (1.00 s to 2.20 s)", texts)
        self.assertTrue(any(text.endswith(", closed") for text in texts))  # call 2
        self.assertNotIn("period 0 (0.00 s), order 1: open 1", texts)
        self.assertIn("period 100 (2.00 s), order 13: close 2", texts)
        out, _, _ = self.drawn("--from", "101")
        self.assertEqual(out, "timeline calls 2 from 0 to 153 bridges 2 shifts 8 refused 1\n")

    def test_downlinks(self):
        _, titles, _ = self.drawn()
        self.assertIn(
            "call 2 downlink from 23 to 96 (0.46 s to 1.92 s): handed over in a bridge, 73 periods",
            titles,
        )
        self.assertIn("call 3 downlink from 74 to 77 (1.48 s to 1.54 s): idle, 3 periods", titles)
        self.assertTrue(
            any("downlink from" in title and "silence descriptor" in title for title in titles)
        )
        for side in ("Out", "Pcm"):
            self.assertIn(f"call 2: level of {side}", titles)
        for line in [
            *self.folder.glob("*.down"),
            *self.folder.glob("*.out"),
            *self.folder.glob("*.pcm"),
        ]:
            line.unlink()
        _, titles, _ = self.drawn()
        self.assertFalse(any("downlink from" in title or "level of" in title for title in titles))

    def test_shifts_that_wait(self):
        _, titles, _ = self.drawn()
        asked = [title for title in titles if "which waits until after it" in title]
        self.assertEqual(len(asked), 8)
        told = "call 3, from period 124 (2.48 s) on: 1 frame in a bridge asked for +132 octets, which waits until after it"
        self.assertIn(told, asked)

    def page(self, *words):
        status, _, err = self.run_tool(timeline.main, self.folder, self.folder / "run.html", *words)
        self.assertEqual((status, err), (0, ""))
        return (self.folder / "run.html").read_text()

    def test_page(self):
        page = self.page()
        self.assertNotRegex(page, "https?:|src=|href=|@import|url\\((?!#)")
        self.assertIn("call periods 386, of them speech 107, speech lost 18 (14.40 %)", page)
        self.assertIn("no line failed", page)
        worst = re.findall(
            r"data-call='(\d)'.*?<td>([\d.]+ %)</td><td>(\d+)</td><td>([\d.]+ s)</td><td>(.*?)</td>",
            page,
        )
        self.assertEqual(worst[0], ("1", "36.73 %", "18", "0.36 s", "period 89"))
        self.assertEqual([each[0] for each in worst], ["1", "2", "3", "4"])

    def test_data_of_the_page(self):
        run = Run.read(self.folder, self.folder / "orders.txt", self.folder / "report.txt")
        data = json.loads(
            re.search('<script id="data" type="application/json">(.*?)</script>', self.page())[1]
        )
        calls = {call.number: call for call in run.calls}
        for told in data["calls"]:
            call = calls[told["number"]]
            unpacked = {
                side: zlib.decompress(base64.b64decode(told[side]))
                for side in ("up", "down", "pcm", "out")
            }
            self.assertEqual(unpacked["up"], looks.looks(call.kinds))
            self.assertEqual({len(octets) for octets in unpacked.values()}, {call.periods()})
        part = json.loads(
            re.search(
                'json">(.*?)</script>', self.page("--from", "50", "--to", "110", "--sort", "worst")
            )[1]
        )
        self.assertEqual((part["first"], part["last"], part["calls"][0]["number"]), (50, 110, 1))
        self.assertEqual(len(zlib.decompress(base64.b64decode(part["calls"][0]["up"]))), 60)

    def test_sorted(self):
        _, _, texts = self.drawn("--sort", "worst", "--rows", "compact")
        names = [text for text in texts if re.fullmatch(r"call \d", text)]
        self.assertEqual(names, ["call 1", "call 2", "call 3", "call 4"])
        self.assertIn("lost 36.73 %, gap 0.36 s, end up 0", texts)
        self.refused("invalid choice", "--sort", "best")

    def test_orders_at_other_times_are_inside(self):
        self.drawn("--from", "101", "--to", "103")
        root = ElementTree.parse(self.folder / "run.svg").getroot()
        (text,) = [each for each in root.iter(f"{SVG}text") if "at other times" in each.text]
        self.assertLess(float(text.get("x")) + 11 * 0.62 * len(text.text), float(root.get("width")))

    def refused(self, part, *words):
        self.assert_refused(timeline.main, [self.folder, self.folder / "run.svg", *words], part)

    def changed(self, name, old, new):
        """Puts other text into a file, and gives what puts it right again."""
        path = self.folder / name
        text = path.read_bytes()
        self.assertIn(old, text)
        path.write_bytes(text.replace(old, new, 1))
        return lambda: path.write_bytes(text)

    def test_refused_texts(self):
        for name, old, new, part in (
            (
                "report.txt",
                b"good 61 sid 3",
                b"good 60 sid 4",
                "2.up: gives good 61, and the report has 60",
            ),
            ("report.txt", b"made 55", b"made 54", "3.up: gives made 55, and the report has 54"),
            ("report.txt", b"from 0 to 153", b"from 0 to 154", "isn't one of a report there"),
            ("report.txt", b"order 5 ok", b"order 6 ok", "line 5 isn't one of a report"),
            (
                "report.txt",
                b"order 5 ok",
                b"order 5 refused 8 call 3",
                "line 5 isn't one of a report",
            ),
            ("report.txt", b"order 1 ok", b"\xff", "line 1 isn't one of a report"),
            (
                "report.txt",
                b"bridge 1 3",
                b"bridge 1 5",
                "has a bridge of call 5, and no such call",
            ),
            ("report.txt", b"from 120 to 131", b"from 120 to 132", "isn't one of a report there"),
            ("report.txt", b"counts 4", b"counts 5", "isn't one of a report"),
            ("report.txt", b"end period", b"end of period", "isn't one of a report"),
            ("report.txt", b"left 0\n", b"left 0\norder 19 ok\n", "isn't a whole report"),
            ("report.txt", b"left 0\n", b"left 1\n", "speaks of 18 orders and 1 left"),
            ("orders.txt", b"20 open 4", b"19 open 4", "other calls than these orders"),
            ("orders.txt", b"73 open 3", b"x open 3", "line 11 isn't an order"),
            ("orders.txt", b"0 open 1\n", b"", "these orders to period 4294967295 give 17 and 0"),
        ):
            with self.subTest(new):
                undo = self.changed(name, old, new)
                try:
                    self.refused(part)
                finally:
                    undo()

    def test_outgoing_lines_of_another_length(self):
        for name, octets, periods in (("2.down", 40, 100), ("2.out", 160, 100), ("3.down", 40, 58)):
            line = self.folder / name
            before = line.read_bytes() if line.is_file() else None
            for size in (0, periods * octets - 1, periods * octets + octets):
                line.write_bytes(bytes(size))
                self.refused(
                    f"{name}: has {size} octets, and {periods} periods give {periods * octets}: it is of another run, or"
                )
            # One that failed has fewer.
            line.write_bytes(bytes(octets))
            report = self.folder / "report.txt"
            text = report.read_text()
            report.write_text(
                text.replace("end period", f"line {name.replace('.', ' ')} failed\nend period")
            )
            self.assertEqual(
                self.run_tool(timeline.main, self.folder, self.folder / "run.svg")[0], 0
            )
            report.write_text(text)
            (self.folder / "run.svg").unlink()
            line.unlink()
            if before is not None:
                line.write_bytes(before)

    def test_refused_files(self):
        (self.folder / "3.up").write_bytes((self.folder / "3.up").read_bytes()[40:])
        self.refused("it is of another run")
        (self.folder / "3.up").unlink()
        self.refused("3.up: No such file")
        self.refused("no.txt: No such file", "--report", self.folder / "no.txt")
        self.refused("no.txt: No such file", "--orders", self.folder / "no.txt")
        self.path("report.txt", b"end period 0 calls 0 left 18\n")
        self.refused("a run without calls")
        self.path("report.txt", b"")
        self.refused("isn't a whole report")
        self.refused("isn't 200 to", "--width", "5")
        for calls in ("0", "4097", "3-2", "x", "1,", ""):
            self.refused("isn't a call A or calls A-B", "--calls", calls)
        self.refused("invalid choice", "--rows", "wide")
        self.refused("--width", "--width", "wide")
        self.assert_refused(
            timeline.main, [self.folder / "gone", self.folder / "run.svg"], "No such file"
        )

    def test_refused_parts(self):
        self.refused("report.txt: has no call 5", "--calls", "1-7")
        self.refused("there are no periods from 9 to 9", "--from", "9", "--to", "9")
        self.refused("no call is open from 200 to 300", "--from", "200", "--to", "300")
        self.refused("isn't 0 to 4,294,967,295", "--from", "-1")

    def test_a_missing_line_and_an_older_picture(self):
        # The uplink of a call without periods is an input that need not be there; the picture is written over the older one.
        counts = "good 0 sid 0 invalid 0 bad 0 idle 0 other 0 miss 0 none 0 made 0"
        report = f"order 1 ok\ncall 9 from 5 to 5 fault up\ncounts 9 {counts}\nline 9 up failed\nend period 5 calls 1 left 0\n"
        self.path("report.txt", report.encode())
        self.path("orders.txt", b"5 open 9\n")
        for _ in range(2):
            status, out, err = self.run_tool(timeline.main, self.folder, self.folder / "run.svg")
            self.assertEqual(
                (status, out, err),
                (0, "timeline calls 1 from 5 to 5 bridges 0 shifts 0 refused 0\n", ""),
            )

    def test_never_an_input(self):
        shutil.copy(self.folder / "orders.txt", self.folder / "orders.svg")
        words = [self.folder, self.folder / "orders.svg", "--orders", self.folder / "orders.svg"]
        self.assert_refused(timeline.main, words, "is an input")

    def test_names_of_pictures(self):
        for name in ("1.up", "orders.txt", "run.png", "run"):
            self.assert_refused(
                timeline.main,
                [self.folder, self.folder / name],
                "a picture's name ends with .svg or .html",
            )


if __name__ == "__main__":
    unittest.main()
