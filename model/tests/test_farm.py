"""Tests of runs: replies, bridges, ends, lines that fail, and the report."""

import unittest
from typing import Dict, Iterable, List, Optional, Sequence, Tuple

from material import IDLE_DOWN, UP, line, speech, with_maxima
from trau.model.outside import MemoryDesk, MemoryLines
from trau.model.top import top

Place = Tuple[int, str]
PCM = b"\xd5" * 160


def lines_of(periods: Dict[int, int]) -> Dict[Place, bytes]:
    """Good uplinks and idle Pcm lines of these calls, of so many periods."""
    ups = {(call, "up"): UP * count for call, count in periods.items()}
    return {**ups, **{(call, "pcm"): PCM * count for call, count in periods.items()}}


def run(
    orders: str,
    contents: Dict[Place, bytes],
    words: str = "run",
    failing: Iterable[Place] = (),
    room: Optional[Dict[Place, int]] = None,
) -> Tuple[int, List[str], Dict[Place, bytes]]:
    """The status of a run, the lines of its report, and what it wrote."""
    lines, desk = MemoryLines(contents, failing, room), MemoryDesk(
        orders.replace("; ", "\n").encode()
    )
    return top(words.split(), lines, desk), desk.text.splitlines(), lines.written


def only(report: Sequence[str], *words: str) -> List[str]:
    """The lines of a report that begin with one of these words."""
    return [one for one in report if one.split()[0] in words]


class Replies(unittest.TestCase):
    """What becomes of orders."""

    def replies(self, orders: str, contents: Dict[Place, bytes], words: str = "run") -> List[str]:
        """The words after the number of each reply."""
        return [reply.split(" ", 2)[2] for reply in only(run(orders, contents, words)[1], "order")]

    def test_each_refusal(self) -> None:
        orders = (
            "0 open 1; 0 open 2; 0 open 3; 0 open 1; 0 bridge 1 1; 0 bridge 1 2; 0 bridge 3 2; 0 unbridge 3; 1 unbridge 2; 1 bridge 3 1; "
            "1 close 3; 1 open 3; 1 level 9 0"
        )
        wanted = (
            "ok; ok; ok; refused 1 call 1; refused 5 call 1; ok; refused 3 call 2 partner 1; refused 4 call 3; ok; "
            "refused 6 call 1 partner 2; ok; refused 7 call 3; refused 2 call 9"
        )
        self.assertEqual(self.replies(orders, lines_of({1: 2, 2: 2, 3: 2})), wanted.split("; "))

    def test_a_bridge_of_the_same_stamp_is_over_at_once(self) -> None:
        orders = "0 open 1; 0 open 2; 0 bridge 1 2; 0 unbridge 1; 0 bridge 2 1; 1 bridge 2 1"
        self.assertEqual(
            self.replies(orders, lines_of({1: 2, 2: 2}))[2:],
            ["ok", "ok", "refused 6 call 2 partner 1", "ok"],
        )

    def test_at_its_natural_end_a_call_is_open(self) -> None:
        contents = lines_of({4: 75, 5: 90, 6: 90})
        orders = "0 open 4; 0 open 5; 0 open 6; 9 bridge 4 5; 75 open 4; 75 bridge 5 6; 75 close 4; 75 level 4 1; 76 open 4; 76 bridge 5 6"
        wanted = "ok; refused 1 call 4; refused 3 call 5 partner 4; ok; refused 2 call 4; refused 7 call 4; ok"
        self.assertEqual(self.replies(orders, contents)[3:], wanted.split("; "))

    def test_a_bridge_that_ended_with_its_partner(self) -> None:
        """The later bridge is the one that the order ends, so it is its partner who is named."""
        contents = lines_of({1: 9, 2: 3, 3: 9})
        orders = "0 open 1; 0 open 2; 0 open 3; 0 bridge 1 2; 4 bridge 1 3; 6 unbridge 1; 6 bridge 3 1; 7 unbridge 3"
        replies = self.replies(orders, contents)
        self.assertEqual(
            replies[4:], ["ok", "ok", "refused 6 call 3 partner 1", "refused 4 call 3"]
        )
        report = run(orders, contents)[1]
        self.assertEqual(
            only(report, "bridge"),
            [
                "bridge 1 2 from 0 to 3 sent 3 3 lost 0 0",
                "bridge 1 3 from 4 to 6 sent 2 2 lost 0 0",
            ],
        )

    def test_orders_past_the_end_of_the_run(self) -> None:
        status, report, _ = run("0 open 1; 9 close 1", lines_of({1: 20}), "run --periods 3")
        self.assertEqual((status, report[0]), (0, "order 1 ok"))
        self.assertEqual(
            only(report, "call", "end"), ["call 1 from 0 to 3 limit", "end period 3 calls 1 left 1"]
        )


class Runs(unittest.TestCase):
    """Octets and reports of runs."""

    def test_zeros(self) -> None:
        contents = {(1, "up"): bytes(120), (1, "pcm"): PCM * 3}
        status, report, written = run("0 open 1", contents)
        self.assertEqual(written, {(1, "out"): PCM * 3, (1, "down"): b"\xff" * 40 + IDLE_DOWN * 2})
        wanted = [
            "order 1 ok",
            "call 1 from 0 to 3 end up 0",
            "counts 1 good 0 sid 0 invalid 0 bad 0 idle 0 other 0 miss 0 none 3 made 3",
            "end period 3 calls 1 left 0",
        ]
        self.assertEqual((status, report), (0, wanted))

    def test_mulaw(self) -> None:
        contents = {(4096, "up"): bytes(120), (4096, "pcm"): PCM * 3}
        status, report, written = run("0 open 4096 mulaw", contents)
        self.assertEqual((status, written[4096, "out"]), (0, b"\xff" * 480))
        self.assertIn("call 4096 from 0 to 3 end up 0", report)

    def test_nothing_to_do(self) -> None:
        self.assertEqual(run("", {}), (0, ["end period 0 calls 0 left 0"], {}))
        late = run("4000000000 open 1", {(1, "up"): b"", (1, "pcm"): b""})
        self.assertEqual(late[1][-1], "end period 4000000000 calls 1 left 0")

    def test_a_bridge_hands_frames_over(self) -> None:
        """Call 9 asks for a shift of 156 octets in period 3, so the first frame in the bridge is
        made in its period 5."""
        frames = [speech(with_maxima(k)) for k in range(12)]
        asked = [speech(field=39 if k == 3 else 0) for k in range(12)]
        contents = {
            (7, "up"): line(frames),
            (9, "up"): line(asked),
            (7, "pcm"): PCM * 12,
            (9, "pcm"): PCM * 12,
        }
        orders = "0 open 7; 0 open 9; 4 bridge 7 9; 10 unbridge 7"
        status, report, written = run(orders, contents)
        self.assertIn("bridge 7 9 from 4 to 10 sent 6 6 lost 0 0", report)
        down = written[9, "down"]
        for place in range(4, 10):
            # behind the ones at the line's start and those of the shift
            start = 40 + 40 * place + 39
            self.assertEqual(down[start + 4 : start + 38], line([frames[place]])[4:38], place)
        self.assertIn(
            "bridge 7 9 from 4 to 10 sent 5 6 lost 1 0", run(orders + "; 10 close 9", contents)[1]
        )

    def test_the_longer_call_goes_on(self) -> None:
        contents = lines_of({7: 40, 9: 40})
        contents[7, "up"] = (UP * 40)[:1213]
        report = run("0 open 7; 0 open 9; 0 bridge 7 9", contents)[1]
        self.assertIn("call 7 from 0 to 30 end up 13", report)
        self.assertEqual(only(report, "bridge"), ["bridge 7 9 from 0 to 30 sent 30 30 lost 0 0"])
        self.assertIn("call 9 from 0 to 40 end up 0", report)


class Faults(unittest.TestCase):
    """Lines that fail."""

    def test_each_line(self) -> None:
        contents = lines_of({7: 5, 8: 5, 9: 5})
        contents[7, "pcm"] = (PCM * 5)[:400]
        orders = "0 open 7; 0 open 8; 0 open 9"
        whole = run(orders, lines_of({7: 5, 8: 5, 9: 5}))
        status, report, written = run(orders, contents, failing=[(7, "pcm")], room={(9, "down"): 0})
        self.assertEqual(status, 6)
        self.assertIn("call 7 from 0 to 2 fault pcm", report)
        self.assertEqual(only(report, "line"), ["line 7 pcm failed", "line 9 down failed"])
        for kept in ((8, "down"), (8, "out"), (9, "out")):
            self.assertEqual(written[kept], whole[2][kept])

    def test_short_lines(self) -> None:
        contents = {(1, "up"): bytes(119), (1, "pcm"): PCM * 3}
        self.assertIn("call 1 from 0 to 2 end up 39", run("0 open 1", contents)[1])
        contents = {(1, "up"): bytes(120), (1, "pcm"): (PCM * 3)[:479]}
        self.assertIn("call 1 from 0 to 2 end pcm 159", run("0 open 1", contents)[1])

    def test_missing_lines(self) -> None:
        status, report, _ = run("0 open 1", {})
        self.assertEqual((status, report[1]), (6, "call 1 from 0 to 0 fault up"))
        self.assertEqual(only(report, "line"), ["line 1 up failed", "line 1 pcm failed"])
        status, report, _ = run("0 open 1", {(1, "up"): b""})
        self.assertEqual((status, report[1]), (6, "call 1 from 0 to 0 end up 0"))
        self.assertEqual(only(report, "line"), ["line 1 pcm failed"])

    def test_calls_that_are_never_read(self) -> None:
        self.assertEqual(run("5 open 1; 5 close 1", {})[0], 0)
        self.assertEqual(run("5 open 1", {}, "run --periods 5")[1], ["end period 0 calls 0 left 1"])

    def test_a_failure_is_met_where_a_round_reads_so_far(self) -> None:
        contents = lines_of({1: 3})
        contents[1, "pcm"] = PCM * 30
        for batch, wanted in (("50", ["line 1 pcm failed"]), ("4", []), ("3", [])):
            status, report, _ = run(
                "0 open 1", contents, f"run --batch {batch}", failing=[(1, "pcm")]
            )
            self.assertEqual((status, only(report, "line")), (6 if wanted else 0, wanted), batch)
            self.assertIn("call 1 from 0 to 3 end up 0", report)

    def test_a_line_that_fails_at_its_end_is_read_on_by_the_next_round(self) -> None:
        contents = lines_of({1: 3})
        for batch in ("3", "50"):
            self.assertEqual(
                run("0 open 1", contents, f"run --batch {batch}", failing=[(1, "up")])[0], 6
            )
        self.assertEqual(
            run("0 open 1; 3 close 1", contents, "run --batch 3", failing=[(1, "up")])[0], 0
        )


if __name__ == "__main__":
    unittest.main()
