"""Tests of the whole program: statuses, marks, drills, files and streams."""

import os
import subprocess
import tempfile
import unittest
from pathlib import Path
from typing import Dict, Optional, Tuple

from material import CHECKS, TOP, UP
from trau.model.checkpoint import Mark, MarkCall, differs, read_mark, text_of_mark
from trau.model.compare import MODEL, differences
from trau.model.drill import drawn_orders, drawn_period, draws
from trau.model.lines import FolderLines, StandardStreams
from trau.rules.orders import BadLine
from trau.model.outside import MemoryDesk, MemoryLines
from trau.model.recorded import checksum
from trau.model.top import top
from trau.model.trials import Step, Trial, draw_trial

PCM = b"\xd5" * 160
ZEROS = {(1, "up"): bytes(160), (1, "pcm"): PCM * 4}


def run(
    words: str, stdin: bytes = b"", fails: bool = False, room: Optional[int] = None
) -> Tuple[int, str, Dict[Tuple[int, str], bytes]]:
    """The status, the text and the lines written of a command over four periods of zeros on call
    1."""
    lines, desk = MemoryLines(ZEROS), MemoryDesk(stdin, fails, room)
    return top(words.split(), lines, desk), desk.text, lines.written


class Statuses(unittest.TestCase):
    """Which status goes before which."""

    def test_without_a_run(self) -> None:
        self.assertEqual(run("run --batch 0"), (1, "usage\n", {}))
        self.assertEqual(run("run", b"0 open 01\n"), (2, "orders line 1\n", {}))
        self.assertEqual(run("run", b"0 open 1\n", fails=True), (3, "orders unread\n", {}))
        self.assertEqual(run("run", b"0 open 1\n" * 65537), (7, "orders too long\n", {}))
        self.assertEqual(run("run", b"x" * 1048577, fails=True), (7, "orders too long\n", {}))

    def test_a_text_that_cant_be_written(self) -> None:
        for words, stdin, status in (("run x", b"", 1), ("run", b"x", 2), ("save", b"", 1)):
            self.assertEqual(run(words, stdin, room=2)[0], status)
        status, text, written = run("run", b"0 open 1\n", room=5)
        self.assertEqual((status, text, len(written)), (4, "order", 2))


class Parts(unittest.TestCase):
    """A run in two parts."""

    MARK = b"save 3\ncall 1 from 0 out 102240 down 28958\norders\n"

    def test_save(self) -> None:
        status, text, written = run("save --periods 3", b"0 open 1\n")
        self.assertEqual((status, text.encode()), (0, self.MARK))
        self.assertEqual(written[1, "out"], PCM * 3)
        self.assertEqual(run("save --periods 9", b"0 open 1\n")[1], "save 9\norders\n")

    def test_resume(self) -> None:
        status, text, written = run("resume", self.MARK + b"0 open 1\n")
        self.assertEqual((status, written[1, "out"]), (0, PCM))
        self.assertEqual(written[1, "down"], bytes.fromhex("0000b80f") + b"\xff" * 36)
        self.assertEqual(text, run("run", b"0 open 1\n")[1])

    def test_the_run_ends_at_the_greater_period(self) -> None:
        self.assertIn(
            "call 1 from 0 to 3 limit", run("resume --periods 1", self.MARK + b"0 open 1\n")[1]
        )

    def test_refused(self) -> None:
        for text, answer in (
            (self.MARK.replace(b"28958", b"28957") + b"0 open 1\n", (9, "save differs 1\n", {})),
            (self.MARK, (9, "save differs 1\n", {})),
            (self.MARK.replace(b"save 3", b"save 03"), (2, "save line 1\n", {})),
            (self.MARK + b"0 open 01\n", (2, "orders line 1\n", {})),
            (self.MARK + b"0 open 1\n" * 65537, (7, "orders too long\n", {})),
            (b"x" * 1310721, (7, "orders too long\n", {})),
        ):
            self.assertEqual(run("resume", text), answer)

    def test_marks(self) -> None:
        mark = Mark(3, [MarkCall(1, 0, 102240, 28958)])
        self.assertEqual(read_mark(self.MARK + b"0 open 1\n"), (mark, b"0 open 1\n"))
        self.assertEqual(text_of_mark(mark).encode(), self.MARK)
        for text, number in (
            (b"", 1),
            (b"save 3", 1),
            (b"save 0\norders\n", 1),
            (b"save 3\n", 2),
            (b"save 3\norders", 2),
            (b"save 3\n\norders\n", 2),
            (b"save 3\ncall 1 from 3 out 0 down 0\norders\n", 2),
            (b"save 3\ncall 1 from 0 out 4294967296 down 0\n", 2),
            (b"save 3\ncall 2 from 0 out 0 down 0\ncall 2 from 0 out 0 down 0\norders\n", 3),
            (b"save 3\ncall 4097 from 0 out 0 down 0\n", 2),
        ):
            with self.assertRaises(BadLine) as caught:
                read_mark(text)
            self.assertEqual(caught.exception.line, number, text)

    def test_differs(self) -> None:
        one, other, later = MarkCall(1, 0, 5, 5), MarkCall(1, 0, 5, 6), MarkCall(2, 0, 0, 0)
        self.assertIsNone(differs(Mark(3, [one, later]), Mark(3, [one, later])))
        self.assertEqual(differs(Mark(3, [one, later]), Mark(3, [other])), 1)
        self.assertEqual(differs(Mark(3, [one]), Mark(3, [one, later])), 2)


class Drills(unittest.TestCase):
    """What is drawn."""

    def test_the_first_draws(self) -> None:
        self.assertEqual([next(draws(1, call)) for call in (1, 2)], [210, 211])

    def test_a_call_of_a_period(self) -> None:
        text = run("drill --calls 1 --periods 1")[1]
        self.assertEqual(text, (CHECKS / "drill/0.txt").read_text())
        self.assertEqual(text.splitlines()[-1].split()[-1], "10200")

    def test_orders(self) -> None:
        words = [(order.stamp, order.verb) for order in drawn_orders(6, 9)]
        self.assertEqual(
            words[6:], [(2, "bridge"), (2, "bridge"), (4, "unbridge"), (4, "unbridge")]
        )

    def test_pcm(self) -> None:
        source = draws(1, 1)
        periods = [drawn_period(source, period) for period in range(33)]
        self.assertEqual(periods[31].pcm, PCM)
        self.assertGreater(len(set(periods[32].pcm)), 50)

    def test_live(self) -> None:
        text = run("live --calls 2 --periods 1")[1]
        self.assertEqual(
            text, "sum 1 out 17406 down 10200\nsum 2 out 13986 down 10200\nlive periods 1 calls 2\n"
        )


class Files(unittest.TestCase):
    """Lines as files, and the standard streams."""

    def setUp(self) -> None:
        self.folder = tempfile.TemporaryDirectory()
        self.addCleanup(self.folder.cleanup)
        self.addCleanup(os.chdir, os.getcwd())
        os.chdir(self.folder.name)

    def test_reading(self) -> None:
        Path("7.up").write_bytes(bytes(range(100)))
        lines = FolderLines()
        self.assertEqual(lines.read(7, "up", 60), (bytes(range(60)), False))
        self.assertEqual(lines.read(7, "up"), (bytes(range(60, 100)), False))
        self.assertEqual(lines.read(7, "pcm"), (b"", True))
        Path("7.pcm").mkdir()
        self.assertEqual(lines.read(7, "pcm"), (b"", True))

    def test_writing(self) -> None:
        Path("7.out").write_bytes(b"older octets")
        lines = FolderLines()
        self.assertTrue(lines.write(7, "out", b"new"))
        self.assertTrue(lines.write(7, "out", b"er"))
        self.assertEqual(Path("7.out").read_bytes(), b"newer")
        Path("7.down").symlink_to("/dev/full")
        self.assertFalse(lines.write(7, "down", b"x"))

    def test_a_stream_that_is_a_folder(self) -> None:
        descriptor = os.open(".", os.O_RDONLY)
        self.addCleanup(os.close, descriptor)
        self.assertEqual(StandardStreams(descriptor, 1).read(9), (b"", True))

    def test_the_program(self) -> None:
        Path("7.up").write_bytes(UP * 2)
        words = [str(TOP / "model/trau"), "relay", "7"]
        ran = subprocess.run(words, stdin=subprocess.DEVNULL, stdout=subprocess.PIPE)
        self.assertEqual((ran.returncode, ran.stdout), (0, b"relay frames 2\n"))
        with open("/dev/full", "wb") as full:
            self.assertEqual(
                subprocess.run(words, stdin=subprocess.DEVNULL, stdout=full).returncode, 4
            )


class Tools(unittest.TestCase):
    """What trials and recorded answers are made with."""

    def test_a_trial_is_a_function_of_its_seed(self) -> None:
        for seed in range(20):
            self.assertEqual(draw_trial(seed), draw_trial(seed))

    def test_differences_are_found(self) -> None:
        """A program that answers the model's text and status, and leaves each line as it was,
        differs in these alone."""
        with tempfile.TemporaryDirectory() as folder:
            other = Path(folder, "other")
            other.write_text("#!/bin/sh\necho 'relay frames 2'\n")
            other.chmod(0o755)
            trial = Trial(0, {"7.up": UP * 2}, [Step(["relay", "7"], b"")])
            self.assertEqual(differences(trial, MODEL, MODEL), [])
            self.assertEqual(
                differences(trial, other, MODEL), ["relay 7: 7.down is only made by the model"]
            )
            wrong = trial._replace(steps=[Step(["relay", "8"], b"")])
            wanted = [
                "status 0, of the model 6",
                "line 1 of the text is 'relay frames 2', of the model 'line 8 up failed'",
            ]
            self.assertEqual(
                differences(wrong, other, MODEL), [f"relay 8: {line}" for line in wanted]
            )

    def test_sums(self) -> None:
        self.assertEqual(checksum(b""), b"4294967295 0\n")
        self.assertEqual(checksum(b"123456789"), b"930766865 9\n")


if __name__ == "__main__":
    unittest.main()
