"""Tests of watch.py: how far a run is by the sizes of its lines, and what is refused."""

import os
import unittest
from unittest import mock

from support import HAS_LOCKS, InFolder

from trau.rules.profile import MOST_PERIODS
from test_timeline import lay

from trau.runs import run_texts
from trau.runs import folder_lock
from trau.runs import watch

# The clock stands still at this time, except while watch.py sleeps.
NOW = 1_700_000_000


SHOWS_LOCKS = HAS_LOCKS and folder_lock.LOCKS.exists()


class Watching(InFolder):
    def setUp(self):
        super().setUp()
        lay("mixed", self.folder)
        for line in self.folder.glob("*.out"):
            line.unlink()
        self.report = (self.folder / "report.txt").read_bytes()

    def watch(self, *words, meanwhile=lambda seconds: None):
        """The status and the texts of watch.py; `meanwhile` happens as often as it sleeps, given the seconds since its start."""
        slept = 0

        def sleep(seconds):
            nonlocal slept
            slept += seconds
            meanwhile(slept)

        clock = {"time": lambda: NOW + slept, "monotonic": lambda: slept, "sleep": sleep}
        with mock.patch.object(watch, "time", mock.Mock(**clock)), mock.patch.object(
            watch, "is_locked", self.is_locked
        ):
            return self.run_tool(watch.main, *words)

    def is_locked(self, folder):
        """Whether a run has the folder: so while these tests don't say otherwise."""
        return True

    def put(self, name, octets, age):
        """Puts this many octets into a file, written `age` seconds ago."""
        path = self.path(name, bytes(octets))
        os.utime(path, (NOW - age, NOW - age))

    def test_expected_periods_are_those_of_the_report(self):
        report = run_texts.report_of("report", self.report)
        wanted = {call: span.end - span.start for call, span in report.calls.items()}
        orders = run_texts.read_orders(self.folder / "orders.txt")
        self.assertEqual(watch.expected_periods(self.folder, orders, MOST_PERIODS), wanted)
        self.assertEqual(
            watch.expected_periods(self.folder, orders, 80), {1: 80, 2: 80, 4: 60, 3: 7}
        )

    def test_a_run_that_is_on(self):
        self.put("report.txt", 0, 10)
        self.put("1.out", 153 * 160, 1)
        self.put("2.out", 20 * 160 + 7, 1)
        self.put("3.out", 58 * 160, 60)  # of an earlier run
        status, out, err = self.watch(self.folder, "--once")
        self.assertEqual((status, err), (0, ""))
        self.assertEqual(out, "watch periods 173 of 386, 44 %, calls done 1 of 4, 12 s left\n")

    def test_a_run_that_has_ended(self):
        self.assertEqual(
            self.watch(self.folder)[1], "watch periods 386 of 386, 100 %, calls done 4 of 4\n"
        )

    def test_no_run(self):
        (self.folder / "report.txt").unlink()
        self.put("1.out", 153 * 160, 60)
        wanted = f"watch.py: {self.folder}: no run in this folder: there is no report.txt\n"
        self.assertEqual(self.watch(self.folder), (1, "", wanted))
        for folder in (self.folder / "gone", self.folder):
            (self.folder / "orders.txt").unlink(missing_ok=True)
            wanted = f"watch.py: {folder}: no run in this folder: there is no orders.txt\n"
            self.assertEqual(self.watch(folder, "--once"), (1, "", wanted))

    def test_no_growth(self):
        self.put("report.txt", 0, 10)
        self.put("1.out", 50 * 160, 1)
        status, out, err = self.watch(self.folder, "--plain", "--interval", "2", "--patience", "6")
        self.assertEqual((status, err), (1, "watch.py: no growth for 6 s: stalled or ended\n"))
        self.assertEqual(out.count("watch periods 50 of 386"), 4)

    def test_growth_of_a_line_is_growth(self):
        self.put("report.txt", 0, 10)
        status, out, err = self.watch(
            self.folder, "--plain", "--interval", "2", "--patience", "6", meanwhile=self.grow
        )
        self.assertEqual((status, err), (0, ""))
        self.assertEqual(out.count("watch periods 0 of 386"), 10)
        self.assertTrue(out.endswith("watch periods 386 of 386, 100 %, calls done 4 of 4\n"))

    def grow(self, seconds):
        """A downlink that grows by an octet each 4 s for 20 s, and then the report."""
        if seconds < 20:
            self.path("1.down", bytes(int(seconds) // 4))
        else:
            self.path("report.txt", self.report)

    def test_several_runs(self):
        other = self.folder / "other"
        other.mkdir()
        lay("clean", other)
        self.put("report.txt", 0, 10)
        self.put("4.out", 75 * 160, 1)
        status, out, err = self.watch(self.folder, other, "--once")
        self.assertEqual((status, err), (0, ""))
        self.assertRegex(out, r"^watch periods \d+ of \d+, \d+ %, calls done 5 of 8\n$")

    def test_bad_folders_beside_good_ones(self):
        bad, empty = self.folder / "bad", self.folder / "empty"
        for folder in (bad, empty):
            folder.mkdir()
        (bad / "orders.txt").write_bytes(b"0 opne 1\n")
        status, out, err = self.watch(empty, self.folder, "--once")
        self.assertEqual((status, out), (1, "watch periods 386 of 386, 100 %, calls done 4 of 4\n"))
        no_orders = f"watch.py: {empty}: no run in this folder: there is no orders.txt\n"
        self.assertEqual(err, no_orders)
        status, also_out, err = self.watch(empty, bad, self.folder, self.folder / "gone", "--once")
        self.assertEqual((status, also_out), (2, out))
        self.assertIn(no_orders, err)
        self.assertIn(f"watch.py: {bad / 'orders.txt'}: line 1 isn't an order", err)
        self.assertEqual(err.count("\n"), 3)
        self.assertEqual(self.watch(empty, bad, "--once")[:2], (2, ""))

    def test_one_run_stalls_and_another_ended_without_a_report(self):
        other = self.folder / "other"
        other.mkdir()
        lay("clean", other)
        self.put("report.txt", 0, 10)
        self.path("other/report.txt", b"no memory\n")
        status, _, err = self.watch(self.folder, other, "--plain", "--patience", "6")
        stalled = "watch.py: no growth for 6 s: stalled or ended\n"
        ended = f"watch.py: {other}: ended without a report: no memory\n"
        self.assertEqual((status, err), (1, stalled + ended))

    def test_a_run_without_a_report(self):
        self.path("report.txt", b"no memory\n")
        status, _, err = self.watch(self.folder, "--plain")
        self.assertEqual(
            (status, err), (1, f"watch.py: {self.folder}: ended without a report: no memory\n")
        )

    def test_one_look_at_a_run_that_nobody_has(self):
        self.put("report.txt", 0, 10)
        self.put("1.out", 153 * 160, 1)
        self.is_locked = lambda folder: False
        status, out, err = self.watch(self.folder, "--once")
        self.assertEqual((status, out), (1, "watch periods 153 of 386, 39 %, calls done 1 of 4\n"))
        said = "ended without a report: no process of this machine has the folder's lock"
        self.assertEqual(err, f"watch.py: {self.folder}: {said}\n")
        # A run that hasn't begun, or proves the program first, has no lock yet; and some systems show none.
        self.put("1.out", 153 * 160, 60)
        self.assertEqual(self.watch(self.folder, "--once")[::2], (0, ""))
        self.put("1.out", 153 * 160, 1)
        self.is_locked = lambda folder: None
        self.assertEqual(self.watch(self.folder, "--once")[::2], (0, ""))

    def test_a_run_that_is_killed(self):
        self.put("report.txt", 0, 10)
        self.put("1.out", 50 * 160, 1)
        locks = iter([True, True, False])
        self.is_locked = lambda folder: next(locks)
        status, out, err = self.watch(self.folder, "--plain")
        self.assertEqual((status, out.count("\n")), (1, 3))
        self.assertIn(
            "ended without a report: no process of this machine has the folder's lock\n", err
        )

    def test_a_run_that_never_had_the_lock(self):
        self.put("report.txt", 0, 10)
        self.put("1.out", 50 * 160, 1)
        self.is_locked = lambda folder: False
        status, out, err = self.watch(self.folder, "--plain", "--interval", "2", "--patience", "6")
        self.assertEqual((status, err), (1, "watch.py: no growth for 6 s: stalled or ended\n"))

    def test_one_of_two_runs_is_dead(self):
        other = self.folder / "other"
        other.mkdir()
        lay("clean", other)
        for folder in (self.folder, other):
            (folder / "report.txt").write_bytes(b"")
            os.utime(folder / "report.txt", (NOW - 10, NOW - 10))
        self.put("1.out", 160, 1)
        self.put("other/1.out", 160, 1)
        self.is_locked = lambda folder: folder == self.folder
        status, out, err = self.watch(self.folder, other, "--once")
        self.assertEqual((status, err.count("\n")), (1, 1))
        self.assertIn(f"{other}: ended without a report: no process", err)

    @unittest.skipUnless(SHOWS_LOCKS, "there is no flock, or the system shows no locks")
    def test_the_lock(self):
        self.assertFalse(watch.is_locked(self.folder))
        with folder_lock.alone_in(self.folder):
            self.assertTrue(watch.is_locked(self.folder))
        self.assertFalse(watch.is_locked(self.folder))
        self.assertIsNone(watch.is_locked(self.folder / "gone"))
        with mock.patch.object(folder_lock, "LOCKS", self.folder / "gone"):
            self.assertIsNone(watch.is_locked(self.folder))

    def test_refused(self):
        for words, part in (
            ([self.folder, "--interval", "0"], "--interval 0.0 isn't"),
            ([self.folder, "--periods", "0"], "--periods: 0 isn't"),
            ([self.folder, "--patience", "0"], "--patience 0.0 isn't"),
            ([self.folder, "--orders", self.folder / "gone"], "No such file"),
            ([self.folder, self.folder, "--orders", "x"], "are of one folder"),
            ([], "FOLDER"),
        ):
            self.assert_refused(watch.main, words, part)


if __name__ == "__main__":
    unittest.main()
