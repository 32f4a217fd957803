"""The check of a recording: it says which octet differs, and what a kill or a full disk left is compared as far as it goes."""

import ctypes.util
import os
import subprocess
import sys
import unittest
import unittest.mock

from support import GATEWAY, LINE, SPEECH, InFolder, Turned, open_line, repeated, with_program

from trau.gateway import gateway
from trau.gateway.rtp import ALAW, GSM
from spoiler import Faults, schedule


@with_program
class Checks(InFolder):
    def record(self, periods=60):
        """A recording of three calls, of which two are bridged for a while."""
        folder = self.folder / "rec"
        turned = Turned(folder)
        for call in (1, 2, 3):
            faults = Faults(loss=0.1)
            gsm, pcm = repeated(SPEECH, periods), repeated(LINE, periods, 9 * call)
            turned.bring(
                call, schedule(gsm, GSM, call, faults), schedule(pcm, ALAW, call + 9, faults)
            )
        turned.run(
            {
                0: [open_line(1), open_line(2)],
                10: [open_line(3), "bridge 1 2"],
                40: ["unbridge 1"],
                50: ["close 3"],
            },
            periods,
        )
        return folder

    def cut(self, name, octets):
        """Cuts octets off a file of the recording."""
        path = self.folder / "rec" / name
        os.truncate(path, path.stat().st_size - octets)

    def test_equal(self):
        lines = [
            "call 1 periods 60 equal",
            "call 2 periods 60 equal",
            "call 3 periods 40 equal",
            "calls 3 differ 0",
        ]
        self.assertEqual(self.checked(self.record()), (0, lines))

    def test_one_changed_octet(self):
        for name, octet, place in (
            ("2.out", 8123, "period 50, octet 8123"),
            ("1.down", 999, "period 24, octet 999"),
        ):
            folder, said = self.record(), f"{name[2:]} differs in {place}"
            path = folder / name
            data = bytearray(path.read_bytes())
            data[octet] ^= 1
            path.write_bytes(bytes(data))
            status, lines = self.checked(folder)
            self.assertEqual(status, 1)
            self.assertIn(f"call {name[0]} periods 60 {said}", lines)
            self.assertEqual(lines[-2], "calls 3 differ 1")
            folder.rename(self.folder / name)

    def test_lost_orders(self):
        folder = self.record()
        whole = (folder / "orders.txt").read_text().splitlines(True)
        for left in ([], whole[:1], whole[:-1], [order for order in whole if " 3" not in order]):
            (folder / "orders.txt").write_text("".join(left))
            self.assertEqual(
                self.checked(folder), (1, [f"orders.txt has {len(left)} orders of 14"])
            )

    def test_a_line_that_is_too_long(self):
        for name, size in (("1.out", 160), ("2.up", 1), ("3.pcm", 160)):
            folder = self.record()
            with open(folder / name, "ab") as line:
                line.write(bytes(size))
            status, lines = self.checked(folder)
            self.assertEqual((status, lines[-2]), (1, "calls 3 differ 1"))
            self.assertIn(
                f" {name[2:]} differs: it has {(folder / name).stat().st_size} octets",
                lines[int(name[0]) - 1],
            )
            folder.rename(self.folder / name)

    def test_a_run_that_fails(self):
        folder, program = self.record(20), self.folder / "program"
        program.write_text("#!/bin/sh\necho out of order; exit 1\n")
        program.chmod(0o755)
        status, _, err = self.run_tool(gateway.main, ["check", str(folder), "--trau", str(program)])
        self.assertEqual(
            (status, err), (2, f"gateway.py: {program} run ended with status 1: out of order\n")
        )

    def test_a_program_that_isnt_there(self):
        folder, program = self.record(20), self.folder / "program"
        status, _, err = self.run_tool(gateway.main, ["check", str(folder), "--trau", str(program)])
        other = "--trau names another, as trau-model, the model, which is slow"
        said = f"gateway.py: {program}: No such file or directory; {other}\n"
        self.assertEqual((status, err), (2, said))

    def killed(self, every):
        """A recording of a gateway that was killed: clock.txt doesn't say that it ended."""
        folder = self.record()
        clock = (
            (folder / "clock.txt")
            .read_text()
            .replace("60 end 14\n", "")
            .replace("0 every 1\n", f"0 every {every}\n")
        )
        (folder / "clock.txt").write_text(clock)
        return folder

    def test_what_a_kill_leaves(self):
        folder = self.killed(14)
        self.cut("orders.txt", len("60 close 2\n") + 4)
        self.cut("1.down", 15 * 40)
        self.cut("2.up", 41)
        cut = "cut at period 45, 35 recorded periods of calls not compared"
        lines = [
            cut,
            "call 1 periods 45 equal",
            "call 2 periods 45 equal",
            "call 3 periods 35 equal",
            "calls 3 differ 0",
        ]
        self.assertEqual(self.checked(folder), (0, lines))

    def test_a_line_that_lacks_more_than_a_kill_takes(self):
        folder = self.killed(13)
        self.cut("1.down", 15 * 40)
        said = "call 1 periods 45 a line is short or missing"
        self.assertEqual(
            self.checked(folder)[1][:4],
            [said, "call 2 periods 60 equal", "call 3 periods 40 equal", "calls 3 differ 1"],
        )

    def test_a_short_line_of_a_recording_that_ended(self):
        for name, octets in (("1.up", 1), ("3.out", 160), ("2.down", 40)):
            folder = self.record()
            self.cut(name, octets)
            status, lines = self.checked(folder)
            self.assertEqual((status, lines[-2]), (1, "calls 3 differ 1"))
            self.assertRegex(lines[0], rf"^call {name[0]} periods \d+ a line is short or missing$")
            folder.rename(self.folder / name)

    def test_a_call_without_files(self):  # as if they couldn't be made
        folder = self.record()
        for path in folder.glob("3.*"):
            path.unlink()
        status, lines = self.checked(folder)
        said = "call 3 periods 0 a line is short or missing"
        equal = ["call 1 periods 60 equal", "call 2 periods 60 equal"]
        self.assertEqual((status, lines[:4]), (1, [said, *equal, "calls 3 differ 1"]))

    def test_nothing_is_left(self):
        folder = self.record()
        for name in ("1.up", "2.up", "3.up"):
            (folder / name).unlink()
        status, lines = self.checked(folder)
        self.assertEqual((status, lines[-2]), (1, "calls 3 differ 3"))

    def test_nothing_to_compare(self):
        folder, said = self.killed(1), "it has no end, and nothing was compared"
        (folder / "orders.txt").write_text("")
        status, lines = self.checked(folder)
        self.assertEqual((status, lines[:2]), (1, ["calls 0 differ 0", said]))
        Turned(self.folder / "idle").run({}, 5)
        self.assertEqual(self.checked(self.folder / "idle"), (0, ["calls 0 differ 0"]))

    def test_an_order_that_a_run_refuses(self):
        folder = self.record()
        orders = folder / "orders.txt"
        orders.write_text(orders.read_text().replace("40 unbridge 1", "40 unbridge 3"))
        status, lines = self.checked(folder)
        self.assertEqual((status, lines[0]), (1, "the run refused the order 40 unbridge 3"))

    def test_by_the_model(self):
        folder = self.record(20)
        with unittest.mock.patch.dict(os.environ, {"TRAU_PROGRAM": "model"}):
            self.assertEqual(self.run_tool(gateway.main, ["check", str(folder)])[0], 0)

    def test_the_folder_of_the_replay(self):
        folder, again = self.record(20), self.folder / "again"
        self.assertEqual(
            self.run_tool(gateway.main, ["check", str(folder), "--again", str(again)])[0], 0
        )
        self.assertEqual((again / "1.out").read_bytes(), (folder / "1.out").read_bytes())
        self.assertEqual(again.stat().st_mode & 0o777, 0o700)


class Ends(InFolder):
    def test_bad_words(self):
        none = str(self.folder / "none")
        bad = (
            (["check", none], "No such file"),
            (["check"], "FOLDER"),
            ([], "run|check"),
            (["run", none, "--most", "0"], "--most"),
            (["run", none, "--address", "host"], "host isn't an IPv4 address"),
        )
        for words, said in bad:
            status, _, err = self.run_tool(gateway.main, words)
            self.assertEqual((status, err.count("\n")), (2, 1), err)
            self.assertIn(said, err)

    def test_help(self):
        for words in (["--help"], ["run", "--help"], ["check", "--help"]):
            status, out, _ = self.run_tool(gateway.main, words)
            self.assertEqual((status, out[:6]), (0, "usage:"))

    @unittest.skipIf(ctypes.util.find_library("trau_fr"), "the system has the library")
    def test_without_the_library(self):
        words = [sys.executable, "-B", str(GATEWAY / "gateway.py"), "run", str(self.folder / "rec")]
        given = {**os.environ, "TRAU_CLIB": str(self.folder)}
        ran = subprocess.run(
            words,
            env=given,
            stdin=subprocess.DEVNULL,
            stdout=subprocess.PIPE,
            stderr=subprocess.PIPE,
            text=True,
        )
        self.assertEqual(
            (ran.returncode, ran.stdout, ran.stderr.count("\n")), (2, "", 1), ran.stderr
        )
        where = "clib/build of a clone makes it, and Debian's package libtrau-fr1 has it"
        self.assertIn(where, ran.stderr)

    def test_an_old_folder(self):
        status, _, err = self.run_tool(gateway.main, ["run", str(self.folder)])
        self.assertEqual((status, err), (2, f"gateway.py: {self.folder}: File exists\n"))


if __name__ == "__main__":
    unittest.main()
