"""The commands of docs/GATEWAY.md, run as a new user would, but for the ports, which somebody may have. With GStreamer and ffmpeg, their commands
too. The tools read a recording as the page says."""

import json
import re
import shlex
import shutil
import signal
import subprocess
import sys
import unittest

from live_support import WithLive, even_port, with_loopback
from support import (
    GATEWAY,
    PROGRAM,
    SPEECH,
    TOP,
    InFolder,
    Turned,
    open_line,
    repeated,
    with_program,
)

from trau.gateway import gateway
from trau.runs import report
from trau.gateway.rtp import GSM
from spoiler import schedule

PAGE = (TOP / "docs" / "GATEWAY.md").read_text()
BLOCKS = re.findall(r"^```\w+\n(.*?)^```$", PAGE, re.M | re.S)


@with_loopback
@with_program
class Page(WithLive):
    def test_commands(self):
        run, opening, station, exchange, check, _ = BLOCKS
        self.assertEqual(run.split(), ["gateway/gateway.py", "run", "recording"])
        line, reply = opening.splitlines()
        live = self.live(self.folder / "recording")
        port, other, said = 0, 0, "in use"
        while "in use" in said:
            port, other = even_port(), even_port()
            said = live.ask(line.replace("6000", str(port)).replace(" 6004", f" {other}"))
        self.assertEqual(re.sub(r"\d+", "N", said), re.sub(r"\d+", "N", reply))
        words = shlex.split(
            station.replace("\\\n", "")
            .replace("num-buffers=400", "num-buffers=40")
            .replace("port=6000", f"port={port}")
        )
        with self.subTest("a base station"):
            inspect = shutil.which("gst-inspect-1.0")
            if (
                not inspect
                or subprocess.run(
                    [inspect, "gsmenc"], stdout=subprocess.DEVNULL, stderr=subprocess.DEVNULL
                ).returncode
            ):
                self.skipTest("gstreamer1.0-tools or gstreamer1.0-plugins-bad isn't installed")
            subprocess.run(words, stdout=subprocess.DEVNULL, check=True)
        make, send = (shlex.split(words) for words in exchange.splitlines())
        sound = [sys.executable, "-B", str(TOP / make[0]), make[1], str(TOP / make[2]), make[3]]
        subprocess.run(sound, cwd=self.folder, stdout=subprocess.DEVNULL, check=True)
        self.assertEqual(
            (send[:4], send[-1]), (["ffmpeg", "-re", "-i", make[3]], "rtp://127.0.0.1:6004")
        )
        with self.subTest("an exchange"):
            if not shutil.which("ffmpeg"):
                self.skipTest("ffmpeg isn't installed")
            quiet = {
                "stdin": subprocess.DEVNULL,
                "stdout": subprocess.DEVNULL,
                "stderr": subprocess.DEVNULL,
            }
            subprocess.run(
                [*send[:-1], send[-1].replace("6004", str(other))],
                cwd=self.folder,
                check=True,
                **quiet,
            )
        live.wait_for_periods(1, 5)
        self.assertEqual(live.end(signal.SIGINT), 0)
        command, *wanted = check.splitlines()
        words = [sys.executable, "-B", *command.split()[1:]]
        self.assertEqual(words[2], f"{GATEWAY.name}/gateway.py")
        given = {
            "cwd": self.folder,
            "env": {"TRAU_PROGRAM": PROGRAM, "PATH": "/usr/bin:/bin"},
            "stdout": subprocess.PIPE,
            "text": True,
        }
        ran = subprocess.run([*words[:2], str(TOP / words[2]), *words[3:]], **given)
        periods = [
            re.sub(r"periods \d+", "periods N", line)
            for line in (*ran.stdout.splitlines(), *wanted)
        ]
        self.assertEqual(periods[: -len(wanted)], periods[-len(wanted) :])


class Recording(InFolder):
    def reported(self, command, folder):
        """What report.py says of a folder."""
        status, out, err = self.run_tool(report.main, [command, str(folder), "--json"])
        self.assertEqual((status, err), (0, ""))
        return json.loads(out)

    def test_the_line_of_events(self):
        *_, line = BLOCKS
        (self.folder / "events.txt").write_text(line)
        rows = [
            " ".join(str(row[word]) for word in ("period", "call", "what", "count"))
            for row in self.reported("events", self.folder)
        ]
        self.assertEqual(rows, ["150 1 gsm-late 2", "150 1 gsm-missing 1"])
        for words in ("150 call 1", "gsm-late 2"):
            self.assertIn(f"| `{words}` |", PAGE)
            self.assertIn(words, line)

    @with_program
    def test_losses_and_their_times(self):
        # A base station that begins after half a second, whose packets 20 to 22 are lost, and that is gone after 60.
        recording, again, periods = self.folder / "recording", self.folder / "again", 150
        packets = schedule(repeated(SPEECH, 60), GSM, 1, start=0.5)
        turned = Turned(recording)
        turned.bring(1, packets[:20] + packets[23:])
        turned.run({0: [open_line(1)]}, periods)
        self.assertEqual(
            self.run_tool(gateway.main, ["check", str(recording), "--again", str(again)])[0], 0
        )
        (call,), losses = self.reported("calls", again), self.reported("losses", again)
        begun = call["quiet"]
        self.assertGreaterEqual(begun, 25)
        self.assertEqual((call["speech"], call["lost"]), (57, periods - begun - 57))
        wanted = [(begun + 20, 3, "speech"), (begun + 60, periods - begun - 60, "end")]
        self.assertEqual([(row["period"], row["periods"], row["then"]) for row in losses], wanted)
        self.assertLess(call["utc"], losses[0]["utc"])
        events = self.reported("events", recording)
        self.assertEqual(sum(row["count"] for row in events if row["what"] == "gsm-missing"), 3)
        self.assertTrue(all(row["utc"] > call["utc"] for row in events))


if __name__ == "__main__":
    unittest.main()
