"""The gateway's loop in C under sanitizers, and its core beside Python on a thousand random networks. It takes some 20 minutes."""

import shutil
import subprocess
import sys
import unittest
from collections import Counter
from pathlib import Path

import core_networks
import loop_library
from loop_library import with_compiler
from support import with_program

TESTS = Path(__file__).resolve().parent
RUNS, PERIODS = 1000, 600


class Networks(unittest.TestCase):
    def test_the_core_does_as_python(self):
        core, counts = core_networks.load(loop_library.given()), Counter()
        for seed in range(RUNS):
            run = core_networks.Run(core, seed)
            self.assertIsNone(run.differs_at(PERIODS), f"seed {seed}")
            counts += run.counts()
            run.end()
        print(f"{RUNS} runs of {PERIODS} periods, two calls each: {dict(sorted(counts.items()))}")


@with_compiler
@with_program
class Sanitizers(unittest.TestCase):
    """A sanitizer that finds something ends the process, and the test with it."""

    def run_under(self, sanitizer, *words):
        """Runs a test with the loop under a sanitizer."""
        if loop_library.runtime(sanitizer) is None:
            self.skipTest("gcc isn't installed")
        # That of threads needs memory at its places (setarch -R).
        still = [setarch, "-R"] if (setarch := shutil.which("setarch")) else []
        ran = subprocess.run(
            [*still, sys.executable, *words],
            cwd=TESTS,
            env=loop_library.environment(sanitizer),
            stdout=subprocess.PIPE,
            stderr=subprocess.STDOUT,
            text=True,
        )
        self.assertEqual(ran.returncode, 0, ran.stdout)
        for word in ("runtime error", "Sanitizer:"):
            self.assertNotIn(word, ran.stdout)

    def test_memory(self):
        for module in ("test_turned.py", "test_live.py"):
            self.run_under("memory", module)
        self.run_under("memory", "test_pump.py", "Networks", "Clocks", "Loops")

    def test_threads(self):
        self.run_under("threads", "test_live.py")


if __name__ == "__main__":
    unittest.main()
