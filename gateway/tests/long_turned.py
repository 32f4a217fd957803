"""An hour of two calls on a turned clock, and calls of all kinds for many seeds; each with its replay. Some minutes."""

import unittest

from support import LINE, SPEECH, InFolder, Turned, open_line, repeated, with_program
import test_turned

from trau.gateway.rtp import ALAW, GSM
from spoiler import Faults, schedule

HOUR = 180_000  # periods


@with_program
class Hour(InFolder):
    def test_an_hour_of_two_calls(self):
        turned = Turned(self.folder / "rec", every=50)
        for call, faults in (
            (1, Faults(rate=8001, jitter=0.03)),
            (2, Faults(rate=7999, jitter=0.03)),
        ):
            gsm, pcm = repeated(SPEECH, HOUR), repeated(LINE, HOUR)
            turned.bring(
                call,
                schedule(gsm, GSM, call, faults, 0.013),
                schedule(pcm, ALAW, call + 9, faults, 0.011),
            )
        said = turned.run({0: [open_line(1), open_line(2)]}, HOUR)
        self.assert_replays(self.folder / "rec")
        for call, words in (
            (1, ("no-gsm 20", "gsm-slips-on 21", "pcm-slips-on 21")),
            (2, ("no-gsm 25", "gsm-slips-back 22", "pcm-slips-back 21")),
        ):
            closing = next(line for line in said if line.startswith(f"call {call} from"))
            for count in words:
                self.assertIn(f" {count} ", closing + " ")


class Seeds(test_turned.Kinds):
    @with_program
    def test_all_kinds_and_bridges(self):
        for seed in range(100, 108):
            with self.subTest(seed=seed):
                self.run_at_random(seed, range(1, 25), 1500)
                self.assert_replays(self.folder / "rec")
                (self.folder / "rec").rename(self.folder / str(seed))


if __name__ == "__main__":
    unittest.main()
