"""Frames of GSM as frames of an uplink in little time (trau.recordings.speech_frames): the same as
by the rules one by one."""

import random
import unittest

from support import DATA

from trau.recordings.code_word import Marker, errors_of, kind_of
from trau.recordings.speech_frames import are_speech, errors_of_frames
from trau.recordings.uplink_frames import UplinkFrames
from trau.rules.frame import FrameKind
from trau.rules.parameters import data_of_gsm, gsm_of_data

SEED = 10


def frames():
    """Recorded speech, random frames, and damaged silence descriptors."""
    source, speech = random.Random(SEED), (DATA / "speech.gsm").read_bytes()
    found = [speech[start : start + 33] for start in range(0, len(speech), 33)]
    found += [bytes([0xD0 | source.randrange(16)]) + source.randbytes(32) for _ in range(60)]
    for errors in range(30):
        data = list("0" * 260)
        for place in source.sample(range(260), errors):
            data[place] = "1"
        found.append(gsm_of_data("".join(data)))
    source.shuffle(found)
    return found


class SameAsByTheRules(unittest.TestCase):
    """Both ways give the same octets and counts."""

    def test_kinds(self):
        given = frames()
        datas = [data_of_gsm(frame) for frame in given]
        errors = bytes(errors_of(data) for data in datas)
        self.assertEqual(errors_of_frames(b"".join(given)), errors)
        speech = bytes(kind_of(data) is FrameKind.SPEECH for data in datas)
        self.assertEqual(are_speech(b"".join(given)), speech)
        self.assertEqual(b"".join(map(are_speech, given)), speech)

    def test_uplinks(self):
        for keeps in (False, True):
            for dtxd in (False, True):
                one, other = (UplinkFrames(Marker(keeps, dtxd)) for _ in range(2))
                for given in (frames(), frames()[:9], frames()[:1]):
                    one.take_gsm(b"".join(given))
                    one.lose()
                    other.take_all([*map(data_of_gsm, given), None])
                self.assertEqual(one.line(), other.line())
                self.assertEqual(one.marker.counts, other.marker.counts)
                self.assertEqual(one.drained(), other.drained())
                self.assertEqual(one.line(), b"")


if __name__ == "__main__":
    unittest.main()
