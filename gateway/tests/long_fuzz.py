"""libFuzzer drives the exports of libtrau_call by fuzz_calls.c, with AddressSanitizer and UndefinedBehaviorSanitizer, from real captures on.
TRAU_FUZZ_SECONDS names other seconds than 300, and TRAU_CORE another archive of the library, as one that a sanitizer watches too."""

import os
import shutil
import subprocess
import unittest

import loop_library
from support import SPEECH, TOP, InFolder

from trau.recordings.capture_walk import walk
from trau.recordings.udp_layers import Unread, udp_of
from trau.rules import rtp
from trau.rules.payload_types import GSM, PCMA, PCMU

SECONDS = os.environ.get("TRAU_FUZZ_SECONDS", "300")
CAPTURES = TOP / "tools" / "tests" / "data"
GSM_SIDE, LINE_SIDE = 0, 1
SIDES = {GSM: GSM_SIDE, PCMA: LINE_SIDE, PCMU: LINE_SIDE}
ANY_OCTETS, NEXT_PACKET, TURN, TURN_PAIR, GIVE_UP = range(5)  # as fuzz_calls.c numbers them
MOST_DATAGRAMS = 40  # of a capture
BEGINNINGS = bytes(5) + bytes((0, 1, 1, 3, 1)) + bytes(4)  # settings of both calls, the first tick
LEVEL_AND_DTX = bytes((1, 0, 1))


def datagrams(path):
    """The first datagrams of RTP in a capture that a call may take."""
    data, interfaces, found = path.read_bytes(), [], []
    for _, which, place, captured, _ in walk(data, interfaces):
        try:
            _, content, _ = udp_of(data[place : place + captured], interfaces[which].link)
        except Unread:
            continue
        if len(content) > rtp.HEADER.size and content[1] & 127 in SIDES:
            found.append(content)
    return found[:MOST_DATAGRAMS]


def seed(found):
    """An input in which these datagrams come one a period, and then again in a bridge."""
    steps = b""
    for verb in (TURN, TURN_PAIR):
        for each in found:
            side = SIDES[each[1] & 127]
            steps += bytes((ANY_OCTETS, side, 0)) + len(each).to_bytes(2, "big") + each
            steps += bytes((verb,)) + (2 * LEVEL_AND_DTX if verb == TURN else b"")
    return BEGINNINGS + steps


def made_seed():
    """An input with the other verbs: packets after one another, and time that is given up."""
    steps = b""
    for k in range(60):
        for side in (GSM_SIDE, LINE_SIDE):
            steps += bytes((NEXT_PACKET, side, 0, 1 if side == GSM_SIDE else 32, k, 0, 0))
        steps += bytes((GIVE_UP, 60)) if k == 30 else b""
        steps += bytes((TURN,)) + 2 * LEVEL_AND_DTX
    return BEGINNINGS + steps


def has_fuzzer():
    """Whether clang is installed with libFuzzer."""
    words = ["clang", "-print-file-name=libclang_rt.fuzzer-x86_64.a"]
    if not shutil.which("clang"):
        return False
    return os.path.isabs(subprocess.run(words, capture_output=True, text=True).stdout.strip())


class Fuzz(InFolder):
    def build(self):
        """The program."""
        library, made = loop_library.CLIB, self.folder / "fuzz_calls"
        core = os.environ.get("TRAU_CORE") or library / "lib" / "libtrau_call.a"
        flags = "-g -O1 -fsanitize=fuzzer,address,undefined -fno-sanitize-recover=all".split()
        source = TOP / "gateway" / "tests" / "fuzz_calls.c"
        words = ["clang", *flags, f"-I{library / 'include'}", source, core]
        subprocess.run([*words, library / "lib" / "libtrau_fr.a", "-o", made], check=True)
        return made

    @unittest.skipUnless(has_fuzzer(), "libclang-rt-dev isn't installed")
    def test_the_exports(self):
        seeds = self.folder / "seeds"
        seeds.mkdir()
        for path in sorted(CAPTURES.glob("*.pcap")):
            (seeds / path.stem).write_bytes(seed(datagrams(path)))
        (seeds / "speech").write_bytes(
            seed([bytes.fromhex("8003") + bytes(10) + frame for frame in SPEECH[:MOST_DATAGRAMS]])
        )
        (seeds / "made").write_bytes(made_seed())
        words = [self.build(), seeds, f"-max_total_time={SECONDS}", "-max_len=16384", "-seed=1"]
        ran = subprocess.run(words, capture_output=True, text=True, cwd=self.folder)
        self.assertEqual(ran.returncode, 0, ran.stderr[-4000:])
        print(ran.stderr.splitlines()[-1])


if __name__ == "__main__":
    unittest.main()
