"""Makes, in the current folder, the uplinks N.up whose frames `trau frames N` lists, and the texts N.txt that it has to print.

search.py VECTORS FRAME: VECTORS/offsets.txt and lines.txt have the answers, FRAME is a file that begins with a good speech frame of an
uplink. A line is twelve periods of ones with this frame at some places.
"""

import pathlib
import sys

sys.dont_write_bytecode = True

from trau.rules.frame import bits_of, octets_of
from trau.rules.profile import FRAME_BITS


PERIODS = 12
# The places of the frames of the lines in lines.txt.
LINES = (
    # Five extra bits after the second frame: three misses, and then the search finds the frames again.
    (0, 320, 645, 965, 1285, 1605, 1925, 2245, 2565, 2885, 3205),
    # A pattern between two frames, where two frames are missing: the lock holds.
    (0, 370, 960, 1280, 1600, 1920, 2240, 2560, 2880, 3200, 3520),
    # A pattern before the first frame: the search locks on it, and loses it after three misses.
    (3, 400, 720, 1040, 1360, 1680, 2000, 2320, 2640, 2960, 3280),
)


def line(frame, places):
    bits = "1" * (PERIODS * FRAME_BITS)
    for place in places:
        bits = bits[:place] + frame + bits[place + FRAME_BITS :]
    return octets_of(bits[: PERIODS * FRAME_BITS])


def text(answers):
    """The text for the answers of a line, of which there is one a period: a frame's place, -2 less that of a miss, or -1 for none."""
    yields = [
        f"{answer} good\n" if answer >= 0 else f"{-2 - answer} miss\n"
        for answer in answers
        if answer != -1
    ]
    return "".join(yields) + f"frames {len(yields)} left 0\n"


def rows(path):
    return [list(map(int, row.split())) for row in path.read_text().splitlines()]


def main():
    vectors, frame = pathlib.Path(sys.argv[1]), bits_of(
        pathlib.Path(sys.argv[2]).read_bytes()[: FRAME_BITS // 8]
    )
    offsets, lines = rows(vectors / "offsets.txt"), rows(vectors / "lines.txt")
    places = [(offset,) for offset in range(FRAME_BITS)] + list(LINES)
    if [len(row) for row in offsets + lines] != [PERIODS] * len(places):
        sys.exit(f"search.py: {vectors} hasn't {len(places)} lines of {PERIODS} answers")
    for number, (at, answers) in enumerate(zip(places, offsets + lines), 1):
        pathlib.Path(f"{number}.up").write_bytes(line(frame, at))
        pathlib.Path(f"{number}.txt").write_text(text(answers))


main()
