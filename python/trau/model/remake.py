"""Makes the recorded answers of this repository anew by the model alone, and says which differ from what is recorded.

They are the outgoing lines, reports, marks, texts and sums in examples/farm/wanted and checks, the picture tools/farm.svg of the former, and
what the toolchain's own run of the program prints. Status 1 where any differs. With --write what differs is replaced, but for the answers of
libgsm in checks/vectors, which no rule of this project changes.
"""

import os
from concurrent.futures import ProcessPoolExecutor
from typing import Sequence

from trau.command_line.words import Words, number_within
from trau.model.recorded import groups, made
from trau.model.trials import TOP


def main(words: Sequence[str]) -> int:
    """Compares, and replaces where asked to; the status is 1 where anything differs."""
    parser = Words(__doc__)
    parser.add_argument("--write", action="store_true", help="replace what differs")
    parser.add_argument(
        "--jobs",
        type=number_within(1, 1_000_000_000),
        default=os.cpu_count(),
        help="processes (as many as processors)",
    )
    asked = parser.parse_args(words)
    compared = different = 0
    with ProcessPoolExecutor(asked.jobs) as pool:
        every = groups()
        for group, files in zip(every, pool.map(made, every)):
            for path, octets in sorted(files.items()):
                compared += 1
                if path.exists() and path.read_bytes() == octets:
                    continue
                different += 1
                is_written = asked.write and group.is_replaced
                print(f"{path.relative_to(TOP)}: {'written' if is_written else 'differs'}")
                if is_written:
                    path.write_bytes(octets)
    print(f"{compared} files, {different} differ")
    return 1 if different else 0
