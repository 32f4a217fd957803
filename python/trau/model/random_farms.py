"""Runs random farms by `trau` and by the model, and says where their octets, texts or statuses differ.

Farm number i, from 0, is drawn from the seed plus i, so a difference is met again by its own seed and `--count 1`. The program is the
script `trau` at the top of the repository, which TRAU_PROGRAM in the environment may lead to another binary.
"""

import argparse
import time
from concurrent.futures import ProcessPoolExecutor, as_completed
from pathlib import Path
from typing import List, Optional, Sequence

from trau.command_line.words import Words, number_within
from trau.model.compare import MODEL, TRAU, differences, is_built
from trau.model.trials import draw_trial


def parsed(words: Sequence[str]) -> argparse.Namespace:
    """The words of the command line, as numbers."""
    parser = Words(__doc__)
    parser.add_argument("--seed", type=int, required=True, help="the first farm's seed")
    parser.add_argument(
        "--count", type=number_within(1, 1_000_000_000), required=True, help="the number of farms"
    )
    parser.add_argument(
        "--seconds", type=float, help="after so many seconds begin no farm but the first"
    )
    parser.add_argument(
        "--jobs",
        type=number_within(1, 1_000_000_000),
        default=1,
        help="farms at a time (default 1)",
    )
    parser.add_argument("--keep", type=Path, help="a new folder for the files of farms that differ")
    asked = parser.parse_args(words)
    if asked.keep is not None and asked.keep.exists():
        parser.error(f"{asked.keep} is there already")
    if not is_built(TRAU):
        parser.error(
            "no program to compare with: run ./trau once, which builds it, or name one by TRAU_PROGRAM"
        )
    return asked


def one_farm(seed: int, keep: Optional[Path], ends_at: Optional[float]) -> Optional[List[str]]:
    """The differences of a seed's farm; None where there is no time for it."""
    if ends_at is not None and time.monotonic() >= ends_at:
        return None
    return differences(draw_trial(seed), TRAU, MODEL, keep / str(seed) if keep else None)


def main(words: Sequence[str]) -> int:
    """Runs the farms, prints what differs, and answers 1 where anything does."""
    asked = parsed(words)
    ends_at = None if asked.seconds is None else time.monotonic() + asked.seconds
    done = different = 0
    with ProcessPoolExecutor(asked.jobs) as pool:
        seeds = {pool.submit(one_farm, asked.seed, asked.keep, None): asked.seed}
        for seed in range(asked.seed + 1, asked.seed + asked.count):
            seeds[pool.submit(one_farm, seed, asked.keep, ends_at)] = seed
        for future in as_completed(seeds):
            found = future.result()
            done += found is not None
            different += bool(found)
            for line in found or []:
                print(f"seed {seeds[future]}: {line}", flush=True)
            if found is not None and done % 100 == 0:
                print(f"so far {done} farms, {different} differ", flush=True)
    print(f"{done} farms, {different} differ")
    return 1 if different else 0
