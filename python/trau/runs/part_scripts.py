"""The scripts of a cut farm: one that runs a part, and one that runs all parts as jobs of Slurm."""

import argparse
import json
import os
import shlex
from typing import Sequence

from trau.rules.profile import PACE_OPTIONS
from trau.runs.farm_parts import FarmPart

DEFAULT_BATCH = PACE_OPTIONS["batch"].default  # of trau run

SCRIPT_TEXT = """#!/bin/sh
# Runs this part of a farm, and keeps its report and its status. Status 0: there is a whole report,
# which may name lines that failed. TRAU names another program than that of the machine on which the
# farm was cut.
case ${{TRAU:-}} in /*) ;; */*) TRAU=$PWD/$TRAU ;; esac
case ${{TRAU_PROGRAM:-}} in '' | /*) ;; *) TRAU_PROGRAM=$PWD/$TRAU_PROGRAM ;; esac
cd "$(dirname "$0")" || exit 2
rm -f status
program=${{TRAU:-}}
[ -n "$program" ] || program={trau}
{lock}status=0
"$program" run {words} <orders.txt >report.txt || status=$?
echo "$status" >status
case $status in 0 | 6) exit 0 ;; *) exit "$status" ;; esac
"""

# Parts write through links into the folder of the farm. They share its lock, which keeps out runs
# there and further cuts.
LOCK_TEXT = """farm={farm}
if [ -r "$farm" ] && command -v flock >/dev/null; then
    locked=0
    exec 8<"$farm"
    flock -n -s -E 75 8 2>/dev/null || locked=$?
    [ "$locked" != 75 ] || {{ echo "$0: another run writes lines of $farm" >&2; exit 125; }}
fi
"""

# What a part is given on a cluster: ten times the time measured (docs/PERFORMANCE.md), and more
# memory than its calls and rounds need.
SLURM_TEXT = """#!/bin/sh
#SBATCH --job-name=trau
#SBATCH --array=0-{last}
#SBATCH --cpus-per-task={workers}
#SBATCH --mem={megabytes}M
#SBATCH --time={minutes}
#SBATCH --output={output}
# Runs the parts of this cut, each as a job: sbatch --wait slurm.sh
exec sh {cut}/"$SLURM_ARRAY_TASK_ID"/run.sh
"""
MEGABYTES, OCTETS_A_CALL, OCTETS_A_PERIOD = 64, 20_000, 1_000
MINUTES, SECONDS_A_PERIOD = 5, 1e-4


def script_of(words: argparse.Namespace) -> str:
    """The script that runs a part."""
    options = [("--workers", words.workers), ("--batch", words.batch), ("--periods", words.periods)]
    said = " ".join(f"{name} {value}" for name, value in options if value is not None)
    lock = "" if words.copy else LOCK_TEXT.format(farm=shlex.quote(os.path.abspath(words.folder)))
    return SCRIPT_TEXT.format(trau=shlex.quote(words.trau), words=said, lock=lock)


def array_of(words: argparse.Namespace, parts: Sequence[FarmPart]) -> str:
    """The script that runs the parts as an array of Slurm's jobs."""
    cut = os.path.abspath(words.cut)
    calls = max(len(part.calls) for part in parts)
    octets = calls * (OCTETS_A_CALL + OCTETS_A_PERIOD * (words.batch or DEFAULT_BATCH))
    return SLURM_TEXT.format(
        last=len(parts) - 1,
        workers=words.workers,
        megabytes=MEGABYTES + octets // 1_000_000,
        minutes=MINUTES + int(max(part.periods for part in parts) * SECONDS_A_PERIOD / 60),
        output=json.dumps(f"{cut.replace('%', '%%')}/%a/log", ensure_ascii=False),
        cut=shlex.quote(cut),
    )
