"""The programs by their names. Each loads its module only when it is started, so that an interrupt
meanwhile ends it without a traceback, and another exception with a status of its own."""

import importlib
import os
import signal
import sys
import traceback
from functools import partial

# Those for users: pip (pyproject.toml) and the packages install each as trau-NAME.
COMMANDS = ("lines", "orders", "report", "shard", "timeline", "watch", "gateway", "model")

# The statuses after an exception that nobody foresaw (EX_SOFTWARE of sysexits.h), and after an
# interrupt.
UNFORESEEN = 70
INTERRUPTED = 130


def started(module: str) -> int:
    """The exit status of the program in this module of the package."""
    try:
        main = importlib.import_module(f"trau.{module}").main
    except KeyboardInterrupt:
        # It ends by the signal itself, as the interpreter would.
        signal.signal(signal.SIGINT, signal.SIG_DFL)
        os.kill(os.getpid(), signal.SIGINT)
        raise
    except Exception:
        traceback.print_exc()
        return UNFORESEEN
    try:
        status: int = main(sys.argv[1:])
    except KeyboardInterrupt:  # before or after what main itself does for one
        return INTERRUPTED
    return status


lines = partial(started, "recordings.lines")
orders = partial(started, "runs.orders")
report = partial(started, "runs.report")
shard = partial(started, "runs.shard")
timeline = partial(started, "pictures.timeline")
watch = partial(started, "runs.watch")
gateway = partial(started, "gateway.gateway")
model = partial(started, "model.program")
random_farms = partial(started, "model.random_farms")
compare_codec = partial(started, "model.compare_codec")
suite = partial(started, "suite.run")
suite_edits = partial(started, "suite.edits_run")
check = partial(started, "suite.check")
remake = partial(started, "model.remake")
build = partial(started, "packing.build")
build_for = partial(started, "packing.build_for")
package = partial(started, "packing.trau_package")
trau_words = partial(started, "packing.trau_words")
