"""How every tool ends: with its own status, or with one line on standard error and a status that
means nothing else.

Status 2: the tool refused its input, a file or standard output failed, or memory ran out. Status
130: it was interrupted. In these cases no tool of this folder ends with a traceback. Status 70: an
exception that nobody foresaw, which is a fault of the tool; its traceback says where.
"""

import contextlib
import functools
import os
import sys
import traceback
from pathlib import Path
from typing import Callable, Iterable, Iterator, Sequence, TypeVar

from trau.command_line.words import Refusal, as_started, printable
from trau.programs import INTERRUPTED, UNFORESEEN


FAILED = Refusal.status
NO_MEMORY = "not enough memory"

# The main function of a tool: it takes the words of the command line and returns the exit status.
Main = Callable[[Sequence[str]], int]


@contextlib.contextmanager
def naming(path: Path) -> Iterator[None]:
    """Gives what fails in here the name of this file, which the system leaves out where a disk is
    full."""
    try:
        yield
    except OSError as failure:
        failure.filename = str(path)
        raise


def complain(name: str, what: str) -> None:
    """Prints the one line on standard error, if anybody can read it."""
    try:
        print(f"{as_started(name)}: {printable(what)}", file=sys.stderr, flush=True)
    except OSError:
        pass


def reason_of(failure: OSError) -> str:
    """What failed, and why. The tools name each file that they write; a failure without a name is
    one of standard output."""
    name = "standard output" if failure.filename is None else os.fsdecode(failure.filename)
    return f"{name}: {failure.strerror or failure}"


def drop_output() -> None:
    """Sends what is left of standard output nowhere. The interpreter would try to write it again,
    and end with a status of its own."""
    try:
        os.dup2(os.open(os.devnull, os.O_WRONLY), sys.stdout.fileno())
    except (OSError, ValueError):
        pass


def ready_streams() -> None:
    """Makes the standard streams fit to print to: names of files that aren't text are escaped, and
    a closed standard error takes all."""
    if sys.stderr is None:
        sys.stderr = open(os.devnull, "w", encoding="utf-8")
    if hasattr(sys.stdout, "reconfigure"):
        sys.stdout.reconfigure(errors="backslashreplace")


def status_of(name: str, main: Main, words: Sequence[str]) -> int:
    """The exit status of a tool's main function; it prints what stopped it in one line, or the
    traceback of what nobody foresaw."""
    try:
        return main(words)
    except SystemExit as end:  # of argparse, which has printed its own line
        return int(end.code or 0)
    except Refusal as refusal:
        complain(name, str(refusal))
        return refusal.status
    except OSError as failure:
        complain(name, reason_of(failure))
    except MemoryError:
        complain(name, NO_MEMORY)
    except KeyboardInterrupt:
        return INTERRUPTED
    except Exception:
        with contextlib.suppress(OSError):
            traceback.print_exc()
        return UNFORESEEN
    return FAILED


Item = TypeVar("Item")


def for_each(name: str, items: Iterable[Item], does: Callable[[Item], None]) -> int:
    """Does something for each item, also for those after one that it refuses. Each refused one gets
    its line. Returns the status of the worst."""
    worst = 0
    for item in items:
        try:
            does(item)
        except Refusal as refusal:
            complain(name, str(refusal))
            worst = max(worst, refusal.status)
        except MemoryError:
            complain(name, NO_MEMORY)
            worst = max(worst, FAILED)
        except OSError as failure:
            if failure.filename is None:  # standard output, which won't take the others either
                raise
            complain(name, reason_of(failure))
            worst = max(worst, FAILED)
        except Exception:
            with contextlib.suppress(OSError):
                traceback.print_exc()
            worst = UNFORESEEN
    return worst


def tool(name: str, prints: bool = True) -> Callable[[Main], Main]:
    """Decorates the main function of the tool with this name, so that it ends as this module says.
    A tool that prints does nothing where standard output is closed."""

    def decorated(main: Main) -> Main:
        @functools.wraps(main)
        def ended(words: Sequence[str]) -> int:
            ready_streams()
            if sys.stdout is None:
                if not prints:
                    return status_of(name, main, words)
                complain(name, "standard output is closed")
                return FAILED
            status = status_of(name, main, words)
            try:
                sys.stdout.flush()
            except OSError as failure:
                drop_output()
                if status in (FAILED, UNFORESEEN):
                    return status
                complain(name, reason_of(failure))
                return FAILED
            return status

        return ended

    return decorated
