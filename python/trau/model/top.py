"""The whole program: words, lines and standard streams in, a status out (docs/commands)."""

from typing import List, Sequence, Tuple

from trau.rules import profile
from trau.rules.orders import BadLine, Order, TooLong, orders_of
from trau.rules.report import FailedLine, text_of

from trau.model import reasons
from trau.model.checkpoint import differs, mark_of, read_mark, text_of_mark
from trau.model.commands import command
from trau.model.drill import drill_text, live_text
from trau.model.farm import (
    Farm,
    faults_met,
    farm_of,
    plan_of,
    read_incoming,
    report_of,
    write_outgoing,
)
from trau.model.outside import Desk, Lines, Status
from trau.model.words import Asked, asked


class Failure(Exception):
    """Why a command did nothing: its status, the line of text that says so, and where there is
    one, the reason for standard error."""

    def __init__(self, status: Status, line: str, why: str = "") -> None:
        super().__init__(line)
        self.status = status
        self.why = why


def top(words: Sequence[str], lines: Lines, desk: Desk) -> int:
    """Carries out the command that the words ask for, and answers the program's status
    (docs/commands). That it can't be written why nothing was done leaves the status
    (docs/COMMANDS.md, "Statuses")."""
    of_a_line = command(words, lines, desk)
    if of_a_line is not None:
        return of_a_line
    try:
        return int(_others(words, lines, desk))
    except Failure as failure:
        desk.write(text_of([str(failure)]))
        if failure.why:
            desk.explain(failure.why)
        return int(failure.status)


def _others(words: Sequence[str], lines: Lines, desk: Desk) -> Status:
    """Carries out `run`, `save`, `resume`, `drill` or `live` (docs/commands)."""
    command = asked(words)
    if command is None:
        raise Failure(Status.USAGE, "usage", reasons.of_words(words))
    if command.command in ("drill", "live"):
        text = drill_text if command.command == "drill" else live_text
        return say(text(command.seed, command.calls, command.periods), False, desk)
    return {"run": run, "save": save, "resume": resume}[command.command](command, lines, desk)


def say(text: str, has_failed_lines: bool, desk: Desk) -> Status:
    """Writes a command's text at its end: a standard output that fails goes before lines that
    failed (docs/COMMANDS.md, "Statuses")."""
    if not desk.write(text):
        return Status.UNWRITTEN
    return Status.LINE_FAILED if has_failed_lines else Status.DONE


def read_desk(most: int, desk: Desk) -> bytes:
    """All of standard input where it has `most` octets at most: a failure goes before too many
    octets (docs/COMMANDS.md, "Statuses")."""
    given = desk.read(most + 1)
    if given.failed:
        raise Failure(Status.UNREAD, "orders unread")
    if len(given.octets) > most:
        raise Failure(Status.TOO_LONG, "orders too long")
    return given.octets


def read_orders(text: bytes) -> List[Order]:
    """The orders of a text (docs/COMMANDS.md, "Statuses")."""
    try:
        return orders_of(text)
    except TooLong:
        raise Failure(Status.TOO_LONG, "orders too long") from None
    except BadLine as bad:
        raise Failure(
            Status.BAD_LINE, f"orders line {bad.line}", reasons.of_orders(text, bad.line)
        ) from None


def work(command: Asked, lines: Lines, desk: Desk) -> Tuple[Farm, List[FailedLine]]:
    """Reads the orders and the lines that they ask for, writes what comes of them, and answers that
    with the lines that failed, by call and of a call in the order up, pcm, down, out
    (docs/commands/run.md)."""
    orders = read_orders(read_desk(profile.MOST_ORDER_OCTETS, desk))
    plan = plan_of(orders, command.periods, read_incoming(orders, command.periods, lines))
    farm = farm_of(plan)
    return farm, sorted(faults_met(plan, command.batch) + write_outgoing(farm, lines))


def run(command: Asked, lines: Lines, desk: Desk) -> Status:
    """`run`: the orders' calls, and the report (docs/commands/run.md)."""
    farm, failed = work(command, lines, desk)
    return say(report_of(farm, failed).text(), bool(failed), desk)


def save(command: Asked, lines: Lines, desk: Desk) -> Status:
    """`save`: a run to the mark's period, and the mark, or the lines that failed
    (docs/commands/save.md)."""
    farm, failed = work(command, lines, desk)
    text = (
        text_of([line.line() for line in failed])
        if failed
        else text_of_mark(mark_of(farm, command.periods))
    )
    return say(text, bool(failed), desk)


def resume(command: Asked, lines: Lines, desk: Desk) -> Status:
    """`resume`: the whole run again, of which the octets from the mark's period on are written
    (docs/commands/resume.md).

    Before anything is written, the calls that are open at the mark's period are compared with the
    mark's.
    """
    try:
        mark, rest = read_mark(read_desk(profile.MOST_MARKED_OCTETS, desk))
    except BadLine as bad:
        raise Failure(Status.BAD_LINE, f"save line {bad.line}", reasons.of_mark(bad.line)) from None
    orders = read_orders(rest)
    periods = max(mark.period, command.periods)
    incoming = read_incoming(orders, periods, lines)
    call = differs(mark, mark_of(farm_of(plan_of(orders, mark.period, incoming)), mark.period))
    if call is not None:
        raise Failure(Status.DIFFERS, f"save differs {call}")
    plan = plan_of(orders, periods, incoming)
    farm = farm_of(plan)
    failed = sorted(
        faults_met(plan, command.batch, [mark.period]) + write_outgoing(farm, lines, mark.period)
    )
    return say(report_of(farm, failed).text(), bool(failed), desk)
