"""The commands, options and statuses of trau, in one place, and what is made of them: the help of the script `trau`
(help.txt, and pages.txt of each command), the man page and the completion of words in bash.

The documents say the same at greater length; the tests of the tools hold both to each other.
"""


import sys
import textwrap
from typing import Dict, Iterable, List, NamedTuple, Sequence, Tuple

from trau.rules import profile
from trau.command_line.words import Words
from trau.command_line.ends import tool

NAME = "trau"
PURPOSE = "the GSM transcoder and rate adaptor unit, on recorded lines"


class Command(NamedTuple):
    """A command, with its words behind the name, the statuses that it ends with, what it does, with
    the lines that it takes and writes, and the greatest number of a call that it takes."""

    name: str
    words: str
    statuses: Tuple[int, ...]
    does: str
    last_call: int = profile.MOST_CALLS


class Option(NamedTuple):
    """An option of `run`, `save`, `resume`, `drill` or `live`, with the range of its value."""

    name: str
    values: profile.OptionRange
    means: str


class StatusText(NamedTuple):
    """A status of the program, and the text on standard output."""

    number: int
    means: str
    text: str


CALL = "C"
COMMANDS = (
    Command(
        "run",
        "[OPTIONS] <ORDERS",
        (0, 1, 2, 3, 4, 5, 6, 7),
        "reads orders from standard input, processes the calls that they open, writes their outgoing"
        " lines, and prints the report",
    ),
    Command(
        "save",
        "[OPTIONS] <ORDERS",
        (0, 1, 2, 3, 4, 5, 6, 7),
        "runs as run does up to the period of --periods, which is required, and prints a mark instead of the"
        " report: the open calls with sums of what went out",
    ),
    Command(
        "resume",
        "[OPTIONS] <MARKED",
        (0, 1, 2, 3, 4, 5, 6, 7, 9),
        "reads a mark and the orders after it, processes the same lines from the start, writes what follows the"
        " mark's period, and prints the whole run's report",
    ),
    Command(
        "drill",
        "[OPTIONS]",
        (0, 1, 4, 5),
        "draws lines from a number, runs orders over them in memory as run does, and prints the report, with sums"
        " of what goes out; it uses no file",
    ),
    Command(
        "live",
        "[OPTIONS]",
        (0, 1, 4, 5),
        "starts callers on threads, which post periods, drawn from a number, to calls and process them; prints"
        " sums of what goes out; it uses no file",
    ),
    Command(
        "relay",
        CALL,
        (0, 1, 4, 5, 6, 8),
        "reads C.up, and writes its good speech frames to C.down with the same 260 data bits",
    ),
    Command(
        "decode",
        CALL,
        (0, 1, 4, 5, 6, 8),
        "reads C.up, and writes the A-law of its good speech frames to C.out",
    ),
    Command("encode", CALL, (0, 1, 4, 5, 6), "reads C.pcm, and writes its speech frames to C.down"),
    Command(
        "frames",
        CALL,
        (0, 1, 4, 5, 6),
        "searches C.up for frames at any bit, and prints a line of text for each; it writes no file",
    ),
    Command(
        "split",
        CALL,
        (0, 1, 4, 5, 6),
        "reads the time slot C.pcm, and writes its four channels to the Down lines of calls C to C + 3",
        profile.MOST_SLOT_CALL,
    ),
    Command(
        "merge",
        CALL,
        (0, 1, 4, 5, 6),
        "reads C.up and the Up lines of the next three calls as four channels, and writes the time slot C.out",
        profile.MOST_SLOT_CALL,
    ),
    Command(
        "follow",
        "C W",
        (0, 1, 4, 5, 6),
        "reads C.up as a downlink, prints a line of text for each frame that a base station finds on it, and"
        " writes to C.down what it sends up, asking for frames at W modulo 320, 0 to 316 and a multiple of 4",
    ),
)

PACE = {
    "workers": "the threads that process the calls",
    "batch": "the most periods that are read, processed and written at a time",
    "slice": "the periods of a call that are processed in one go",
}
MEANINGS = {
    "run": {
        **PACE,
        "periods": "the period at which the run ends, required by save; resume goes on to its mark's if that is greater",
    },
    "drill": {
        **PACE,
        "periods": "the periods of the drill",
        "seed": "the number that lines are drawn from",
        "calls": "the calls of the drill",
    },
    "live": {
        "seed": "the number that periods are drawn from",
        "calls": "the calls",
        "periods": "the periods of each call",
        "callers": "the callers, each on a thread of its own",
        "inbox": "the posts that may wait at a call",
    },
}
OPTIONS_OF = {
    command: tuple(
        Option(f"--{name}", profile.OPTIONS[command][name], means)
        for name, means in meanings.items()
    )
    for command, meanings in MEANINGS.items()
}

# The commands that have these options too.
ALSO: Dict[str, Tuple[str, ...]] = {"run": ("save", "resume")}

ORDERS = (
    ("S open C", "the call begins"),
    ("S open C mulaw", "it begins, with mu-law from and to the exchange in place of A-law"),
    ("S close C", "the call ends"),
    ("S bridge C D", "frames of the two calls are handed over without decoding"),
    ("S unbridge C", "they are handed over no more"),
    ("S level C V", "a frame whose peak is below this level counts as one without speech"),
    (
        "S dtx C on|off|uplink",
        "silence descriptors instead of frames without speech: always, never, or as the uplink asks",
    ),
)

STATUSES = (
    StatusText(
        0,
        "the command ran to its end, and no line failed",
        "the command's text; of run, resume and drill, the report",
    ),
    StatusText(1, "these words are no command", "usage"),
    StatusText(
        2, "line N of the orders or of the mark isn't in the grammar", "orders line N, save line N"
    ),
    StatusText(3, "standard input failed while the orders were read", "orders unread"),
    StatusText(
        4, "standard output failed while the command's text went out", "the beginning of the text"
    ),
    StatusText(5, "out of memory", "no memory"),
    StatusText(
        6,
        "a line failed",
        "line C up failed, with the line's side; the report, which names the lines",
    ),
    StatusText(
        7,
        "the orders have more than 1,048,576 octets or more than 65,536 lines, or with their mark more than 1,310,720 octets",
        "orders too long",
    ),
    StatusText(8, "a block isn't a good speech frame", "relay refused N, decode refused N"),
    StatusText(
        9, "the mark isn't that of this run: call C is the least that differs", "save differs C"
    ),
    StatusText(
        125,
        "(of the script trau) there is no program to run, or another run writes lines of this folder",
        "",
    ),
)

FILES = (
    ("C.up", "from the base station: TRAU frames, 40 octets in a period of 20 ms"),
    ("C.pcm", "from the exchange: A-law or mu-law, 160 octets in a period"),
    ("C.down", "to the base station: TRAU frames"),
    ("C.out", "to the exchange: A-law or mu-law"),
)

NOTE_ON_FILES = (
    "Lines are files of the current folder. C is a call's number, 1 to 4,096, in decimal digits without leading zeros. The"
    " commands of one call write the same files as run does."
)
NOTE_ON_OPTIONS = (
    "A value is the next word, or follows an equals sign. Each option is given once at most."
)
NOTE_ON_ORDERS = (
    "An order is a line of words with one space between. S is the period at whose start it takes effect. Comments and empty lines"
    " aren't orders; tools/orders.py strip, installed as trau-orders, leaves them out."
)
NOTE_ON_HELP = (
    "help and --help print a help, help COMMAND and COMMAND --help the page of a command, and --version says what is installed."
    " What is wrong with words that are no command, and why a line failed, is printed on standard error."
)
NOTE_ON_LOCK = (
    "A command that writes lines locks the folder (flock(1)) while it runs, so that two don't write into each other's lines; the"
    " second ends with status 125. With --no-lock as the first word it starts all the same."
)

NOTE_ON_PROGRAMS = (
    "There are two programs, for x86-64-v2 and, faster, for x86-64-v3, which write the same. The one that the machine's processor can run is"
    " started; TRAU_CPU=x86-64-v2 in the environment starts the first. --version says which one it is."
)


# Text of lines


def folded(words: str, indent: str, width: int = 79) -> List[str]:
    """The words in lines that aren't longer than the width, each behind the indent."""
    lines = textwrap.wrap(
        " ".join(words.split()),
        width,
        initial_indent=indent,
        subsequent_indent=indent,
        break_long_words=False,
        break_on_hyphens=False,
    )
    return lines or [indent]


def table(rows: Iterable[Tuple[str, str]]) -> List[str]:
    """Rows of what is named and what is said of it."""
    rows = list(rows)
    wide = 2 + max(len(name) for name, _ in rows)
    lines = []
    for name, said in rows:
        first, *others = folded(said, (2 + wide) * " ")
        lines += [f"  {name:{wide}}" + first.lstrip(), *others]
    return lines


def rows_of(options: Iterable[Option]) -> List[Tuple[str, str]]:
    """Options, and what they mean with the ranges of their values."""

    def said(values: profile.OptionRange) -> str:
        return f"{values.least:,} to {values.most:,}, else {values.default:,}"

    return [(f"{option.name} N", f"{option.means} ({said(option.values)})") for option in options]


def with_its_options(command: str, joined: str) -> str:
    """The commands that have the same options, the last one joined by this."""
    *names, last = [command, *ALSO.get(command, ())]
    return ", ".join(names) + joined + last if names else last


def help_text() -> str:
    """What the script `trau` says where it is asked for help."""
    lines = [f"{NAME}: {PURPOSE}", ""]
    lines += table((f"{NAME} {command.name} {command.words}", command.does) for command in COMMANDS)
    for command, options in OPTIONS_OF.items():
        lines += [
            "",
            f"Options of {with_its_options(command, ' and ')}:",
            "",
            *table(rows_of(options)),
        ]
    lines += ["", *folded(NOTE_ON_ORDERS, ""), "", *table(ORDERS)]
    lines += ["", *folded(NOTE_ON_FILES, ""), "", *table(FILES)]
    lines += ["", "Statuses:", ""]
    lines += table((str(status.number), status.means) for status in STATUSES)
    lines += ["", *folded(NOTE_ON_LOCK, ""), "", *folded(NOTE_ON_PROGRAMS, "")]
    lines += [
        "",
        "trau help COMMAND prints the page of one command; demo, beside this script,",
        "runs an example; docs/ has the rest.",
    ]
    return "\n".join(lines) + "\n"


def options_of(command: Command) -> Sequence[Option]:
    """The options that a command takes."""
    return next(
        (
            options
            for name, options in OPTIONS_OF.items()
            if command.name in (name, *ALSO.get(name, ()))
        ),
        (),
    )


def page(command: Command) -> str:
    """What the script `trau` says of one command."""
    options = options_of(command)
    lines = [
        f"{NAME} {command.name} {command.words}",
        "",
        *folded(command.does[0].upper() + command.does[1:] + ".", ""),
    ]
    if options:
        lines += ["", *folded(NOTE_ON_OPTIONS, ""), "", *table(rows_of(options))]
    if CALL in command.words.split():
        lines += [
            "",
            f"C is a call's number, 1 to {command.last_call:,}, in decimal digits without leading zeros.",
        ]
    if "ORDERS" in command.words or "MARKED" in command.words:
        lines += ["", *folded(NOTE_ON_ORDERS, ""), "", *table(ORDERS)]
    lines += ["", "Statuses, and what standard output has:", ""]
    of_it = (status for status in STATUSES if status.number in command.statuses)
    lines += table((str(status.number), f"{status.means}: {status.text}") for status in of_it)
    return "\n".join([*lines, "", f"docs/commands/{command.name}.md has the rest."]) + "\n"


def pages_text() -> str:
    """The pages of all commands, each behind a line with the command's name, as the script `trau`
    looks for them."""
    return "".join(f"== {command.name}\n{page(command)}" for command in COMMANDS)


# The man page


def escaped(words: str) -> str:
    """Words as troff takes them."""
    return words.replace("\\", "\\e").replace("-", "\\-").replace("'", "\\(aq")


def paragraphs(rows: Iterable[Tuple[str, str]]) -> List[str]:
    """Rows of a man page."""
    return [
        line
        for name, said in rows
        for line in (".TP", f".B {escaped(name)}", escaped(said[0].upper() + said[1:]) + ".")
    ]


def synopsis() -> List[str]:
    """The commands with their words, as the man page has them."""
    lines = [".SH SYNOPSIS"]
    for number, command in enumerate(COMMANDS):
        words = (
            "".join(f" [{option.name} N]" for option in OPTIONS_OF.get(command.name, ()))
            or f" {command.words}"
        )
        orders = " <ORDERS" if command.name == "run" else ""
        lines += [".br"] * (number > 0) + [f".B {NAME} {command.name}{escaped(words + orders)}"]
    return lines


def man_page(version: str, date: str) -> str:
    """The man page of this version."""
    lines = [
        f'.TH TRAU 1 "{escaped(date)}" "{escaped(version)}" "User Commands"',
        ".SH NAME",
        f"{NAME} \\- {escaped(PURPOSE)}",
        *synopsis(),
    ]
    lines += [".SH COMMANDS", escaped(NOTE_ON_FILES)]
    lines += paragraphs((f"{command.name} {command.words}", command.does) for command in COMMANDS)
    for note in (NOTE_ON_HELP, NOTE_ON_LOCK, NOTE_ON_PROGRAMS):
        lines += [".PP", escaped(note)]
    for name, options in OPTIONS_OF.items():
        lines += [
            f".SH OPTIONS OF {with_its_options(name, ' AND ').upper()}",
            NOTE_ON_OPTIONS,
            *paragraphs(rows_of(options)),
        ]
    lines += [
        ".SH ORDERS",
        escaped(NOTE_ON_ORDERS),
        *paragraphs(ORDERS),
        ".SH FILES",
        *paragraphs(FILES),
    ]
    lines += [".SH EXIT STATUS", "The text on standard output follows the meaning."]
    said = (
        (str(each.number), each.means + (f": {each.text}" if each.text else ""))
        for each in STATUSES
    )
    return "\n".join([*lines, *paragraphs(said)]) + "\n"


# Completion in bash

COMPLETION = """# Completion of the words of trau in bash.
_trau() {{
    local word=${{COMP_WORDS[COMP_CWORD]}} before=${{COMP_WORDS[COMP_CWORD - 1]}} name
    COMPREPLY=()
    if [ "$COMP_CWORD" = 1 ]; then
        COMPREPLY=($(compgen -W "{commands} help --help --version --no-lock" -- "$word"))
        return
    fi
    case ${{COMP_WORDS[1]}} in
{optioned}{calls}    esac
}}
complete -F _trau trau
"""

OPTIONS_WITH = """    {name})
        case $before in
        {valued}) ;;
        *) COMPREPLY=($(compgen -W "{options}" -- "$word")) ;;
        esac
        ;;
"""

CALLS_WITH = """    {names})
        [ "$COMP_CWORD" = 2 ] || return
        for name in [1-9]*.{side}; do
            [ -f "$name" ] && COMPREPLY+=($(compgen -W "${{name%.{side}}}" -- "$word"))
        done
        ;;
"""


def completion() -> str:
    """What completes the words of a command line in bash: commands, options, and the calls that
    have lines in this folder."""
    of_up = "|".join(command.name for command in COMMANDS if "C.up" in command.does)
    of_pcm = "|".join(command.name for command in COMMANDS if "C.pcm" in command.does)
    return COMPLETION.format(
        commands=" ".join(command.name for command in COMMANDS),
        optioned="".join(
            OPTIONS_WITH.format(
                name=" | ".join((name, *ALSO.get(name, ()))),
                options=" ".join(option.name for option in options),
                valued=" | ".join(option.name for option in options),
            )
            for name, options in OPTIONS_OF.items()
        ),
        calls=CALLS_WITH.format(names=of_up, side="up")
        + CALLS_WITH.format(names=of_pcm, side="pcm"),
    )


@tool("trau_words.py")
def main(words: Sequence[str]) -> int:
    """Prints what is asked for, and gives the status."""
    made = {
        "help": help_text,
        "pages": pages_text,
        "man": lambda: man_page("trau", ""),
        "completion": completion,
    }
    parser = Words(__doc__)
    parser.add_argument("what", choices=made, help="what is printed")
    sys.stdout.write(made[parser.parse_args(words).what]())
    return 0
