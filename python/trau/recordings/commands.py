"""A command of lines.py: it makes a file of the words of the command line and of the octets of
the file that they name."""

import argparse
import enum
import inspect
import sys
from dataclasses import dataclass
from pathlib import Path
from typing import Any, Callable, Iterator, NamedTuple, Sequence, Union

from trau.command_line.files import STREAM, write_file
from trau.command_line.words import Option, Refusal, as_started, option, switch
from trau.recordings import file_heads, recordings
from trau.rules.g711 import Law


class Content(enum.Enum):
    """What a made file has, and how its name may end. An octet of a law is one on either side, a
    channel may be of either way, and a slot any line."""

    UPLINK = ("an uplink", ".up")
    SOUND = ("A-law or mu-law", ".pcm", ".out")
    WAV = ("a WAV file", ".wav")
    FRAMES = ("frames of libgsm", ".gsm")
    CAPTURE = ("a capture", ".pcap", ".pcapng")
    CHANNEL = ("a channel of 16 kbit/s", ".up", ".down")
    SLOT = ("a time slot", ".up", ".down", ".pcm", ".out")

    def __init__(self, said: str, *endings: str) -> None:
        self.said = said
        self.endings = endings


class MadeFile(NamedTuple):
    """The octets of a file that a command made, at once or as they are made, a line that says what
    was done, and what the file has."""

    octets: Union[bytes, Iterator[bytes]]
    said: Union[str, Callable[[], str]]
    content: Content


# What files are by the endings of their names.
SAID_OF_ENDINGS = {
    ending: content.said
    for content in (Content.UPLINK, Content.SOUND, Content.WAV, Content.FRAMES, Content.CAPTURE)
    for ending in content.endings
}
SAID_OF_ENDINGS.update({".down": "a downlink", recordings.PACKED: file_heads.PACKED_BY_GZIP})
MAKES_SOUND = {
    Content.UPLINK: "lines.py listen NEW.up",
    Content.SOUND: "lines.py sound NEW.pcm",
}


def is_sound_by_name(name: Path) -> bool:
    """Whether a file has the name of a line from or to the exchange."""
    return recordings.name_within(name).suffix in Content.SOUND.endings


def check_new_name(new: Path, content: Content) -> None:
    """Refuses to write a file under the name of one that has something else."""
    ending = new.suffix.lower()
    by_name = SAID_OF_ENDINGS.get(ending)
    if by_name is None or ending in content.endings:
        return
    sound = ""
    if by_name == Content.WAV.said and content in MAKES_SOUND:
        command = as_started(MAKES_SOUND[content])
        sound = f"; {command} {recordings.quoted(new)} makes sound of it"
    raise Refusal(
        f"{new}: is {by_name} by its name, and what would be written is {content.said}{sound}"
    )


def read_given(words: argparse.Namespace) -> bytes:
    """The file that a command reads."""
    return recordings.read_recording(words.given, words.partial)


def file_to_read(metavar: str) -> Option:
    """The argument that names the file to read."""
    text = "the file to read, or - for standard input"
    return option("given", type=Path, metavar=metavar, help=text)


@dataclass(frozen=True)
class FileCommand:
    """A command: its function, whose docstring is the command's text; what it reads and writes, as
    its usage names them; an example; its options; and how it reads. One that reads no file has an
    argument in place of the file's name."""

    makes: Callable[[argparse.Namespace, bytes], MadeFile]
    given: str
    new: str
    example: str
    options: Sequence[Option] = ()
    read: Callable[[argparse.Namespace], bytes] = read_given
    argument: Callable[[str], Option] = file_to_read

    def run(self, words: argparse.Namespace) -> int:
        """Makes the file, and says what was done."""
        made = self.makes(words, self.read(words))
        check_new_name(words.new, made.content)
        inputs = [words.given] if words.given else []
        write_file(words.new, made.octets, [*inputs, *words.also])
        said = made.said if isinstance(made.said, str) else made.said()
        print(said, file=sys.stderr if words.new == STREAM else sys.stdout)
        return 0

    def add_to(self, add: Callable[..., Any]) -> None:
        """Adds the command to those of a program."""
        text = "the file to write, or - for standard output; never the one that is read"
        add(
            self.makes,
            f"{self.given} to {self.new}",
            inspect.getdoc(self.makes),
            self.argument(self.given),
            option("new", type=Path, metavar=self.new, help=text),
            *self.options,
            example=self.example,
            runs=self.run,
            **{"given": None, "also": [], "partial": False},
        )


# Options of several commands


def law_word(word: str) -> Law:
    """A law."""
    if word not in map(str, Law):
        raise argparse.ArgumentTypeError(f"'{word}' isn't alaw or mulaw")
    return Law(word)


def partial(what: str) -> Option:
    """The option `--partial`."""
    return switch("--partial", f"take a truncated file as far as it goes: {what}")


def lsb_first(more: str = "") -> Option:
    """The option `--lsb-first`."""
    return switch(
        "--lsb-first", f"the recording has the least significant bit of each octet first{more}"
    )


def trust(more: str = "") -> Option:
    """The option `--trust`."""
    return switch(
        "--trust",
        f"take octets of the line's law as they are, even if they look like something else{more}",
    )


LAW = option(
    "--law",
    type=law_word,
    metavar="LAW",
    default=Law.A,
    help="the law of the call's lines from and to the exchange: alaw (default), or mulaw if its"
    " order is `open C mulaw`",
)
SID = option(
    "--sid",
    choices=("mark", "keep"),
    default="mark",
    help="what to do with silence descriptors, which are found by their code word: mark them by C13"
    " and C14, as a base station does (default), or keep them as if they were speech, which then"
    " buzzes",
)
