"""What a file is: by its head, by the frames that are found in it, and else by the statistics of
its octets.

Excerpts of a file are read: its head, what follows an idle start, and places all over it. The
statistics give a guess, which needs a tenth of a second of sound. It is plain for speech and for
idle lines; if two kinds are about as likely, there is none.
"""

from pathlib import Path
from typing import NoReturn, Optional

from trau.command_line.files import opened
from trau.command_line.words import Refusal, as_started
from trau.recordings import file_heads, readings, recordings, slot_kinds
from trau.recordings.excerpts import (
    EXCERPT_OCTETS,
    Excerpt,
    Excerpts,
    excerpts_at,
    excerpts_of,
    excerpts_of_blocks,
)
from trau.recordings.file_descriptions import LSB_FIRST, TURNED, FileDescription, FileKind
from trau.recordings.found_frames import FoundFrames, frames_of_line, line_said
from trau.recordings.readings import Reading
from trau.rules.g711 import Law
from trau.rules.profile import PCM_OCTETS
from trau.rules.slots import octets_turned

UNKNOWN = FileDescription(FileKind.UNKNOWN, "nothing that is known here")

# By frames

COMMANDS = {
    FileKind.UPLINK: "trau run takes it as C.up, and makes sound of it",
    FileKind.DOWNLINK: "lines.py listen {} NEW.wav",
}
TURN = f"lines.py slot {{}} NEW{LSB_FIRST}"


def frames_in(of: Excerpts) -> Optional[FoundFrames]:
    """The frames of a line."""
    return frames_of_line(of, of.parts)


def by_frames(of: Excerpts) -> Optional[FileDescription]:
    """A line of frames, in the order of bits that gives more of them."""
    turned_parts = (Excerpt(part.place, octets_turned(part.octets)) for part in of.parts)
    found = [(frames_in(of), False), (frames_of_line(of, turned_parts), True)]
    frames, turned = max(found, key=lambda each: each[0].total() if each[0] else 0)
    if not frames:
        return None
    kind, said = line_said(frames)
    command = TURN if turned else COMMANDS.get(kind, "")
    return FileDescription(kind, said + TURNED * turned, command, turned)


# By statistics

IDLE_SLOT = 0xFF  # what many lines have in a slot that isn't used


def by_constant(of: Excerpts) -> Optional[FileDescription]:
    """An idle line, each octet of which is the same; that of silence has either sign."""
    octets = {octet for part in of.parts for octet in set(part.octets)}
    if of.size < PCM_OCTETS or len(octets) != 1:
        return None
    (octet,) = octets
    where = "" if of.are_all(of.size) else " where it was looked at"
    said = f"idle{where}: each octet is 0x{octet:02x}"
    law = next((law for law in Law if law.idle() | 0x80 == octet | 0x80), None)
    if law is None:
        return FileDescription(FileKind.UNKNOWN, said)
    slot = "as of an idle slot, or " * (octet == IDLE_SLOT)
    return look_of_reading(Reading(law, False))._replace(
        said=f"{said}, {slot}silence of {law.title()}"
    )


def after_idle(of: Excerpts) -> Optional[FileDescription]:
    """A recording of which only the idle start is known."""
    head = of.head()
    if not min(len(head), PCM_OCTETS) <= of.idle < of.size or len(set(head[: of.idle])) != 1:
        return None
    said = (
        f"idle up to octet {of.idle}: each octet is 0x{head[0]:02x}; from there on {UNKNOWN.said}"
    )
    return FileDescription(FileKind.UNKNOWN, said)


def look_of_reading(reading: Reading) -> FileDescription:
    """What a file is by the best reading of its octets."""
    if reading.law is None:
        return FileDescription(
            FileKind.LINEAR, "sound of 16 bits a sample, as it seems", file_heads.SOX_RAW
        )
    law = "" if reading.law is Law.A else f" --law {reading.law}"
    order = LSB_FIRST * reading.turned
    said = f"{reading.law.title()}, as it seems{TURNED * reading.turned}"
    return FileDescription(
        FileKind.LAW, said, f"lines.py pcm {{}} NEW.pcm --raw{order}{law}", reading.turned
    )


def telling_octets(of: Excerpts) -> bytes:
    """The first octets that plainly have a best reading, or else the first ones."""
    pieces = list(of.pieces(readings.MOST_OCTETS)) or [b""]
    varied = (piece for piece in pieces if piece.count(piece[:1]) < len(piece))
    return next(filter(readings.best_reading, varied), pieces[0])


def by_statistics(of: Excerpts) -> Optional[FileDescription]:
    """Sound of a law, or samples of 16 bits, where one of them is plainly the best reading."""
    octets = telling_octets(of)
    best = readings.best_reading(octets)
    if best:
        return by_blocks(octets) or look_of_reading(best)
    # The heads of short blocks are much of what is read: without them the sound may be plain.
    blocks = readings.blocks_in(octets)
    has_sound = blocks and readings.best_reading(blocks.sound(octets))
    return by_blocks(octets) if has_sound else None


def by_blocks(octets: bytes) -> Optional[FileDescription]:
    """Sound in a container that isn't known here, by the heads of its blocks."""
    blocks = readings.blocks_in(octets)
    if blocks is None:
        return None
    said = f"sound in blocks of {blocks.size} octets with heads between, as it seems: a container that isn't known here"
    return FileDescription(FileKind.CONTAINER, said)


def other_than_law(of: Excerpts, law: Law) -> Optional[FileDescription]:
    """What octets that are said to have this law plainly are instead."""
    octets = telling_octets(of)
    other = readings.plainly_other(octets, law)
    return by_blocks(octets) or (look_of_reading(other) if other else None)


def look_of_slot(of: Excerpts) -> FileDescription:
    """What a slot of a line has that has no frames."""
    idle = by_constant(of)
    if idle and set(of.head()) == {IDLE_SLOT}:
        return idle._replace(said=idle.said.partition(", ")[0])
    return idle or by_statistics(of) or UNKNOWN


# All of it


def by_head(of: Excerpts) -> Optional[FileDescription]:
    """The kind that the head of a file shows."""
    if not of.size:
        return FileDescription(FileKind.EMPTY, "empty")
    head = of.head()
    return next(filter(None, (test(head, of.size) for test in file_heads.TESTS)), None)


def by_signal(of: Excerpts) -> Optional[FileDescription]:
    """A whole E1 line."""
    line = slot_kinds.line_by_signal(of)
    return line.look(look_of_slot) if line else None


def by_slots(of: Excerpts) -> Optional[FileDescription]:
    """A whole line without the signal of an E1 line."""
    line = slot_kinds.line_by_slots(of)
    return line.look(look_of_slot) if line else None


def first_of(of: Excerpts, *tests: slot_kinds.Test) -> Optional[FileDescription]:
    """What the first of these tests says that says something."""
    return next(filter(None, (test(of) for test in tests)), None)


def known_kind(of: Excerpts) -> Optional[FileDescription]:
    """The kind of a file, without statistics."""
    return first_of(of, by_head, by_frames, by_signal, slot_kinds.by_channels)


def look(of: Excerpts) -> FileDescription:
    """What a file is."""
    found = first_of(of, known_kind, by_slots, by_constant, by_statistics, after_idle)
    return found or UNKNOWN


def excerpts_of_file(path: Path) -> Excerpts:
    """The excerpts of a file as it is, also of one that gzip packed, or of standard input."""
    with opened(path) as file:
        if not file.seekable():
            return excerpts_of_blocks(iter(lambda: file.read(recordings.BLOCK_OCTETS), b""))

        def read(place: int, octets: int) -> bytes:
            """So many octets from a place on."""
            file.seek(place)
            return file.read(octets)

        return excerpts_at(file.seek(0, 2), read)


def head_of(path: Path, octets: int) -> Excerpts:
    """A file by its first octets alone."""
    with opened(path) as file:
        head = file.read(octets)
        return Excerpts(max(len(head), path.stat().st_size), 0, (Excerpt(0, head),))


def of_line(found: FileDescription, name: Path) -> FileDescription:
    """What is found of a file, with the command that makes sound of it if it has the name of a line
    from or to the exchange."""
    if (
        found.kind is not FileKind.LAW
        or found.turned
        or recordings.name_within(name).suffix not in (".out", ".pcm")
    ):
        return found
    law = " --law mulaw" if found.command.endswith(" --law mulaw") else ""
    return found._replace(command=f"lines.py sound {{}} NEW.wav{law}")


def command_for(found: FileDescription, name: Path) -> str:
    """The command that takes this file, in words that follow what the file is. Only lines.py
    unpacks what it reads."""
    command = as_started(found.command)
    if not found.command.startswith("lines.py "):
        return f"; {recordings.command_of_others(command, name)}" if command else ""
    return f"; {command}".replace("{}", recordings.quoted(name))


def said_beside(found: FileDescription, name: Path, not_this: str) -> str:
    """What a file is instead of what was wanted, with the command that takes it."""
    return f"{found.said}, and {not_this}{command_for(found, name)}"


def refuse(name: Path, found: FileDescription, not_this: str, more: str = "") -> NoReturn:
    """Refuses a file that isn't what was wanted."""
    raise Refusal(f"{name}: is {said_beside(found, name, not_this)}{more}")


def refuse_kind(
    name: Path, found: Optional[FileDescription], not_this: str, wanted: FileKind = FileKind.EMPTY
) -> None:
    """Refuses a file that is plainly of another kind than the one that is wanted, if any."""
    if found and found.kind not in (FileKind.EMPTY, wanted):
        refuse(name, found, not_this)


def refuse_other(
    name: Path, content: bytes, not_this: str, wanted: FileKind = FileKind.EMPTY
) -> None:
    """The same, of a file with this content."""
    refuse_kind(name, known_kind(excerpts_of(content)), not_this, wanted)


def refuse_head(name: Path, content: bytes, not_this: str, size: int = 0) -> None:
    """Refuses a file whose head shows another kind. It may have more octets than these."""
    head = Excerpt(0, content[:EXCERPT_OCTETS])
    refuse_kind(name, by_head(Excerpts(max(size, len(content)), 0, (head,))), not_this)
