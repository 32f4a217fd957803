"""Lines and the standard streams as the commands see them: what can be read and written, and that
it can fail (docs/FILES.md); statuses."""

import enum
from typing import Dict, Iterable, List, NamedTuple, Optional, Protocol, Tuple


class Status(enum.IntEnum):
    """How the program ended (docs/COMMANDS.md, "Statuses"). Status 5, out of memory, the model
    never has."""

    DONE = 0
    USAGE = 1
    BAD_LINE = 2
    UNREAD = 3
    UNWRITTEN = 4
    LINE_FAILED = 6
    TOO_LONG = 7
    REFUSED = 8
    DIFFERS = 9


class Given(NamedTuple):
    """What reading gave: octets up to the end, to the first fault, or as many as were asked for."""

    octets: bytes
    failed: bool  # whether a read failed


class Lines(Protocol):
    """The lines of all calls. A line that failed is never used again (docs/OPERATORS.md,
    "Faults")."""

    def read(self, call: int, side: str, most: Optional[int] = None) -> Given:
        """The next octets of an incoming line, `most` of them or all; fewer than that, and no
        fault: the line has ended."""

    def write(self, call: int, side: str, octets: bytes) -> bool:
        """Appends octets, one or more, to an outgoing line. False: it failed, and has a proper
        prefix of them."""


class Desk(Protocol):
    """Standard input and output."""

    def read(self, most: int) -> Given:
        """The next octets of standard input, `most` at most; fewer, and no fault: it has ended."""

    def write(self, text: str) -> bool:
        """Writes a text to standard output. False: that failed, and a proper prefix of it went
        out."""

    def explain(self, why: str) -> None:
        """Says on standard error why nothing was done (docs/COMMANDS.md, "Why it refuses")."""


Place = Tuple[int, str]


class MemoryLines:
    """Lines in memory, for tests: what incoming lines hold, which of them fail at their end, and
    what room outgoing lines have."""

    def __init__(
        self,
        contents: Dict[Place, bytes],
        failing: Iterable[Place] = (),
        room: Optional[Dict[Place, int]] = None,
    ) -> None:
        self.contents = contents
        # incoming lines that fail where their contents end; those without contents at the first
        # read
        self.failing = set(failing)
        self.room = room or {}  # outgoing lines that take so many octets and no more
        self.places: Dict[Place, int] = {}
        self.written: Dict[Place, bytes] = {}

    def read(self, call: int, side: str, most: Optional[int] = None) -> Given:
        """As `Lines.read`; a line without contents fails."""
        line = (call, side)
        contents = self.contents.get(line, b"")
        start = self.places.get(line, 0)
        end = len(contents) if most is None else min(start + most, len(contents))
        self.places[line] = end
        ended = most is None or end - start < most
        return Given(
            contents[start:end], ended and (line in self.failing or line not in self.contents)
        )

    def write(self, call: int, side: str, octets: bytes) -> bool:
        """As `Lines.write`."""
        line = (call, side)
        before = self.written.get(line, b"")
        room = self.room.get(line, len(before) + len(octets)) - len(before)
        self.written[line] = before + octets[:room]
        return room >= len(octets)


class MemoryDesk:
    """Standard streams in memory, for tests."""

    def __init__(
        self, contents: bytes = b"", fails: bool = False, room: Optional[int] = None
    ) -> None:
        self.contents = contents
        self.fails = fails  # whether reading fails where the contents end
        self.room = room  # octets that standard output takes
        self.place = 0
        self.texts: List[str] = []
        self.reasons: List[str] = []

    @property
    def text(self) -> str:
        """What was written."""
        return "".join(self.texts)

    def read(self, most: int) -> Given:
        """As `Desk.read`."""
        octets = self.contents[self.place : self.place + most]
        self.place += len(octets)
        return Given(octets, self.fails and len(octets) < most)

    def write(self, text: str) -> bool:
        """As `Desk.write`."""
        room = len(text) if self.room is None else self.room - len(self.text)
        self.texts.append(text[:room])
        return room >= len(text)

    def explain(self, why: str) -> None:
        """As `Desk.explain`."""
        self.reasons.append(why)
