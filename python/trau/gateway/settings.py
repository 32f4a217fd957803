"""What a line `open` says of a call."""

from __future__ import annotations

import ipaddress
from dataclasses import dataclass, field, replace
from typing import Callable, Dict, Iterator, List, Optional, Tuple

from trau.rules.profile import FIRST_LEVEL, MOST_CALLS, MOST_LEVEL
from trau.command_line.words import Refusal
from trau.rules.numbers import number as number_of

MOST_DEPTH = 25  # periods
DYNAMIC = 96, 127  # the payload types that a session gives a meaning to (RFC 3551, section 3)
BROADCAST = ipaddress.IPv4Address("255.255.255.255")
WORDS = (
    "[mulaw] [gsm-type N] [pcm-type N] [level V] [dtx on|off] [depth N] [prime on|off]"
    " [strict on|off] [from peer|any] [record on|off]"
)
FORM = f"open C gsm [HOST:]PORT HOST:PORT pcm [HOST:]PORT HOST:PORT {WORDS}"

Address = Tuple[str, int]


@dataclass(frozen=True)
class Side:
    """One side of a call: the gateway's port, the peer's address, and the gateway's own if it isn't
    that of all calls. `is_any`: packets of any address are heard, and answered there."""

    port: int
    peer: Address
    host: str = ""
    is_any: bool = False


@dataclass
class Settings:
    """A call that is to be opened."""

    number: int
    law: str = "alaw"
    level: int = FIRST_LEVEL
    dtx: bool = False
    depth: int = 3
    prime: bool = True
    strict: Optional[bool] = None  # not said: unless packets of any address are heard
    is_any: bool = False  # whether they are
    record: Optional[bool] = None  # not said: if the recording can be had
    sides: Dict[str, Side] = field(default_factory=dict)
    types: Dict[str, int] = field(default_factory=dict)  # payload types, by sides, if not the usual

    @property
    def is_strict(self) -> bool:
        """Whether the peer's address and port alone are heard."""
        return not self.is_any if self.strict is None else self.strict


def number(word: str, least: int, most: int, what: str) -> int:
    """A number between these ends."""
    if number_of(word, least, most) is None:
        raise Refusal(f"{what} {word} isn't {least:,} to {most:,}")
    return int(word)


def switch(word: str) -> bool:
    """Whether a word says on."""
    if word not in ("on", "off"):
        raise Refusal(f"{word} isn't on or off")
    return word == "on"


def is_from_any(word: str) -> bool:
    """Whether packets of any address are heard."""
    if word not in ("peer", "any"):
        raise Refusal(f"{word} isn't peer or any")
    return word == "any"


def payload_type(word: str) -> int:
    """A dynamic payload type."""
    return number(word, *DYNAMIC, "payload type")


def host(word: str) -> str:
    """An IPv4 address."""
    try:
        return str(ipaddress.IPv4Address(word))
    except ValueError:
        raise Refusal(f"{word} isn't an IPv4 address") from None


def host_of_peer(word: str) -> str:
    """The address of a peer. 0.0.0.0, which means hold in SDP, would be the host itself."""
    one = ipaddress.IPv4Address(host(word))
    if one.is_unspecified or one.is_multicast or one == BROADCAST:
        raise Refusal(f"{word} isn't the address of a peer")
    return str(one)


def port(word: str) -> int:
    """A port of UDP for RTP. RTCP has the next one."""
    return number(word, 1, 65534, "port")


def side(here: str, peer: str) -> Side:
    """A side of a call. RTP takes even ports (RFC 3550, section 11)."""
    ours, _, local = here.rpartition(":")
    theirs, _, far = peer.rpartition(":")
    if port(local) % 2:
        raise Refusal(f"port {local} is odd")
    return Side(port(local), (host_of_peer(theirs), port(far)), host(ours) if ours else "")


# The words with a value that may follow: each with its reader.
VALUES: Dict[str, Callable[[str], object]] = {
    "level": lambda word: number(word, 0, MOST_LEVEL, "level"),
    "dtx": switch,
    "depth": lambda word: number(word, 0, MOST_DEPTH, "depth"),
    "prime": switch,
    "strict": switch,
    "record": switch,
}

# The words that give a side's payload type.
TYPES = {"gsm-type": "gsm", "pcm-type": "pcm"}


def read_words(rest: Iterator[str]) -> Settings:
    """The settings in the words after `open`, each by itself."""
    try:
        settings = Settings(number(next(rest), 1, MOST_CALLS, "call"))
        for word in rest:
            if word in ("gsm", "pcm"):
                settings.sides[word] = side(next(rest), next(rest))
            elif word in TYPES:
                settings.types[TYPES[word]] = payload_type(next(rest))
            elif word == "from":
                settings.is_any = is_from_any(next(rest))
            elif word in VALUES:
                setattr(settings, word, VALUES[word](next(rest)))
            elif word == "mulaw":
                settings.law = word
            else:
                raise Refusal(f"{word}: the form is {FORM}")
    except StopIteration:
        raise Refusal(f"a word is missing: the form is {FORM}") from None
    return settings


def read_open(words: List[str]) -> Settings:
    """The settings in the words after `open`."""
    settings = read_words(iter(words))
    if len(settings.sides) < 2:
        raise Refusal(f"both sides are needed: the form is {FORM}")
    if settings.is_any:
        if settings.strict:
            raise Refusal("strict on hears the peer's address alone, and from any all")
        settings.sides = {name: replace(side, is_any=True) for name, side in settings.sides.items()}
    return settings
