"""Whom a side of a call hears, and where its packets go, written out apart from the proved library: the
oracle of the tests."""

from __future__ import annotations

from typing import Optional

from trau.gateway.incoming import Incoming
from trau.gateway.network import Endpoint
from trau.gateway.settings import Address, Side

KEEPS_PORT = 50  # periods that a port of the peer has to be still before another is heard


class HearingEndpoint(Endpoint):
    """An endpoint that decides itself whom it hears."""

    def __init__(self, side: Side, is_strict: bool, incoming: Incoming) -> None:
        super().__init__(side, is_strict, incoming)
        self.sender: Optional[Address] = None  # that is heard
        self.candidate: Optional[Address] = None  # to which packets go if it brings another one

    def arrived(self, data: bytes, sender: Address, tick: int, behind: int) -> None:
        """Takes a datagram, if it is the peer's."""
        if sender != self.sender:
            if reason := self.refusal(sender, tick):
                self.incoming.counts[reason] += 1
                return
            self.sender = sender
        try:
            is_heard = self.incoming.packet(data, tick, behind)
        except Exception as failure:  # whatever one call's network brings, the others go on
            self.incoming.fail("fault", failure)
            return
        if is_heard and self.is_any and (self.candidate or sender != self.peer):
            self.follow(sender)

    def follow(self, sender: Address) -> None:
        """A packet of this sender is of the source that is heard. After two of them in a row packets
        go there (symmetric RTP, RFC 4961), wherever `open` has the peer: its address may be
        translated on the way."""
        if sender == self.peer:
            self.candidate = None
        elif sender == self.candidate:
            self.peer, self.candidate = sender, None
            self.incoming.counts["moved"] += 1
        else:
            self.candidate = sender

    def outdated(self, data: bytes, sender: Address) -> None:
        """Drops a datagram of time that was given up."""
        if sender == self.sender:
            self.incoming.drop(data)
        else:
            self.incoming.counts["given-up"] += 1

    def refusal(self, sender: Address, tick: int) -> str:
        """Why another sender than before isn't heard; empty if it is."""
        heard = self.incoming.heard
        if not self.is_any and sender[0] != self.peer[0] or self.is_strict and sender != self.peer:
            return "stranger"
        if self.sender and heard is not None and tick - heard < KEEPS_PORT:
            return "other-port" if sender[0] == self.sender[0] else "stranger"
        return ""
