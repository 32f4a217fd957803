"""The sockets of the calls. The loop in C reads them at the ticks alone; between them the kernel holds
what comes.
"""

from __future__ import annotations

import contextlib
import select
import socket
import struct
import time
from typing import Iterator, Tuple

from trau.gateway.incoming import Incoming
from trau.gateway.rtcp import Reports, is_control
from trau.gateway.settings import Address, Side

RECEIVE_BUFFER = 208 * 1024  # octets of the kernel for a socket, some seconds of packets
CONTROL_BUFFER = 8 * 1024  # octets of the kernel for a socket of RTCP
EXPEDITED = 0xB8  # the octet of the IP header that asks for expedited forwarding (RFC 3246)
MOST_CONTROL = 100  # datagrams of RTCP, or of strangers, that are read at a time
MOST_OLD = 2000  # datagrams that a socket may hold
# SO_MEMINFO of Linux, and the number in it that says how many datagrams found no room.
MEMORY, DROPS = 55, 8
MOST_REPORT = 1500  # octets of one
# IP_RECVERR of Linux: ICMP answers come to a socket that isn't connected too, by a queue.
ERRORS = 11
# SO_TIMESTAMPNS of Linux: the kernel says when a datagram came, as RTCP waits up to a second.
ARRIVAL = 35
TIME = struct.Struct("@qq")  # seconds and nanoseconds of the system's clock


class Endpoint:
    """One side of a call: its peer, and what hears the packets of its socket."""

    def __init__(self, side: Side, is_strict: bool, incoming: Incoming) -> None:
        self.peer, self.is_any, self.is_strict = side.peer, side.is_any, is_strict
        self.incoming = incoming
        self.is_connected = is_strict  # its socket, to the peer


def prepare(one: socket.socket, buffer: int) -> None:
    """Makes a socket one that never waits, with this buffer of the kernel."""
    one.setblocking(False)
    one.setsockopt(socket.SOL_SOCKET, socket.SO_RCVBUF, buffer)
    one.setsockopt(socket.IPPROTO_IP, socket.IP_TOS, EXPEDITED)


def bound(address: str, port: int, buffer: int) -> socket.socket:
    """A socket that never waits, with this buffer of the kernel. Raises OSError, which names the
    port, if it can't be had."""
    one = socket.socket(socket.AF_INET, socket.SOCK_DGRAM)
    try:
        prepare(one, buffer)
        one.bind((address, port))
    except OSError as failure:
        one.close()
        raise OSError(failure.errno, f"{address}:{port}: {failure.strerror}") from None
    return one


def connect(one: socket.socket, peer: Address) -> None:
    """Connects a socket to a peer, and drops what others sent to its port before."""
    one.connect(peer)
    for _ in range(MOST_OLD):
        try:
            one.recv(1)
        except BlockingIOError:
            return
        except OSError:
            continue


def only_from(peer: Address, others: socket.socket) -> socket.socket:
    """A second socket at the port of `others`: the kernel gives it what this peer sends to the
    address from which it is reached."""
    one = socket.socket(socket.AF_INET, socket.SOCK_DGRAM)
    both = (others, one)
    try:
        for each in both:
            each.setsockopt(socket.SOL_SOCKET, socket.SO_REUSEADDR, 1)
        prepare(one, RECEIVE_BUFFER)
        one.bind(others.getsockname())
        connect(one, peer)
        for each in both:  # nobody else may join
            each.setsockopt(socket.SOL_SOCKET, socket.SO_REUSEADDR, 0)
    except OSError:
        one.close()
        raise
    return one


def drops_of(one: socket.socket) -> int:
    """How many datagrams the kernel dropped, as a socket was full; 0 if an old kernel doesn't say
    it."""
    try:
        memory = one.getsockopt(socket.SOL_SOCKET, MEMORY, 4 * (DROPS + 1))
        return int(struct.unpack_from("=I", memory, 4 * DROPS)[0])
    except (OSError, struct.error):
        return 0


class SocketEndpoint(Endpoint):
    """An endpoint with sockets of the system."""

    def __init__(self, address: str, side: Side, is_strict: bool, incoming: Incoming) -> None:
        super().__init__(side, is_strict, incoming)
        self.reached = (self.peer[0], self.peer[1] + 1)  # where RTCP goes
        with contextlib.ExitStack() as opened:
            self.others = opened.enter_context(
                bound(address, side.port, CONTROL_BUFFER if is_strict else RECEIVE_BUFFER)
            )
            self.socket = (
                opened.enter_context(only_from(self.peer, self.others))
                if is_strict
                else self.others
            )
            self.control = opened.enter_context(bound(address, side.port + 1, CONTROL_BUFFER))
            if is_strict:
                connect(self.control, self.reached)
            self.control.setsockopt(socket.SOL_SOCKET, ARRIVAL, 1)
            if not is_strict:
                self.socket.setsockopt(socket.IPPROTO_IP, ERRORS, 1)
            self.opened = opened.pop_all()
        self.dropped = 0  # strangers that found no room
        self.rest = select.poll()  # the sockets that Python reads
        for one in (self.control, self.others) if is_strict else (self.control,):
            self.rest.register(one, select.POLLIN)

    def count_losses(self) -> None:
        """Counts what found no room, and in a strict call what others sent, or the peer to another
        address of this host."""
        counts = self.incoming.counts
        counts["overflowed"] = drops_of(self.socket)
        if not self.is_strict:
            return
        before, self.dropped = self.dropped, drops_of(self.others)
        counts["stranger"] += self.dropped - before
        for _ in range(MOST_CONTROL if self.rest.poll(0) else 0):
            try:
                _, sender = self.others.recvfrom(1)
            except BlockingIOError:
                return
            except OSError:
                continue
            counts["other-address" if sender == self.peer else "stranger"] += 1

    def came_to_control(self) -> Iterator[Tuple[bytes, Address, int]]:
        """What came to the port above, which is that of RTCP (RFC 3550, section 11): each datagram,
        its sender, and when it came."""
        for _ in range(MOST_CONTROL):
            try:
                data, added, _, sender = self.control.recvmsg(
                    MOST_REPORT, socket.CMSG_SPACE(TIME.size)
                )
            except BlockingIOError:
                return
            except OSError:  # an ICMP answer to a report
                continue
            seconds, nanoseconds = TIME.unpack(added[0][2])
            yield data, sender, seconds * 1_000_000_000 + nanoseconds

    def report(self, reports: Reports, period: int) -> None:
        """Counts the RTCP that came, and answers the peer's reports by one."""
        try:
            if self.rest.poll(0):
                self.answer(reports, period)
        except Exception as failure:  # whatever one call's network brings, the others go on
            self.incoming.fail("fault", failure)

    def answer(self, reports: Reports, period: int) -> None:
        """Answers all reports that came by one."""
        is_asked = False
        for data, sender, arrival in self.came_to_control():
            self.incoming.counts["rtcp" if is_control(data) else "not-rtcp"] += 1
            if sender[0] == self.peer[0] and reports.take(data, arrival):
                is_asked = True
                self.reached = sender if self.is_any else self.reached
        if is_asked:
            with contextlib.suppress(OSError):
                self.control.sendto(
                    reports.answer(self.incoming.reception, time.time_ns(), period), self.reached
                )
                self.incoming.counts["rtcp-sent"] += 1

    def close(self) -> None:
        """Closes the sockets."""
        self.opened.close()


class Network:
    """The sockets of the calls, which the loop reads."""

    def __init__(self, address: str) -> None:
        """Sockets are bound to this address, if their side of a call names no other."""
        self.address = address

    def open(self, side: Side, is_strict: bool, incoming: Incoming, _phase: int) -> SocketEndpoint:
        """Opens one side of a call. Raises OSError if the port can't be had."""
        return SocketEndpoint(side.host or self.address, side, is_strict, incoming)

    def close(self, endpoint: SocketEndpoint, _phase: int) -> None:
        """Closes one side of a call."""
        endpoint.close()
