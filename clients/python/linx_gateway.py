"""The calls of LINX for the clients of one gateway, `linx_sim gateway N`, over one byte stream.

A `Gateway` is the stream. Its clients have the numbers 1 to N, and each has at most one endpoint at
a time. A call writes one request and reads its reply. Where threads share a gateway each call is
one exchange, so each thread may have a client of its own.

    with Gateway.spawn("linx_sim", 2) as gateway:
        server, client = gateway.client(1), gateway.client(2)
        server.open("server")
        client.open("client")
        client.hunt("server")
        peer = client.receive(HUNT_SIGNAL).sender
        client.send(Signal(5, b"question"), peer)
        question = server.receive(5)
        server.send(Signal(6, b"answer"), question.sender)
        print(client.receive(6).signal.data)

The names are those of linx.h without `linx_`. Time is what `Gateway.clock` says: a timer sends its
signal from its client to itself at the first clock that reaches it. docs/use/gateway.md has the
bytes of each request and of each reply.
"""
from __future__ import annotations

import enum
import socket
import struct
import subprocess
import threading
from dataclasses import dataclass
from typing import BinaryIO, Callable, Optional

HUNT_SIGNAL = 251
"""The number of the signal that comes from an endpoint that was hunted for."""

ATTACH_SIGNAL = 252
"""The number of the signal that comes from a peer that has ended. Its byte is a `Reason`."""

DATA_MOST = 65_532
"""The most data bytes of a signal."""


class Kind(enum.IntEnum):
    """The types of requests."""

    OPEN = 1
    CLOSE = 2
    SEND = 3
    RECEIVE = 4
    HUNT = 5
    ATTACH = 6
    DETACH = 7
    TIMER = 8
    CANCEL = 9
    MODIFY = 10
    CLOCK = 11


class Reason(enum.IntEnum):
    """Why a peer has ended, as the byte of the signal of an attach says it."""

    CLOSED = 0
    LOST = 1
    DEAD = 2


class Spid(int):
    """An endpoint: the number of its node, and which opening on that node it is."""

    def __str__(self) -> str:
        return f"{self >> 32}.{self & 0xFFFFFFFF}"

    def __repr__(self) -> str:
        return f"Spid({self})"


@dataclass(frozen=True)
class Signal:
    """A signal: a number of 32 bits, and at most 65,532 bytes."""

    number: int
    data: bytes = b""

    def __post_init__(self) -> None:
        if not 0 <= self.number < 2**32:
            raise ValueError(f"{self.number} is no number of a signal")
        if len(self.data) > DATA_MOST:
            raise ValueError(f"{len(self.data)} bytes are too many for a signal")


@dataclass(frozen=True)
class Received:
    """A signal that was taken from a queue, and who sent it."""

    signal: Signal
    sender: Spid


class GatewayError(Exception):
    """A call wasn't done."""


class NotOpen(GatewayError):
    """The client has no open endpoint. `at` is the step that closed its last one, or 0."""

    def __init__(self, at: int) -> None:
        super().__init__(f"no endpoint is open since step {at}" if at else "no endpoint is open")
        self.at = at


class IsOpen(GatewayError):
    """The client has an endpoint already."""

    def __init__(self, spid: Spid) -> None:
        super().__init__(f"endpoint {spid} is open")
        self.spid = spid


class Dead(GatewayError):
    """The peer isn't alive; the signal was freed."""


class NotYet(GatewayError):
    """No such signal has come yet."""


class Nothing(GatewayError):
    """No such signal has come, and every other client waits in vain as well."""


class NoReference(GatewayError):
    """The client has no such attach, or no such timer."""


class BadFilter(GatewayError):
    """The count of a receive isn't that of its numbers."""


class BadMoment(GatewayError):
    """The moment is before the clock's, or too late."""


class Ended(GatewayError):
    """The stream ended, so the gateway did: the request was bad, or it could make no more steps."""


_BY_STATUS: dict[int, tuple[type[GatewayError], str]] = {
    3: (Dead, "the peer isn't alive"),
    4: (NotYet, "no such signal yet"),
    5: (Nothing, "no such signal, and all others wait in vain"),
    6: (NoReference, "no such reference"),
    7: (BadFilter, "the count isn't that of the numbers"),
    8: (BadMoment, "the clock doesn't go there"),
}


def request(kind: Kind, client: int, body: bytes = b"") -> bytes:
    """The bytes of a request: the length of what follows, the type, the client, and the body."""
    return struct.pack(">IBBH", len(body) + 4, kind, client, 0) + body


def _refusal(status: int, body: bytes) -> GatewayError:
    """Why a call wasn't done."""
    if status == 1:
        return NotOpen(int.from_bytes(body, "big"))
    if status == 2:
        return IsOpen(Spid(int.from_bytes(body, "big")))
    error, why = _BY_STATUS.get(status, (GatewayError, f"status {status}"))
    return error(why)


class Gateway:
    """A stream to a gateway, and the clock of its timers."""

    def __init__(self, said: BinaryIO, heard: BinaryIO,
                 end: Optional[Callable[[], None]] = None) -> None:
        """What is written to, what is read from, and what is done at the end."""
        self._said = said
        self._heard = heard
        self._end = end
        self._called = threading.Condition()
        self._calls = 0

    @classmethod
    def connect(cls, host: str, port: int, timeout: Optional[float] = None) -> Gateway:
        """A gateway behind a socket."""
        peer = socket.create_connection((host, port), timeout)
        peer.setsockopt(socket.IPPROTO_TCP, socket.TCP_NODELAY, 1)
        return cls(peer.makefile("wb"), peer.makefile("rb"), peer.close)

    @classmethod
    def spawn(cls, program: str, clients: int, *words: str) -> Gateway:
        """A gateway of so many clients, as a program of its own."""
        ran = subprocess.Popen([program, "gateway", str(clients), *words],
                               stdin=subprocess.PIPE, stdout=subprocess.PIPE)
        assert ran.stdin is not None and ran.stdout is not None

        def end() -> None:
            ran.wait()

        return cls(ran.stdin, ran.stdout, end)

    def __enter__(self) -> Gateway:
        return self

    def __exit__(self, *_: object) -> None:
        self.end()

    def end(self) -> None:
        """Ends the stream, and with it the gateway."""
        try:
            self._said.close()
        finally:
            self._heard.close()
            if self._end is not None:
                self._end()

    def client(self, number: int) -> Client:
        """The client of this number, from 1."""
        return Client(self, number)

    def clock(self, moment: int) -> int:
        """Says that it is this moment, in milliseconds from the beginning. Each timer that is due
        by then sends its signal, in order of their moments and then of their requests. Answers how
        many were due."""
        return int.from_bytes(self.call(Kind.CLOCK, 0, struct.pack(">Q", moment)), "big")

    def call(self, kind: Kind, client: int, body: bytes = b"") -> bytes:
        """Makes one request, and gives the body of its reply where it was done."""
        with self._called:
            status, body = self._exchange(request(kind, client, body), kind, client)
            self._calls += 1
            self._called.notify_all()
        if status:
            raise _refusal(status, body)
        return body

    def calls(self) -> int:
        """How many calls were made so far."""
        return self._calls

    def await_call(self, seen: int, seconds: Optional[float] = None) -> None:
        """Waits until more calls were made than these."""
        with self._called:
            self._called.wait_for(lambda: self._calls > seen, seconds)

    def _exchange(self, asked: bytes, kind: Kind, client: int) -> tuple[int, bytes]:
        try:
            self._said.write(asked)
            self._said.flush()
        except (BrokenPipeError, ConnectionError) as fault:
            raise Ended("the stream ended") from fault
        size, kind_said, client_said, status = struct.unpack(">IBBH", self._exactly(8))
        if (kind_said, client_said) != (kind + 128, client):
            raise GatewayError("a reply to another request")
        return status, self._exactly(size - 4)

    def _exactly(self, count: int) -> bytes:
        try:
            got = self._heard.read(count)
        except ConnectionError as fault:
            raise Ended("the stream ended") from fault
        if len(got) < count:
            raise Ended("the stream ended")
        return got


class Client:
    """One client of a gateway, with the calls of linx.h."""

    def __init__(self, gateway: Gateway, number: int) -> None:
        self.gateway = gateway
        self.number = number

    def open(self, name: str) -> Spid:
        """linx_open: opens an endpoint of this name, which has 1 to 32 letters, digits, `_`, `-` or
        `.`. Raises `IsOpen` where the client has one."""
        return Spid(int.from_bytes(self._call(Kind.OPEN, name.encode("ascii")), "big"))

    def close(self) -> None:
        """linx_close: closes the endpoint. Its queue, its hunts, its attaches and its timers are
        gone, and who attached to it is told."""
        self._call(Kind.CLOSE)

    def send(self, signal: Signal, to: int) -> None:
        """linx_send: sends a signal to an endpoint. Raises `Dead` where that is closed."""
        self._call(Kind.SEND, struct.pack(">QI", to, signal.number) + signal.data)

    def receive_now(self, *numbers: int, all_but: bool = False) -> Received:
        """linx_receive_w_tmo with no time: takes the first signal of one of these numbers, of any
        number where there are none, or with `all_but` of any but these. Raises `NotYet` where none
        has come, and `Nothing` where every other client waits in vain as well."""
        count = -len(numbers) if all_but else len(numbers)
        body = struct.pack(f">i{len(numbers)}I", count, *numbers)
        taken = self._call(Kind.RECEIVE, body)
        number, sender = struct.unpack_from(">IQ", taken)
        return Received(Signal(number, taken[12:]), Spid(sender))

    def receive(self, *numbers: int, all_but: bool = False,
                seconds: Optional[float] = None) -> Received:
        """linx_receive: the same, and waits while other clients may still send: after each call of
        another it looks again. Raises `NotYet` after so many seconds without a call, and `Nothing`
        where every other client waits in vain as well."""
        while True:
            seen = self.gateway.calls()
            try:
                return self.receive_now(*numbers, all_but=all_but)
            except NotYet:
                seen += 1
                self.gateway.await_call(seen, seconds)
                if self.gateway.calls() <= seen:
                    raise

    def hunt(self, name: str) -> int:
        """linx_hunt: asks for the endpoint of this name. The signal 251 comes from it, at once or
        once it opens. Answers the step of the hunt."""
        return int.from_bytes(self._call(Kind.HUNT, name.encode("ascii")), "big")

    def attach(self, to: int) -> int:
        """linx_attach: asks for the signal 252 from an endpoint once it has ended, at once where it
        has. Answers the reference of the attach."""
        return int.from_bytes(self._call(Kind.ATTACH, struct.pack(">Q", to)), "big")

    def detach(self, reference: int) -> bool:
        """linx_detach: takes an attach back. Answers whether its signal was in the queue already,
        and was taken out. Raises `NoReference` where the client has no such attach."""
        return self._call(Kind.DETACH, struct.pack(">Q", reference)) == b"\1"

    def request_tmo(self, delay: int, signal: Signal) -> int:
        """linx_request_tmo: a timer, which sends this signal to the client itself at the first
        clock that is so many milliseconds later. Answers its reference."""
        body = struct.pack(">II", delay, signal.number) + signal.data
        return int.from_bytes(self._call(Kind.TIMER, body), "big")

    def cancel_tmo(self, reference: int) -> None:
        """linx_cancel_tmo: the timer sends nothing. Raises `NoReference` where it was sent, or was
        cancelled already."""
        self._call(Kind.CANCEL, struct.pack(">Q", reference))

    def modify_tmo(self, reference: int, delay: int) -> None:
        """linx_modify_tmo: the timer is due so many milliseconds from now."""
        self._call(Kind.MODIFY, struct.pack(">QI", reference, delay))

    def _call(self, kind: Kind, body: bytes = b"") -> bytes:
        return self.gateway.call(kind, self.number, body)
