"""A gateway: the requests of its clients on one byte stream, and what it replies to them.

The rules are those of docs/use/gateway.md; what a call does on the node is bench/model/nodes.py's.
"""
import re
import struct
from dataclasses import dataclass
from typing import Any, NamedTuple

from journal import Journal
from nodes import Node
from values import Filter, Full, Here, Incarnation, Signal

OPEN, CLOSE, SEND, RECEIVE, HUNT, ATTACH, DETACH, TIMER, CANCEL, MODIFY, CLOCK = range(1, 12)
NOT_OPEN, IS_OPEN, DEAD, NOT_YET, NOTHING, NO_REFERENCE, BAD_FILTER, BAD_MOMENT = range(1, 9)
SIZES = {OPEN: range(1, 33), CLOSE: range(0, 1), SEND: range(12, 65545),
         RECEIVE: range(4, 261, 4), HUNT: range(1, 33), ATTACH: range(8, 9), DETACH: range(8, 9),
         TIMER: range(8, 65541), CANCEL: range(8, 9), MODIFY: range(12, 13), CLOCK: range(8, 9)}
LENGTH_MOST = 65_548
STREAM_MOST = 1_073_741_824
LAST_MOMENT = 2**62
NAME_PART = re.compile(rb"[A-Za-z0-9_.-]*\Z")


class Request(NamedTuple):
    """A request that was read, and where it ends."""

    kind: int
    client: int
    body: bytes
    end: int


def request(kind, client, body=b""):
    """The bytes of a request."""
    return struct.pack(">IBBH", len(body) + 4, kind, client, 0) + body


def reply(kind, client, status=0, body=b""):
    """The bytes of a reply."""
    return struct.pack(">IBBH", len(body) + 4, kind + 128, client, status) + body


def may_follow(clients, size, known):
    """Whether these bytes may stand behind the length of a request whose body has so many bytes."""
    if not known:
        return True
    kind = known[0]
    if kind not in SIZES or size not in SIZES[kind]:
        return False
    if len(known) > 1 and not (known[1] == 0 if kind == CLOCK else 1 <= known[1] <= clients):
        return False
    if any(known[2:4]):
        return False
    return kind not in (OPEN, HUNT) or NAME_PART.match(known[4:]) is not None


def request_at(clients, data, at):
    """The request at a place of a stream; "more" where it is torn, "bad" where there is none."""
    known = data[at:at + 4]
    length = int.from_bytes(known + bytes(4 - len(known)), "big")
    if len(known) < 4:
        length = max(length, 4)
    end = at + 4 + length
    if not 4 <= length <= LENGTH_MOST or end > STREAM_MOST:
        return "bad"
    behind = data[at + 4:end]
    if not may_follow(clients, length - 4, behind):
        return "bad"
    if len(data) < end:
        return "more"
    return Request(behind[0], behind[1], behind[4:], end)


@dataclass(eq=False)
class Timer:
    """A timer: whose it is, its reference, when it is due, and what it sends."""

    client: int
    reference: int
    due: int
    signal: Signal


@dataclass(eq=False)
class Client:
    """A client: its endpoint, the step that closed the last one, and the filter it waits with."""

    number: int
    endpoint: Any = None
    closed: int = 0
    waits: Any = None


class Gateway:
    """The clients, their timers and the clock."""

    def __init__(self, clients):
        self.journal = Journal()
        self.node = Node(1, "g", self.journal)
        self.clients = {number: Client(number) for number in range(1, clients + 1)}
        self.timers, self.clock, self.requested = [], 0, 0
        self.calls = {OPEN: self.open, CLOSE: self.close, SEND: self.send, HUNT: self.hunt,
                      ATTACH: self.attach, DETACH: self.detach, TIMER: self.timer,
                      CANCEL: self.cancel, MODIFY: self.modify}

    def handle(self, asked):
        """Does what a request asks for; the reply."""
        if asked.kind == CLOCK:
            return reply(CLOCK, 0, *self.strike(*struct.unpack(">Q", asked.body)))
        client = self.clients[asked.client]
        if asked.kind == RECEIVE:
            return reply(RECEIVE, client.number, *self.receive(client, asked.body))
        return reply(asked.kind, client.number, *self.calls[asked.kind](client, asked.body))

    def made(self, client, *words):
        """The step in the making is one of a client."""
        self.journal.step(f"A{client.number}", *words)
        client.waits = None

    def refusal(self, client):
        """What a call of a client without an endpoint is replied; its step is made."""
        self.made(client, "refused", "not-open")
        return NOT_OPEN, struct.pack(">Q", client.closed)

    # What makes a step.

    def open(self, client, body):
        """Opens an endpoint of this name."""
        self.journal.want_room()
        if client.endpoint:
            self.made(client, "refused", "is-open")
            return IS_OPEN, number_of(client.endpoint.incarnation)
        name = body.decode()
        client.endpoint = self.node.open(name)
        self.made(client, "open", name)
        return 0, number_of(client.endpoint.incarnation)

    def close(self, client, _body):
        """Closes the endpoint; the client's timers are gone."""
        self.journal.want_room()
        if not client.endpoint:
            return self.refusal(client)
        self.node.close(client.endpoint)
        client.endpoint, client.closed = None, self.journal.position()
        self.made(client, "close")
        self.timers = [timer for timer in self.timers if timer.client != client.number]
        return (0,)

    def send(self, client, body):
        """Sends a signal to an endpoint."""
        self.journal.want_room()
        if not client.endpoint:
            return self.refusal(client)
        to, number = struct.unpack_from(">QI", body)
        return (DEAD,) if self.sent(client, to, Signal(number, body[12:])) == "dead" else (0,)

    def sent(self, client, to, signal):
        """A client sends a signal to an endpoint; what becomes of it."""
        peer = Here(Incarnation(to >> 32, to & 0xFFFFFFFF))
        answer = "dead"
        if self.is_there(peer):
            answer = self.node.send(client.endpoint, peer, signal)
        else:
            self.journal.log(client.endpoint.incarnation, "sent", peer, signal, answer)
        self.made(client, "send", peer, signal, answer)
        return answer

    def is_there(self, peer):
        """Whether an endpoint was ever opened under this number."""
        node, opening = peer.incarnation
        return node == 1 and 1 <= opening <= len(self.node.endpoints)

    def receive(self, client, body):
        """Takes the first selected signal of the queue."""
        count, *numbers = struct.unpack(f">i{len(body) // 4 - 1}I", body)
        if abs(count) != len(numbers):
            return (BAD_FILTER,)
        self.journal.want_room()
        if not client.endpoint:
            return self.refusal(client)
        selected = Filter(count <= 0, tuple(numbers))
        item = client.endpoint.first(selected)
        if item:
            client.endpoint.queue.remove(item)
            self.journal.log(client.endpoint.incarnation, "took", item.sender, item.signal)
            self.made(client, "take", selected, ".".join(map(str, item.position)))
            sender = number_of(item.sender.incarnation)
            return 0, struct.pack(">I", item.signal.number) + sender + item.signal.data
        if self.is_at_rest(client):
            self.journal.log(client.endpoint.incarnation, "none")
            self.made(client, "none", selected)
            return (NOTHING,)
        if client.waits is None:
            self.made(client, "waits", selected)
            client.waits = selected
        return (NOT_YET,)

    def is_at_rest(self, client):
        """Whether every other client waits in vain and has a greater number."""
        return all(other is client or other.number > client.number and self.is_idle(other)
                   for other in self.clients.values())

    def is_idle(self, client):
        """Whether a client waits, and in vain."""
        return client.waits is not None and client.endpoint.first(client.waits) is None

    def hunt(self, client, body):
        """Asks for an endpoint of this name."""
        self.journal.want_room()
        if not client.endpoint:
            return self.refusal(client)
        signal, position = Signal(251, b""), self.journal.position()
        self.node.hunt(client.endpoint, body.decode(), signal)
        self.made(client, "hunt", body.decode(), signal)
        return 0, struct.pack(">Q", position)

    def attach(self, client, body):
        """Asks to be told of the end of an endpoint."""
        self.journal.want_room()
        if not client.endpoint:
            return self.refusal(client)
        (to,) = struct.unpack(">Q", body)
        peer, position = Here(Incarnation(to >> 32, to & 0xFFFFFFFF)), self.journal.position()
        signal = Signal(252, b"")
        self.node.attach(client.endpoint, peer if self.is_there(peer) else Nobody(peer), signal)
        self.made(client, "attach", peer, signal)
        return 0, struct.pack(">Q", position)

    def detach(self, client, body):
        """Takes an attach back."""
        self.journal.want_room()
        if not client.endpoint:
            return self.refusal(client)
        (reference,) = struct.unpack(">Q", body)
        answer = self.node.detach(client.endpoint, reference)
        self.made(client, "detach", f"@{reference}", answer)
        return (NO_REFERENCE,) if answer == "none" else (0, bytes([answer == "queued"]))

    # What makes none.

    def timer(self, client, body):
        """Requests a timer."""
        if not client.endpoint:
            return NOT_OPEN, struct.pack(">Q", client.closed)
        delay, number = struct.unpack_from(">II", body)
        self.requested += 1
        self.timers.append(Timer(client.number, self.requested, self.clock + delay,
                                 Signal(number, body[8:])))
        return 0, struct.pack(">Q", self.requested)

    def timer_of(self, client, reference):
        """The timer of a client with this reference, or None."""
        return next((timer for timer in self.timers
                     if (timer.client, timer.reference) == (client.number, reference)), None)

    def cancel(self, client, body):
        """Cancels a timer."""
        if not client.endpoint:
            return NOT_OPEN, struct.pack(">Q", client.closed)
        timer = self.timer_of(client, *struct.unpack(">Q", body))
        if timer is None:
            return (NO_REFERENCE,)
        self.timers.remove(timer)
        return (0,)

    def modify(self, client, body):
        """Moves a timer."""
        if not client.endpoint:
            return NOT_OPEN, struct.pack(">Q", client.closed)
        reference, delay = struct.unpack(">QI", body)
        timer = self.timer_of(client, reference)
        if timer is None:
            return (NO_REFERENCE,)
        timer.due = self.clock + delay
        return (0,)

    def strike(self, moment):
        """The clock goes on to this moment."""
        if not self.clock <= moment <= LAST_MOMENT:
            return (BAD_MOMENT,)
        count = 0
        while due := [timer for timer in self.timers if timer.due <= moment]:
            timer = min(due, key=lambda one: one.due)
            self.timers.remove(timer)
            self.journal.want_room()
            client = self.clients[timer.client]
            own = int.from_bytes(number_of(client.endpoint.incarnation), "big")
            self.sent(client, own, timer.signal)
            count += 1
        self.clock = moment
        return 0, struct.pack(">I", count)


class Nobody(NamedTuple):
    """A peer that never was; no endpoint is it."""

    here: Here

    def __str__(self):
        return str(self.here)

    @property
    def incarnation(self):
        """Its number."""
        return self.here.incarnation


def number_of(incarnation):
    """The bytes of an endpoint's number."""
    return struct.pack(">II", *incarnation)


def session(clients, data):
    """What is replied to a stream, and how the session ends."""
    gateway, said, at = Gateway(clients), [], 0
    while at < len(data):
        asked = request_at(clients, data, at)
        if asked == "more":
            return b"".join(said), f"torn at {at}", gateway
        if asked == "bad":
            return b"".join(said), f"bad stream at {at}", gateway
        try:
            said.append(gateway.handle(asked))
        except Full as full:
            return b"".join(said), str(full), gateway
        at = asked.end
    return b"".join(said), "done", gateway
