"""RLNH ends: what two nodes tell each other of their endpoints (docs/change/wire.md)."""
from typing import NamedTuple

from ends import Message
from values import Incarnation, Signal

INIT, INIT_REPLY, QUERY_NAME, PUBLISH, UNPUBLISH, UNPUBLISH_ACK = range(1, 7)


class Asked(NamedTuple):
    """The other side asked for a name."""

    name: str


class Met(NamedTuple):
    """The other side gave an endpoint an address."""

    incarnation: Incarnation
    name: str


class Gone(NamedTuple):
    """The other side closed an endpoint."""

    incarnation: Incarnation


class Came(NamedTuple):
    """A signal came, to an endpoint of this side from one of the other."""

    incarnation: Incarnation
    sender: Incarnation
    signal: Signal


def four(number):
    """A number in four bytes."""
    return number.to_bytes(4, "big")


def number_at(body, place):
    """The number of the four bytes at a place."""
    return int.from_bytes(body[place:place + 4], "big")


class RlnhEnd:
    """What one side's addresses mean, whom it met, and the names that were asked for in vain.

    `own` has the incarnation of each address that isn't free, and whether it is live, not closing.
    """

    def __init__(self, end):
        self.end = end
        self.begin()

    def begin(self):
        """Is empty."""
        self.own, self.met, self.asked = {}, {}, []

    def say(self, kind, rest):
        """Says a message to the other side's RLNH."""
        self.end.offer(Message(0, 0, bytes([kind, 0, 0, 0]) + rest))

    def goes_up(self):
        """The connection went up."""
        self.begin()
        self.say(INIT, four(1))

    def query(self, name):
        """Asks for an endpoint."""
        self.say(QUERY_NAME, name.encode())

    def address_of(self, incarnation):
        """The address at which an incarnation is live, or None."""
        for address, held in self.own.items():
            if held == (incarnation, True):
                return address
        return None

    def publish(self, incarnation, name):
        """Gives an endpoint the lowest free address, where it has none."""
        if name in self.asked:
            self.asked.remove(name)
        if self.address_of(incarnation) is not None:
            return
        address = next(number for number in range(1, len(self.own) + 2) if number not in self.own)
        self.own[address] = (incarnation, True)
        there = four(incarnation.node) + four(incarnation.opening)
        self.say(PUBLISH, four(address) + there + name.encode())

    def send(self, incarnation, name, target, signal):
        """Sends a signal to an incarnation that was met; its sender is published first."""
        self.publish(incarnation, name)
        to = next(address for address, there in self.met.items() if there == target)
        body = four(signal.number) + signal.data
        self.end.offer(Message(self.address_of(incarnation), to, body))

    def close(self, incarnation):
        """An endpoint closed: its address is closing."""
        address = self.address_of(incarnation)
        if address is not None:
            self.own[address] = (incarnation, False)
            self.say(UNPUBLISH, four(address))

    def hear(self, message):
        """A message comes; Asked, Met, Gone, Came, or nothing."""
        if message.source == 0:
            return self.hear_word(message.body[0], message.body)
        incarnation, live = self.own[message.target]
        if not live:
            return None
        signal = Signal(number_at(message.body, 0), message.body[4:])
        return Came(incarnation, self.met[message.source], signal)

    def hear_word(self, kind, body):
        """A message of the other side's RLNH comes."""
        if kind == INIT:
            self.say(INIT_REPLY, four(1))
        elif kind == QUERY_NAME:
            name = body[4:].decode()
            if name not in self.asked:
                self.asked.append(name)
            return Asked(name)
        elif kind == PUBLISH:
            incarnation = Incarnation(number_at(body, 8), number_at(body, 12))
            self.met[number_at(body, 4)] = incarnation
            return Met(incarnation, body[16:].decode())
        elif kind == UNPUBLISH:
            self.say(UNPUBLISH_ACK, body[4:8])
            return Gone(self.met.pop(number_at(body, 4)))
        elif kind == UNPUBLISH_ACK:
            del self.own[number_at(body, 4)]
        return None
