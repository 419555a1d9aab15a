"""Links' ends: the packets, and how an end makes sessions and moves messages in pieces.

The rules are those of docs/change/wire.md: the table of sessions, windows, and an end of a link.
"""
from dataclasses import dataclass
from enum import Enum
from typing import Any, NamedTuple

from values import Session

NEAR = 256
LOST_AT = 3


class Message(NamedTuple):
    """What an end is offered and hands up: two link addresses and a body."""

    source: int
    target: int
    body: bytes


class Frame(NamedTuple):
    """A piece of a message; the first one alone has the addresses and the size of the whole."""

    more: bool
    payload: bytes
    first: Any = None


class Kind(Enum):
    """A packet that is about a session alone."""

    CONNECT = 1
    CONNECT_ACK = 2
    ACK = 3
    RESET = 4


class Taken(NamedTuple):
    """All frames below a number were taken."""

    number: int


class Missing(NamedTuple):
    """All frames below a number were taken, and so many from it on are missing."""

    number: int
    count: int


class Piece(NamedTuple):
    """All frames below a number were taken, and here is a frame with its place."""

    number: int
    place: int
    frame: Frame


class Packet(NamedTuple):
    """A packet: its sender's session, its receiver's where that is known, and what it says."""

    sender: Session
    receiver: Any
    part: Any


class Up:
    """An end went up."""


@dataclass
class Down:
    """An end went down; the session that ended."""

    session: Session


def cut(message, size):
    """The frames of a message, of the given piece size."""
    body = message.body
    pieces = [body[start:start + size] for start in range(0, len(body), size)]
    frames = [Frame(True, piece) for piece in pieces]
    frames[0] = frames[0]._replace(first=(message.source, message.target, len(body)))
    frames[-1] = frames[-1]._replace(more=False)
    return frames


class Sender:
    """The frames of a session that aren't acknowledged, and the window over the first of them."""

    def __init__(self, width):
        self.width, self.base, self.sent, self.frames = width, 0, 0, []

    def frame(self, place):
        """The frame of a number."""
        return self.frames[place - self.base]

    def let_in(self):
        """The numbers of the frames that come into the window now."""
        before, self.sent = self.sent, min(self.width, len(self.frames))
        return range(self.base + before, self.base + self.sent)

    def acknowledged(self, number):
        """Drops the frames below a number; the numbers of those that thereby come in."""
        if not self.base <= number <= self.base + self.sent:
            return range(0)
        gone = number - self.base
        del self.frames[:gone]
        self.base, self.sent = number, self.sent - gone
        return self.let_in()

    def again(self, number, count):
        """The numbers of at most so many frames of the window, from a number on."""
        start = max(number, self.base)
        return range(start, min(start + count, self.base + self.sent))


class Receiver:
    """The number that a session expects, the early frames, and the message in the making."""

    def __init__(self):
        self.expected, self.kept, self.asked = 0, {}, False
        self.first, self.bytes = None, b""

    def keep(self, place, frame):
        """Keeps an early frame where it is near and none is kept with its number."""
        if place < self.expected + NEAR:
            self.kept.setdefault(place, frame)

    def missing(self):
        """How many frames are missing from the expected number on."""
        above = [place for place in self.kept if place > self.expected]
        return min(above) - self.expected if above else NEAR

    def take(self, frame):
        """Takes the expected frame, and those kept behind it until a message is whole."""
        self.kept.pop(self.expected, None)
        message = self.join(frame)
        while message is None and self.expected in self.kept:
            message = self.join(self.kept.pop(self.expected))
        return message

    def join(self, frame):
        """Joins the expected frame to the message; the message, where it is whole."""
        assert (self.first is None) == (frame.first is not None), "a broken message"
        self.expected, self.asked = self.expected + 1, False
        self.first = self.first or frame.first
        self.bytes += frame.payload
        if frame.more:
            return None
        source, target, size = self.first
        message = Message(source, target, self.bytes)
        assert len(message.body) == size, "a broken message"
        self.first, self.bytes = None, b""
        return message


class End:
    """An end of a link; what it sends goes behind what is in flight."""

    def __init__(self, window, piece, flight):
        self.window, self.piece, self.flight = window, piece, flight
        self.begin(Session(1, 1), None, False)

    def begin(self, session, peer, confirmed):
        """Is in a session, up with a peer or connecting, with all else as at first."""
        self.session, self.peer, self.confirmed = session, peer, confirmed
        self.unheard = 0
        self.sender, self.receiver = Sender(self.window), Receiver()

    def is_up(self):
        """Whether the end is up with a session of its peer."""
        return self.peer is not None

    def has_work(self):
        """Whether it is connecting, or waits to be confirmed, or for an acknowledgement."""
        return not self.is_up() or not self.confirmed or bool(self.sender.frames)

    def restart(self):
        """Begins anew with the next boot."""
        self.begin(Session(self.session.boot + 1, 1), None, False)

    def go_down(self):
        """Ends the session."""
        old = self.session
        self.begin(Session(old.boot, old.turn + 1), None, False)
        return Down(old)

    def go_up(self, peer, confirmed):
        """Is up with a session of the peer."""
        self.begin(self.session, peer, confirmed)
        return Up()

    def send(self, part):
        """Sends a packet to the peer."""
        self.flight.append(Packet(self.session, self.peer, part))

    def send_pieces(self, places):
        """Sends the frames of these numbers."""
        for place in places:
            self.send(Piece(self.receiver.expected, place, self.sender.frame(place)))

    def offer(self, message):
        """Cuts a message into frames, and sends those that the window has room for."""
        self.sender.frames.extend(cut(message, self.piece))
        self.send_pieces(self.sender.let_in())

    def tick(self):
        """A tick passes; Down where the session is lost by it."""
        if not self.is_up():
            self.send(Kind.CONNECT)
            return None
        self.unheard += 1
        if self.unheard == LOST_AT:
            self.send(Kind.RESET)
            return self.go_down()
        self.receiver.asked = False
        if self.sender.sent:
            self.send_pieces(self.sender.again(self.sender.base, self.sender.sent))
        else:
            self.send(Kind.ACK)
        return None

    def hear(self, packet):
        """A packet comes; Up, Down, a Message, or nothing."""
        return self.hear_up(packet) if self.is_up() else self.hear_connecting(packet)

    def hear_connecting(self, packet):
        """A packet comes to a connecting end."""
        if packet.part is Kind.CONNECT:
            self.flight.append(Packet(self.session, packet.sender, Kind.CONNECT_ACK))
        elif packet.receiver == self.session and packet.part is Kind.CONNECT_ACK:
            event = self.go_up(packet.sender, False)
            self.send(Kind.ACK)
            return event
        elif packet.receiver == self.session and packet.part is Kind.ACK:
            return self.go_up(packet.sender, True)
        return None

    def hear_up(self, packet):
        """A packet comes to an end that is up."""
        if packet.sender < self.peer:
            return None
        if packet.sender > self.peer:
            return self.go_down()
        if packet.part is Kind.CONNECT:
            self.unheard = 0
            self.send(Kind.ACK)
            return None
        if packet.receiver != self.session:
            return None
        if packet.part is Kind.RESET:
            return self.go_down()
        self.unheard = 0
        if packet.part is Kind.CONNECT_ACK:
            self.send(Kind.ACK)
            return None
        self.confirmed = True
        return None if packet.part is Kind.ACK else self.hear_frames(packet.part)

    def hear_frames(self, part):
        """What the peer says of frames comes; the message that is whole by it, if one is."""
        self.send_pieces(self.sender.acknowledged(part.number))
        if isinstance(part, Missing):
            self.send_pieces(self.sender.again(part.number, part.count))
        return self.hear_piece(part) if isinstance(part, Piece) else None

    def hear_piece(self, piece):
        """A frame comes; the message that is whole by it, if one is."""
        receiver = self.receiver
        if piece.place > receiver.expected:
            receiver.keep(piece.place, piece.frame)
            if not receiver.asked:
                self.send(Missing(receiver.expected, receiver.missing()))
                receiver.asked = True
            return None
        message = receiver.take(piece.frame) if piece.place == receiver.expected else None
        self.send(Taken(receiver.expected))
        return message
