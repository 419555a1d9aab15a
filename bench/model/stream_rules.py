"""A byte stream: its frames, and what an endpoint with the name `echo` says to them.

The rules are those of docs/change/wire.md: frames of a byte stream, and messages between nodes.
"""
import re
import struct
from typing import NamedTuple

CONN, UDATA, PING, PONG = 1, 2, 3, 4
INIT, INIT_REPLY, QUERY_NAME, PUBLISH, UNPUBLISH, UNPUBLISH_ACK = range(1, 7)
HEADER = 16
MESSAGE_MOST = 65_536
STREAM_MOST = 1_073_741_824
ECHO = 1 << 32 | 1
NAME = re.compile(rb"[A-Za-z0-9_.-]{1,32}\Z")
LEAST = bytes([1, CONN]) + bytes(14)


class Frame(NamedTuple):
    """A frame that was read, and where it ends."""

    kind: int
    source: int
    target: int
    body: bytes
    end: int


def frame(kind, source=0, target=0, body=b""):
    """The bytes of a frame."""
    return struct.pack(">BBHIII", 1, kind, 0, source, target, len(body)) + body


def message(kind, rest):
    """The frame of a message of RLNH."""
    return frame(UDATA, body=bytes([kind, 0, 0, 0]) + rest)


def frame_at(data, at):
    """The frame at a place of a stream; "more" where it is torn, "bad" where there is none."""
    known = data[at:at + HEADER]
    if not known:
        return "more"
    if known[0] != 1 or any(known[2:4]) or len(known) > 1 and known[1] not in range(1, 5):
        return "bad"
    _, kind, _, source, target, size = struct.unpack(">BBHIII", known + LEAST[len(known):])
    if kind == UDATA and len(known) < HEADER:
        size = max(size, 1)
    if kind == UDATA and not 1 <= size <= MESSAGE_MOST:
        return "bad"
    if kind != UDATA and (source or target or size):
        return "bad"
    end = at + HEADER + size
    if end > STREAM_MOST:
        return "bad"
    return Frame(kind, source, target, data[at + HEADER:end], end) if end <= len(data) else "more"


class Echo:
    """The endpoint: whether its connection is up, whether it has an address, and who is met."""

    def __init__(self):
        self.up, self.published, self.met = False, False, {}

    def says(self, to):
        """What is said to a frame; None where it breaks the rules."""
        if not self.up:
            self.up = to.kind == CONN
            return frame(CONN) + message(INIT, struct.pack(">I", 1)) if self.up else None
        if to.kind == CONN:
            return None
        if to.kind != UDATA:
            return frame(PONG) if to.kind == PING else b""
        if to.source == 0 and to.target == 0:
            return self.says_to_message(to.body)
        return self.says_to_signal(to)

    def says_to_signal(self, to):
        """A signal of who is met goes back."""
        if len(to.body) < 4 or to.source not in self.met or not (self.published and to.target == 1):
            return None
        return frame(UDATA, 1, to.source, to.body)

    def says_to_message(self, body):
        """What is said to a message of RLNH."""
        if len(body) < 4 or any(body[1:4]):
            return None
        kind, rest = body[0], body[4:]
        if kind in (INIT, INIT_REPLY):
            if rest != struct.pack(">I", 1):
                return None
            return message(INIT_REPLY, rest) if kind == INIT else b""
        if kind == QUERY_NAME:
            return self.asked(rest) if NAME.match(rest) else None
        if kind == PUBLISH:
            return self.meets(rest)
        return self.parts(rest) if kind == UNPUBLISH else None

    def asked(self, name):
        """A name is asked for: PUBLISH, where it is this one's and has no address yet."""
        if name != b"echo" or self.published:
            return b""
        self.published = True
        return message(PUBLISH, struct.pack(">IQ", 1, ECHO) + name)

    def meets(self, rest):
        """An endpoint of the peer has an address."""
        if len(rest) < 12 or not NAME.match(rest[12:]):
            return None
        address, who = struct.unpack(">IQ", rest[:12])
        if address == 0 or address in self.met or who in self.met.values():
            return None
        self.met[address] = who
        return b""

    def parts(self, rest):
        """An endpoint of the peer is closed."""
        if len(rest) != 4 or self.met.pop(struct.unpack(">I", rest)[0], None) is None:
            return None
        return message(UNPUBLISH_ACK, rest)


def session(data):
    """What is said to a whole stream, and how the session ends: its word and its place."""
    echo, at, said = Echo(), 0, []
    while True:
        come = frame_at(data, at)
        if come == "more":
            return b"".join(said), "done" if at == len(data) else f"torn at {at}"
        answer = None if come == "bad" else echo.says(come)
        if answer is None:
            return b"".join(said), f"bad stream at {at}"
        said.append(answer)
        at = come.end
