"""Values: incarnations, sessions, peers, signals and filters, each spelled as docs/use/text.md says."""
import hashlib
from typing import NamedTuple


class Refused(Exception):
    """Why the model writes no text for a script."""


class Full(Refused):
    """The journal is full, and somebody has a turn to take."""


class Incarnation(NamedTuple):
    """An opening of an endpoint: the number of the node, and which opening on it."""

    node: int
    opening: int

    def __str__(self):
        return f"{self.node}.{self.opening}"


class Session(NamedTuple):
    """A session of an end of a link: later ones are greater."""

    boot: int
    turn: int

    def __str__(self):
        return f"{self.boot}.{self.turn}"


class Here(NamedTuple):
    """A peer on the own node."""

    incarnation: Incarnation

    def __str__(self):
        return str(self.incarnation)


class There(NamedTuple):
    """A peer behind a link, met in a session of the own side."""

    link: str
    session: Session
    incarnation: Incarnation

    def __str__(self):
        return f"{self.link}:{self.session}:{self.incarnation}"


class Signal(NamedTuple):
    """A signal: its number and its data."""

    number: int
    data: bytes

    def size(self):
        """How many bytes a journal counts for it."""
        return 4 + len(self.data)

    def with_byte(self, byte):
        """The signal with one byte more."""
        return Signal(self.number, self.data + bytes([byte]))

    def __str__(self):
        if not self.data:
            data = "-"
        elif len(self.data) <= 32:
            data = self.data.hex()
        else:
            data = f"{len(self.data)}:{hashlib.sha256(self.data).hexdigest()}"
        return f"{self.number} {data}"


class Filter(NamedTuple):
    """What a receive selects: these numbers, or, where inverted, all but these."""

    inverted: bool
    numbers: tuple

    def selects(self, signal):
        """Whether the signal's number is selected."""
        return (signal.number in self.numbers) != self.inverted

    def __str__(self):
        if self.inverted and not self.numbers:
            return "any"
        word = "not" if self.inverted else "only"
        return word + ":" + ",".join(map(str, self.numbers))


def filter_of(words):
    """The filter that the words behind `recv` spell."""
    if words == ["any"]:
        return Filter(True, ())
    inverted = words[0] == "not"
    return Filter(inverted, tuple(map(int, words[1:] if inverted else words)))


def data_of(word):
    """The bytes that a DATA spells."""
    if word.startswith("hex:"):
        return bytes.fromhex(word[len("hex:"):])
    _, count, byte = word.split(":")
    return bytes([int(byte, 16)]) * int(count)


def signal_of(words, number=None):
    """The signal of a number and a DATA; a hunt and an attach may leave out both."""
    data = b""
    for word in words:
        if ":" in word:
            data = data_of(word)
        else:
            number = int(word)
    return Signal(number, data)
