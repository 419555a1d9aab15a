#!/usr/bin/env python3
"""Reads spoiled packets, messages and bodies of signals, and says whether the right ones were bad.

They are made field by field, often with a number at its limit or one behind it, and in most of them
some bytes are altered, lost or added. `read` of ethcm_headers and of rlnh_messages, and
`read_signal`, must call bad just those that aren't one by docs/change/wire.md, as the rules below
have it. The crate layer_speeds reads them; `try` builds it unproved. Prints how many answers were
right, and the first that wasn't. The first sixty cases are what it reads in the gate.

    bench/try packets [run|try] [COUNT]       COUNT is 100,000 if unsaid
"""
import pathlib
import random
import re
import subprocess
import sys

sys.dont_write_bytecode = True

import arguments

CRATE = pathlib.Path(__file__).resolve().parent.parent / "crates/layer_speeds"
NAME = re.compile(rb"[A-Za-z0-9_.-]{1,32}\Z")


def number(data):
    """The number that bytes spell."""
    return int.from_bytes(data, "big")


# What is a packet, a message and a body of a signal.

def is_piece(data, header):
    """A first piece, with a header of 20 bytes, or a further one with one of 8."""
    payload = len(data) - header
    if data[0] or data[1] > 1 or any(data[2:4]) or number(data[4:8]) == 2**32 - 1:
        return False
    if not 1 <= payload <= 8192:
        return False
    if header == 8:
        return True
    size = number(data[16:20])
    return 1 <= size <= 65_536 and (payload < size if data[1] else payload == size)


def is_behind_ack(data):
    """An ACK header, and a piece or nothing behind it."""
    if len(data) < 8 or any(data[1:4]):
        return False
    if data[0] == 0:
        return len(data) == 8
    header = {3: 20, 4: 8}.get(data[0])
    return header is not None and len(data) > 8 + header and is_piece(data[8:], header)


def is_packet(data):
    """Whether bytes spell a packet."""
    if len(data) < 24 or data[0] != 2 or number(data[2:4]) != len(data):
        return False
    sender, receiver, rest = number(data[4:12]), number(data[12:20]), data[20:]
    if data[1] == 2:
        right = len(rest) == 4 and rest[0] == 0 and 1 <= rest[1] <= 4 and not any(rest[2:])
        return right and sender != 0 and (receiver == 0) == (rest[1] == 1)
    if sender == 0 or receiver == 0:
        return False
    if data[1] == 6:
        return len(rest) == 8 and not any(rest[:2]) and 1 <= number(rest[2:4]) <= 256
    return data[1] == 5 and is_behind_ack(rest)


def is_message(data):
    """Whether bytes spell a message of RLNH."""
    if len(data) < 4 or any(data[1:4]):
        return False
    kind, rest = data[0], data[4:]
    if kind in (1, 2):
        return rest == bytes([0, 0, 0, 1])
    if kind == 3:
        return NAME.match(rest) is not None
    address = number(rest[:4]) != 0
    if kind == 4:
        return len(rest) > 12 and address and NAME.match(rest[12:]) is not None
    return kind in (5, 6) and len(rest) == 4 and address


def is_signal(data):
    """Whether bytes are the body of a signal."""
    return 4 <= len(data) <= 65_536


JUDGES = {"p": is_packet, "m": is_message, "s": is_signal}


class Maker:
    """Makes packets, messages and bodies, and spoils them."""

    def __init__(self, seed):
        self.random = random.Random(seed)

    def any_of(self, size, *limits):
        """A number of some bytes: mostly one of these."""
        if self.random.random() < 0.9:
            return self.random.choice(limits).to_bytes(size, "big")
        return self.random.randbytes(size)

    def session(self):
        """A session, now and then the unknown one."""
        return self.any_of(8, 2**32 + 1, 2**32 + 1, 2**33 + 7, 2**64 - 1, 0)

    def frame(self):
        """The number of a frame."""
        return self.any_of(4, 0, 1, 77, 2**32 - 2, 2**32 - 1)

    def piece(self, is_first):
        """A piece's header, and its payload."""
        payload = self.random.randbytes(self.random.choice([1, 2, 8, 64, 8, 0]))
        more = self.random.choice([0, 0, 1, 2])
        head = bytes([0, more, 0, 0]) + self.frame()
        if is_first:
            size = len(payload) + self.random.choice([more, more, more, 0, 1, 65_536])
            head += self.any_of(4, 0, 1, 2**32 - 1) * 2 + size.to_bytes(4, "big")
        return head + payload

    def p(self):
        """A packet."""
        kind = self.random.choice(["conn", "ack", "nack", "first", "next"])
        receiver = self.session()
        if kind == "conn":
            which = self.random.choice([1, 2, 3, 4, 0, 5])
            receiver = bytes(8) if which == 1 and self.random.random() < 0.8 else receiver
            chain = bytes([0, which, 0, 0])
        elif kind == "nack":
            chain = bytes(2) + self.any_of(2, 1, 2, 255, 256, 0, 257) + self.frame()
        else:
            behind = {"ack": 0, "first": 3, "next": 4}[kind]
            chain = bytes([behind, 0, 0, 0]) + self.frame()
            chain += self.piece(kind == "first") if behind else b""
        begin = bytes([2, {"conn": 2, "nack": 6}.get(kind, 5)])
        return begin + (20 + len(chain)).to_bytes(2, "big") + self.session() + receiver + chain

    def m(self):
        """A message of RLNH."""
        kind = self.random.randint(0, 7)
        name = self.random.choice([b"server", b"a", b"A-z_0.9", b"x" * 32, b"x" * 33, b"", b"a b"])
        address = self.any_of(4, 1, 1, 2, 2**32 - 1, 0)
        rest = {1: self.any_of(4, 1, 1, 1, 0, 2), 2: self.any_of(4, 1, 1, 1, 0, 2), 3: name,
                4: address + self.any_of(8, 2**33 + 1, 0, 2**64 - 1) + name, 5: address,
                6: address}.get(kind, b"")
        return bytes([kind, 0, 0, 0]) + rest

    def s(self):
        """A body of a signal."""
        return bytes(self.random.choice([0, 1, 3, 4, 5, 100, 100, 65_536 if self.rarely() else 9]))

    def rarely(self):
        """Now and then."""
        return self.random.random() < 0.01

    def spoiled(self, data):
        """The bytes with up to three changes."""
        for _ in range(self.random.choice([0, 0, 0, 1, 1, 2, 3])):
            at = self.random.randint(0, len(data))
            byte = self.random.choice([0, 1, 2, 3, 4, 5, 6, 255, self.random.randrange(256)])
            new = bytes([byte])
            data = data[:at] + self.random.choice([new, new, b""]) + (
                data[at + self.random.choice([1, 1, 1, 0]):])
        return data

    def line(self):
        """A line for the program."""
        letter = self.random.choice("pppmms")
        return letter, self.spoiled(getattr(self, letter)())


def main():
    """Makes them, has them read, and compares."""
    parser = arguments.parser(__doc__)
    parser.add_argument("way", choices=["run", "try"], nargs="?", default="run")
    parser.add_argument("count", type=arguments.count, nargs="?", default=100_000)
    given = parser.parse_args()
    count = given.count
    maker = Maker(1)
    cases = [maker.line() for _ in range(count)]
    text = "".join(f"{letter}{data.hex()}\n" for letter, data in cases)
    ran = subprocess.run(["rt", given.way, "--", "packets"], cwd=CRATE, input=text,
                         stdout=subprocess.PIPE, text=True, check=False)
    answers = next((line for line in ran.stdout.split("\n") if re.match(r"[GB]+\Z", line)), "")
    wanted = "".join("G" if JUDGES[letter](data) else "B" for letter, data in cases)
    wrong = [at for at in range(count) if answers[at:at + 1] != wanted[at]]
    print(f"{count - len(wrong)} of {count} answers as they should be, "
          f"{wanted.count('G')} of the cases are good ones")
    for at in wrong[:1]:
        letter, data = cases[at]
        print(f"first that is wrong: {letter}{data.hex()} is {wanted[at]}, "
              f"and was called {answers[at:at + 1] or 'nothing'}")
    return 1 if wrong else 0


if __name__ == "__main__":
    sys.exit(main())
