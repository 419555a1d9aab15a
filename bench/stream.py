#!/usr/bin/env python3
"""Talks to `linx_sim stream` over sockets of the loopback, and gives its echo spoiled streams.

The built program is given each connection as its streams, or by `socat` where that is there: to one
who sends many signals of mixed sizes in pieces cut at random, to one who sends each byte by itself,
to a slow one, to one who ends within a frame, to one who sends rubbish behind good frames, to one
who is gone before it has read what is answered, to the client of docs/use/stream.md, and to one who
sends as much as a stream may have. The crate layer_speeds serves many streams, some bytes of which
are altered, lost or added, in pieces of a size drawn by chance, and large ones byte by byte. What is answered
and how each session ends must be as bench/model/stream_rules.py says by docs/change/wire.md. Prints
what each took.

    bench/try stream [--unproved] [SIGNALS [SPOILED [PROGRAM]]]      10,000 and 100,000 if unsaid

With `--unproved` layer_speeds isn't proved, and serves the spoiled streams alone.
"""
import contextlib
import functools
import pathlib
import random
import re
import shutil
import socket
import struct
import subprocess
import sys
import tempfile
import threading
import time

sys.dont_write_bytecode = True
sys.path.insert(0, str(pathlib.Path(__file__).resolve().parent / "model"))

import arguments
from stream_rules import (CONN, MESSAGE_MOST, PING, PONG, PUBLISH, QUERY_NAME, STREAM_MOST, UDATA,
                          frame, message, session)

PAGE = pathlib.Path(__file__).resolve().parent.parent / "docs/use/stream.md"
HEARD = r"""(1, 0, 0, b'')
(2, 0, 0, b'\x01\x00\x00\x00\x00\x00\x00\x01')
b'echo' is at 1
(2, 1, 7, b'\x00\x00\x00\x05*')
"""
SECONDS = 120
SPEEDS = pathlib.Path(__file__).resolve().parent.parent / "crates/layer_speeds"


def line_of(end):
    """The line on standard error of a session that ends so."""
    return "" if end == "done" else f"linx_sim: {end}\n"


def talk(draw, count):
    """CONN, a question for echo, a peer that is met, and signals of mixed sizes."""
    parts = [frame(CONN), message(QUERY_NAME, b"echo"),
             message(PUBLISH, struct.pack(">IQ", 7, 2 << 32 | 1) + b"a")]
    for _ in range(count):
        size = draw.choice([0, 1, 5, draw.randint(0, 200), draw.randint(0, 2000)])
        if draw.random() < 0.002:
            size = 65532
        number = struct.pack(">I", draw.getrandbits(32))
        parts.append(frame(UDATA, 7, 1, number + draw.randbytes(size)))
        if draw.random() < 0.01:
            parts.append(frame(draw.choice([PING, PONG])))
    return b"".join(parts)


def pieces(data, draw, most):
    """The bytes in pieces cut at random."""
    at = 0
    while at < len(data):
        size = draw.randint(1, most)
        yield data[at:at + size]
        at += size


def spoiled(draw):
    """A short stream with up to three changes."""
    data = bytearray(talk(draw, draw.randint(0, 4)))
    for _ in range(draw.randint(0, 3)):
        at = draw.randrange(len(data) + 1)
        kind = draw.randrange(4)
        if kind == 0 and at < len(data):
            data[at] = draw.choice([0, 1, 2, 3, 4, 255, draw.randrange(256)])
        elif kind == 1:
            data.insert(at, draw.randrange(256))
        elif kind == 2 and at < len(data):
            del data[at]
        elif kind == 3 and draw.random() < 0.3:
            del data[at:]
    return bytes(data)


def talked(client, given, wait):
    """Sends these pieces, and gives what is answered."""
    def send():
        with contextlib.suppress(OSError):          # the session is over: its answer says why
            for piece in given:
                client.sendall(piece)
                time.sleep(wait)
            client.shutdown(socket.SHUT_WR)

    sender = threading.Thread(target=send)
    sender.start()
    got = bytearray()
    with contextlib.suppress(ConnectionResetError):
        while piece := client.recv(65536):
            got += piece
    sender.join()
    return bytes(got)


def over_socket(program, client_does):
    """What a client has of a program with its connection as streams, and the program's line."""
    with socket.create_server(("127.0.0.1", 0)) as door:
        client = socket.create_connection(door.getsockname(), SECONDS)
        there, _ = door.accept()
    with client, there:
        ran = subprocess.Popen([program, "stream"], stdin=there, stdout=there,
                               stderr=subprocess.PIPE)
        there.close()
        got = client_does(client)
        _, said = ran.communicate(timeout=SECONDS)
    return got, said.decode()


@contextlib.contextmanager
def listening(program):
    """`socat`, which listens at a port and gives the program one connection."""
    with socket.create_server(("127.0.0.1", 0)) as door:
        port = door.getsockname()[1]
    with subprocess.Popen(["socat", "-t", str(SECONDS),
                           f"TCP-LISTEN:{port},bind=127.0.0.1,reuseaddr",
                           f"EXEC:{program} stream"], stderr=subprocess.PIPE) as ran:
        yield port, ran


def connected(port):
    """A connection to who begins to listen at a port."""
    until = time.monotonic() + SECONDS
    while True:
        try:
            return socket.create_connection(("127.0.0.1", port), SECONDS)
        except ConnectionRefusedError:
            if time.monotonic() > until:
                raise
            time.sleep(0.01)


def over_socat(program, client_does):
    """The same by `socat`, without the lines of its own."""
    with listening(program) as (port, ran):
        with connected(port) as client:
            got = client_does(client)
        _, said = ran.communicate(timeout=SECONDS)
    lines = said.decode().splitlines(keepends=True)
    return got, "".join(line for line in lines if " socat[" not in line)


def peers(draw, count):
    """Who talks: a name, what is said, the pieces, and how long is waited between two."""
    long, short = talk(draw, count), talk(draw, 40)
    rubbish = short + b"GET / HTTP/1.1\r\n\r\n" * 20
    return [("many signals", long, list(pieces(long, draw, 9000)), 0.0),
            ("one byte each", short, [short[at:at + 1] for at in range(len(short))], 0.0),
            ("a slow one", short, list(pieces(short, draw, 200)), 0.01),
            ("gone within a frame", short[:-3], [short[:-3]], 0.0),
            ("rubbish behind good frames", rubbish, [rubbish], 0.0)]


def wrong_peers(program, draw, count):
    """How many of those who talk over a socket weren't answered as they should be."""
    wrong = 0
    for way in (over_socket, over_socat) if shutil.which("socat") else (over_socket,):
        for name, data, given, wait in peers(draw, count):
            began = time.monotonic()
            got, line = way(program, functools.partial(talked, given=given, wait=wait))
            took = time.monotonic() - began
            said, end = session(data)
            right = (got, line) == (said, line_of(end))
            wrong += not right
            print(f"{way.__name__}, {name}: {len(data)} bytes, {len(got)} answered, {took:.2f} s, "
                  f"{end}{'' if right else ': WRONG'}")
        wrong += is_wrong_when_left(program, draw, way)
    return wrong


def is_wrong_when_left(program, draw, way):
    """Whether the program ends otherwise than it may where its peer is gone before it has read."""
    data = talk(draw, 400)

    def leaves(client):
        client.sendall(data[:-3])
        client.setsockopt(socket.SOL_SOCKET, socket.SO_LINGER, struct.pack("ii", 1, 0))
        client.close()

    _, line = way(program, leaves)
    right = re.fullmatch(r"(linx_sim: (torn at \d+|read fault|write fault)\n)?", line)
    right = right and (line or way is over_socat)         # who may end the program by a signal
    print(f"{way.__name__}, gone before it has read: {line.strip() or 'no line'}"
          f"{'' if right else ': WRONG'}")
    return not right


def is_page_wrong(program):
    """Whether the client of docs/use/stream.md has another answer than it says, by `socat`."""
    client = re.search(r"```python\n(.*?)```", PAGE.read_text(), re.S)[1]
    with listening(program) as (port, ran):
        until = time.monotonic() + SECONDS
        while True:
            there = subprocess.run([sys.executable, "-c", client.replace("9000", str(port))],
                                   capture_output=True, text=True, check=False)
            if "ConnectionRefusedError" not in there.stderr or time.monotonic() > until:
                break
        _, line = ran.communicate(timeout=SECONDS)
    right = there.returncode == 0 and there.stdout == HEARD and line == b""
    print(f"the client of docs/use/stream.md: {there.stdout.splitlines()[-1:]}"
          f"{'' if right else ': WRONG' + there.stderr}")
    return not right


def are_answered(command, lines):
    """The letters that layer_speeds has for streams, their answers and their ends."""
    text = "".join(f"t{line}\n" for line in lines)
    ran = subprocess.run([*command, "packets"], cwd=SPEEDS, input=text, stdout=subprocess.PIPE,
                         text=True, check=False)
    return next((line for line in ran.stdout.split("\n") if re.match(r"[GB]+\Z", line)), "")


def wrong_streams(command, draw, count):
    """How many spoiled streams weren't answered as they should be."""
    lines = []
    for _ in range(count):
        data = spoiled(draw)
        said, ends = session(data)
        lines.append(f"{draw.choice([1, 3, 16, 4096])} {data.hex()} {said.hex()} {ends}")
    answers = are_answered(command, lines)
    wrong = [at for at in range(count) if answers[at:at + 1] != "G"]
    done = sum(line.endswith("done") for line in lines)
    print(f"{count - len(wrong)} of {count} spoiled streams answered as they should be, "
          f"{done} of them to the end")
    for at in wrong[:1]:
        print(f"first that isn't: {lines[at]}")
    return len(wrong)


def byte_by_byte(command):
    """Whether streams are answered of which each read gives one byte, and how long each takes."""
    wrong = 0
    for count in 2**20, 2**21:
        data = talk(random.Random(1), 0)
        whole = frame(UDATA, 7, 1, bytes(60_000))
        data += whole * ((count - len(data)) // len(whole)) + whole
        data = data[:count]
        said, ends = session(data)
        began = time.monotonic()
        wrong += are_answered(command, [f"1 {data.hex()} {said.hex()} {ends}"]) != "G"
        print(f"{count} reads of one byte: {time.monotonic() - began:.2f} s, {ends}")
    return wrong


def memory_of(ran):
    """The most memory that a program had so far, in kB."""
    status = pathlib.Path(f"/proc/{ran.pid}/status").read_text()
    return int(re.search(r"VmHWM:\s*(\d+)", status)[1])


def largest(program):
    """Whether a stream ends at its limit, and the memory that the program takes on the way."""
    begin, whole = talk(random.Random(1), 0), frame(UDATA, 7, 1, bytes(MESSAGE_MOST))
    count = (STREAM_MOST - len(begin)) // len(whole)
    wrong = 0
    for more, end in (0, "done"), (1, f"bad stream at {len(begin) + count * len(whole)}"):
        began = time.monotonic()
        ran = subprocess.Popen([program, "stream"], stdin=subprocess.PIPE, stderr=subprocess.PIPE,
                               stdout=subprocess.DEVNULL)
        took = 0
        with contextlib.suppress(BrokenPipeError), ran.stdin as given:
            given.write(begin)
            given.flush()
            time.sleep(0.2)
            had = memory_of(ran)
            for _ in range(count):
                given.write(whole)
            given.flush()
            took = memory_of(ran) - had
            given.write(whole * more)
        line = ran.stderr.read().decode()
        ran.wait()
        wrong += line != line_of(end)
        print(f"{len(begin) + (count + more) * len(whole)} bytes: {time.monotonic() - began:.2f} s,"
              f" {took} kB behind the first {len(begin)} bytes, {end}")
    return wrong


def main():
    """Talks to the built program, and builds the one that serves many."""
    parser = arguments.parser(__doc__)
    parser.add_argument("--unproved", action="store_true")
    parser.add_argument("signals", type=arguments.count, nargs="?", default=10_000)
    parser.add_argument("spoiled", type=arguments.count, nargs="?", default=100_000)
    arguments.add_program(parser)
    given = parser.parse_args()
    program = arguments.found_program(parser, given)
    draw = random.Random(49)
    wrong = wrong_peers(program, draw, given.signals) + largest(program)
    if shutil.which("socat"):
        wrong += is_page_wrong(program)
    command = ["rt", "try" if given.unproved else "run", "--"]
    wrong += wrong_streams(command, draw, given.spoiled)
    if not given.unproved:
        wrong += byte_by_byte(command)
    return 1 if wrong else 0


if __name__ == "__main__":
    sys.exit(main())
