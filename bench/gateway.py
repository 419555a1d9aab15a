#!/usr/bin/env python3
"""Lets Python clients talk over a gateway of `linx_sim`, and gives gateways spoiled streams.

Four clients of clients/python/linx_gateway.py, each in a thread, share one connection over the
loopback, by `socat` where that is there: they hunt for each other, attach, exchange signals, and
have timers that one of them lets fall due, until so many requests were made. Then gateways of 1 to 4
clients get streams drawn by chance, some bytes of which are altered, lost or added. All that is
replied, and how each session ends, must be as bench/model/gateway_rules.py says by
docs/use/gateway.md; the journal that the four clients leave in a file must be the one of these
rules, byte by byte, and `linx_sim check` must find it legal; and the program of that page must print
what it says. Prints what each took.

    bench/try gateway [REQUESTS [SPOILED [PROGRAM]]]                  20,000 and 100,000 if unsaid
"""
import concurrent.futures
import contextlib
import functools
import os
import pathlib
import random
import re
import resource
import shutil
import socket
import struct
import subprocess
import sys
import tempfile
import threading
import time

sys.dont_write_bytecode = True
HERE = pathlib.Path(__file__).resolve().parent
sys.path.insert(0, str(HERE / "model"))
sys.path.insert(0, str(HERE.parent / "clients/python"))

import arguments
import gateway_rules as rules
from linx_gateway import (ATTACH_SIGNAL, HUNT_SIGNAL, Dead, Gateway, NoReference, Nothing, NotYet,
                          Signal)

PAGE = HERE.parent / "docs/use/gateway.md"
SECONDS = 120
CLIENTS = 4
TIMER = 7
SIGNAL = 80     # what a signal without data takes: itself, and the block that it shares with its notes


class Taped:
    """A stream that keeps what passes."""

    def __init__(self, stream):
        self.stream, self.tape = stream, bytearray()

    def write(self, data):
        """Writes, and keeps it."""
        self.tape += data
        return self.stream.write(data)

    def read(self, count):
        """Reads, and keeps it."""
        data = self.stream.read(count)
        self.tape += data
        return data

    def flush(self):
        """Flushes."""
        self.stream.flush()

    def close(self):
        """Closes."""
        self.stream.close()


class Table:
    """Clients around a table: each has a place, and asks its neighbours, until enough was said."""

    def __init__(self, gateway, requests, seed):
        self.gateway, self.requests, self.seed = gateway, requests, seed
        self.moment = 0
        self.faults = []

    def is_over(self):
        """Whether enough was said."""
        return self.gateway.calls() >= self.requests or bool(self.faults)

    def sit(self, number):
        """What the client at a place does."""
        draw = random.Random(self.seed * 10 + number)
        try:
            while not self.is_over():
                self.dine(self.gateway.client(number), draw)
        except Exception as fault:                  # the thread ends, and the table with it
            self.faults.append(fault)

    def dine(self, client, draw):
        """One opening of a client, from its call to its close."""
        client.open(f"place{client.number}")
        client.hunt(f"place{client.number % CLIENTS + 1}")
        known, attaches, timers = set(), [], []
        for _ in range(draw.randint(20, 200)):
            if self.is_over():
                break
            self.act(client, draw, known, attaches, timers)
        client.close()

    def act(self, client, draw, known, attaches, timers):
        """One call, or a receive and the answer to what came."""
        kind = draw.randrange(8)
        if kind == 0 and known:
            attaches.append(client.attach(draw.choice(sorted(known))))
        elif kind == 1 and attaches:
            with contextlib.suppress(NoReference):
                client.detach(attaches.pop(draw.randrange(len(attaches))))
        elif kind == 2:
            timers.append(client.request_tmo(draw.randint(0, 50), Signal(TIMER)))
        elif kind == 3 and timers:
            with contextlib.suppress(NoReference):
                if draw.random() < 0.5:
                    client.cancel_tmo(timers.pop(draw.randrange(len(timers))))
                else:
                    client.modify_tmo(draw.choice(timers), draw.randint(0, 50))
        elif kind == 4 and client.number == 1:
            self.moment += draw.randint(0, 20)
            self.gateway.clock(self.moment)
        else:
            self.receive(client, draw, known)

    def receive(self, client, draw, known):
        """Takes what came. Who was found is asked, who asks is answered, the dead are forgotten."""
        numbers = draw.choice([(), (), (HUNT_SIGNAL, ATTACH_SIGNAL), (TIMER,), (1, 2)])
        try:
            got = client.receive_now(*numbers, all_but=bool(numbers) and draw.random() < 0.2)
        except (NotYet, Nothing):
            if known:
                self.ask(client, draw, draw.choice(sorted(known)), known)
            return
        if got.signal.number == HUNT_SIGNAL:
            known.add(got.sender)
            self.ask(client, draw, got.sender, known)
        elif got.signal.number == ATTACH_SIGNAL:
            known.discard(got.sender)
            client.hunt(f"place{draw.randint(1, CLIENTS)}")
        elif got.signal.number == 1:
            with contextlib.suppress(Dead):
                client.send(Signal(2, got.signal.data[::-1]), got.sender)

    def ask(self, client, draw, to, known):
        """Sends a question with some bytes; who is dead is forgotten."""
        try:
            client.send(Signal(1, draw.randbytes(draw.choice([0, 4, 40, 400]))), to)
        except Dead:
            known.discard(to)


def at_table(gateway, requests, seed):
    """Lets clients talk until so many requests were made; what went wrong."""
    table = Table(gateway, requests, seed)
    threads = [threading.Thread(target=table.sit, args=(number,))
               for number in range(1, CLIENTS + 1)]
    for thread in threads:
        thread.start()
    for thread in threads:
        thread.join()
    return table.faults


def script_of(clients):
    """The script whose node and actors are those of a gateway."""
    actors = "".join(f"actor client{number} g\nend\n" for number in range(1, clients + 1))
    return f"node g\n{actors}text\n"


def is_journal_wrong(program, told, kept):
    """Whether the journal in a file is another one than the rules tell, or isn't legal."""
    text = kept.read_text()
    ran = subprocess.run([program, "check"], input=script_of(CLIENTS) + text, capture_output=True,
                         text=True, timeout=SECONDS, check=False)
    right = text == told.journal.text() and ran.stdout == f"legal {told.journal.steps}\n"
    print(f"the journal of these: {len(text)} bytes, {(ran.stdout or ran.stderr).strip()}"
          f"{'' if right else ': WRONG'}")
    return not right


def over_socket(program, kept):
    """A program with its end of a connection as streams, and the other end."""
    with socket.create_server(("127.0.0.1", 0)) as door:
        client = socket.create_connection(door.getsockname(), SECONDS)
        there, _ = door.accept()
    with there:
        ran = subprocess.Popen([program, "gateway", str(CLIENTS), "--journal", kept],
                               stdin=there, stdout=there, stderr=subprocess.PIPE)
    return ran, client


def over_socat(program, kept):
    """The same by `socat`."""
    with socket.create_server(("127.0.0.1", 0)) as door:
        port = door.getsockname()[1]
    ran = subprocess.Popen(["socat", "-t", str(SECONDS),
                            f"TCP-LISTEN:{port},bind=127.0.0.1,reuseaddr",
                            f"EXEC:{program} gateway {CLIENTS} --journal {kept}"], stderr=subprocess.PIPE)
    until = time.monotonic() + SECONDS
    while True:
        try:
            return ran, socket.create_connection(("127.0.0.1", port), SECONDS)
        except ConnectionRefusedError:
            if time.monotonic() > until:
                raise
            time.sleep(0.01)


def is_table_wrong(program, way, requests):
    """Whether clients at a table are replied otherwise than they should be."""
    began = time.monotonic()
    folder = tempfile.TemporaryDirectory()
    kept = pathlib.Path(folder.name) / "journal"
    ran, client = way(program, kept)
    client.setsockopt(socket.IPPROTO_TCP, socket.TCP_NODELAY, 1)
    said, heard = Taped(client.makefile("wb", 0)), Taped(client.makefile("rb"))
    gateway = Gateway(said, heard, client.close)
    faults = at_table(gateway, requests, requests)
    client.shutdown(socket.SHUT_WR)
    behind = heard.stream.read()
    gateway.end()
    _, line = ran.communicate(timeout=SECONDS)
    took = time.monotonic() - began
    wanted, end, told = rules.session(CLIENTS, bytes(said.tape))
    right = not faults and not behind and (bytes(heard.tape), end) == (wanted, "done")
    right = right and not [text for text in line.decode().splitlines() if " socat[" not in text]
    print(f"{way.__name__}: {gateway.calls()} requests of {CLIENTS} clients, "
          f"{told.journal.steps} steps, {len(wanted)} bytes replied, {took:.2f} s"
          f"{'' if right else ': WRONG'}")
    for fault in faults[:1]:
        print(f"first fault: {fault!r}")
    with folder:
        return is_journal_wrong(program, told, kept) or not right


def is_page_wrong(program):
    """Whether the program of docs/use/gateway.md prints otherwise than it says."""
    page = PAGE.read_text()
    code = re.search(r"```python\n(.*?)```", page, re.S)[1]
    wanted = re.search(r"It prints\n\n((?:    .*\n)+)", page)[1].replace("    ", "")
    there = subprocess.run([sys.executable, "-c", code.replace('"linx_sim"', repr(str(program)))],
                           cwd=HERE.parent / "clients/python", capture_output=True, text=True,
                           check=False)
    right = there.stdout == wanted
    print(f"the program of docs/use/gateway.md: {there.stdout.splitlines()[-1:]}"
          f"{'' if right else ': WRONG' + there.stderr}")
    return not right


def drawn_body(draw, kind, opened):
    """A body for a request of this kind."""
    inc = struct.pack(">II", 1, draw.randint(1, opened + 1))
    number = struct.pack(">I", draw.choice([1, 2, HUNT_SIGNAL, ATTACH_SIGNAL]))
    data = draw.randbytes(draw.choice([0, 0, 1, 5]))
    reference = struct.pack(">Q", draw.randint(1, 12))
    delay = struct.pack(">I", draw.choice([0, 1, 5, 9]))
    if kind in (rules.OPEN, rules.HUNT):
        return draw.choice([b"a", b"b", b"c.d"])
    if kind == rules.RECEIVE:
        numbers = [draw.choice([1, 2, HUNT_SIGNAL]) for _ in range(draw.choice([0, 0, 1, 2]))]
        count = len(numbers) * draw.choice([1, 1, -1]) + (draw.random() < 0.03)
        return struct.pack(f">i{len(numbers)}I", count, *numbers)
    return {rules.CLOSE: b"", rules.SEND: inc + number + data, rules.ATTACH: inc,
            rules.DETACH: reference, rules.TIMER: delay + number + data,
            rules.CANCEL: reference, rules.MODIFY: reference + delay,
            rules.CLOCK: struct.pack(">Q", draw.randint(0, 30))}[kind]


def drawn(draw, clients):
    """A stream of requests."""
    parts, opened = [], 0
    kinds = [rules.OPEN] + list(range(1, 12)) + [rules.SEND, rules.RECEIVE, rules.RECEIVE]
    for _ in range(draw.randint(0, 30)):
        kind = draw.choice(kinds)
        opened += kind == rules.OPEN
        client = 0 if kind == rules.CLOCK else draw.randint(1, clients)
        parts.append(rules.request(kind, client, drawn_body(draw, kind, opened)))
    return b"".join(parts)


def spoiled(draw, clients):
    """A stream of requests with up to three changes."""
    data = bytearray(drawn(draw, clients))
    for _ in range(draw.choice([0, 0, 1, 2, 3])):
        at = draw.randrange(len(data) + 1)
        kind = draw.randrange(4)
        if kind == 0 and at < len(data):
            data[at] = draw.choice([0, 1, 2, 3, 4, 255, draw.randrange(256)])
        elif kind == 1:
            data.insert(at, draw.randrange(256))
        elif kind == 2 and at < len(data):
            del data[at]
        elif kind == 3 and draw.random() < 0.3:
            del data[at:]
    return bytes(data)


def wrong_in(program, seed, count):
    """Of so many spoiled streams, those that aren't replied to as they should be, and how many of
    them all end well."""
    draw, wrong, done = random.Random(seed), [], 0
    for _ in range(count):
        clients = draw.randint(1, 4)
        data = spoiled(draw, clients)
        said, end, _ = rules.session(clients, data)
        ran = subprocess.run([program, "gateway", str(clients)], input=data, capture_output=True,
                             timeout=SECONDS, check=False)
        line = "" if end == "done" else f"linx_sim: {end}\n"
        done += end == "done"
        if (ran.stdout, ran.stderr.decode()) != (said, line):
            wrong.append(f"{clients} {data.hex()}")
    return wrong, done


def wrong_streams(program, count):
    """How many spoiled streams weren't replied to as they should be."""
    share = 500
    seeds = range((count + share - 1) // share)
    with concurrent.futures.ProcessPoolExecutor() as pool:
        counts = [min(share, count - seed * share) for seed in seeds]
        found = list(pool.map(functools.partial(wrong_in, program), seeds, counts))
    wrong = [stream for streams, _ in found for stream in streams]
    print(f"{count - len(wrong)} of {count} spoiled streams replied to as they should be, "
          f"{sum(done for _, done in found)} of them to the end")
    for stream in wrong[:1]:
        print(f"first that isn't: {stream}")
    return len(wrong)


def is_full_wrong(program):
    """Whether a session goes on otherwise than it should where its journal is full: a timer is
    still requested, a call is not."""
    own = struct.pack(">QI", 1 << 32 | 1, 5)
    send = rules.request(rules.SEND, 1, own + bytes(65_532))
    timer = rules.request(rules.TIMER, 1, struct.pack(">II", 5, TIMER))
    data = rules.request(rules.OPEN, 1, b"a") + send * 512 + timer + send
    wanted, end, _ = rules.session(1, data)
    ran = subprocess.run([program, "gateway", "1"], input=data, capture_output=True,
                         timeout=SECONDS, check=False)
    right = ran.stdout == wanted and ran.stderr.decode() == f"linx_sim: {end}\n"
    print(f"a full journal: {ran.stderr.decode().strip()}{'' if right else ': WRONG'}")
    return not right


def speed(program, count):
    """How long so many requests take that are there at once: a timer, its cancel and a clock."""
    parts = [rules.request(rules.OPEN, 1, b"a")]
    for at in range(count // 4):
        parts.append(rules.request(rules.TIMER, 1, struct.pack(">II", 1 + at % 1000, TIMER)))
        parts.append(rules.request(rules.TIMER, 1, struct.pack(">II", at % 1000, TIMER)))
        parts.append(rules.request(rules.CANCEL, 1, struct.pack(">Q", 2 * at + 1)))
        parts.append(rules.request(rules.RECEIVE, 1, struct.pack(">I", 0)))
    with tempfile.TemporaryFile() as given:
        given.write(b"".join(parts))
        given.seek(0)
        began, had = time.monotonic(), resource.getrusage(resource.RUSAGE_CHILDREN)
        ran = subprocess.run([program, "gateway", "1"], stdin=given, capture_output=True,
                             check=False)
        took, has = time.monotonic() - began, resource.getrusage(resource.RUSAGE_CHILDREN)
    used = has.ru_utime + has.ru_stime - had.ru_utime - had.ru_stime
    print(f"{len(parts)} requests at once: {took:.2f} s, {used:.2f} s of a processor, "
          f"{len(ran.stdout)} bytes replied, {ran.stderr.decode().strip() or 'done'}")


def memory_of(ran):
    """The most memory that a program had so far, in kB."""
    status = pathlib.Path(f"/proc/{ran.pid}/status").read_text()
    return int(re.search(r"VmHWM:\s*(\d+)", status)[1])


def processor_time(ran):
    """How long a program had a processor so far."""
    fields = pathlib.Path(f"/proc/{ran.pid}/stat").read_text().rsplit(")", 1)[1].split()
    return (int(fields[11]) + int(fields[12])) / os.sysconf("SC_CLK_TCK")


def exchanged(ran, parts, size):
    """How long requests have a processor until so many bytes were replied."""
    def write():
        ran.stdin.write(b"".join(parts))
        ran.stdin.flush()

    writer = threading.Thread(target=write)
    began = processor_time(ran)
    writer.start()
    while size > 0:
        got = ran.stdout.read1(65_536)
        if not got:
            break
        size -= len(got)
    writer.join()
    return processor_time(ran) - began


def many_timers(program, count):
    """How long so many timers have a processor, each, to be requested, to send and to be cancelled,
    and the memory of each beside its signal."""
    moments = [at * 7919 % count for at in range(count)]
    due = count // 10
    requests = [rules.request(rules.TIMER, 1, struct.pack(">II", moment, TIMER))
                for moment in moments]
    cancels = [rules.request(rules.CANCEL, 1, struct.pack(">Q", at + 1))
               for at, moment in enumerate(moments) if moment >= due]
    with subprocess.Popen([program, "gateway", "1"], stdin=subprocess.PIPE,
                          stdout=subprocess.PIPE) as ran:
        exchanged(ran, [rules.request(rules.OPEN, 1, b"a")], 16)
        had = memory_of(ran)
        requested = exchanged(ran, requests, 16 * count)
        took = memory_of(ran) - had
        struck = exchanged(ran, [rules.request(rules.CLOCK, 0, struct.pack(">Q", due - 1))], 12)
        cancelled = exchanged(ran, cancels, 8 * len(cancels))
        ran.stdin.close()
    print(f"{count} timers: {requested / count * 1e6:.2f} us to request, "
          f"{struck / due * 1e6:.2f} us to send when due and "
          f"{cancelled / len(cancels) * 1e6:.2f} us to cancel each, "
          f"{took * 1024 / count - SIGNAL:.0f} bytes each beside the {SIGNAL} of their signals")


def main():
    """Talks to the built program."""
    parser = arguments.parser(__doc__)
    parser.add_argument("requests", type=arguments.count, nargs="?", default=20_000)
    parser.add_argument("spoiled", type=arguments.count, nargs="?", default=100_000)
    arguments.add_program(parser)
    given = parser.parse_args()
    program = arguments.found_program(parser, given)
    wrong = 0
    for way in (over_socket, over_socat) if shutil.which("socat") else (over_socket,):
        wrong += is_table_wrong(program, way, given.requests)
    wrong += is_page_wrong(program) + is_full_wrong(program)
    speed(program, 200_000)
    many_timers(program, 1_000_000)
    wrong += wrong_streams(program, given.spoiled)
    return 1 if wrong else 0


if __name__ == "__main__":
    sys.exit(main())
