#!/usr/bin/env python3
"""How long runs of the built program take, and how much memory, with the whole work and with half.

Each line is a script, run under `serial`: the least processor seconds of some runs, from the
program's start to the end of its text, with the whole work and with half of it, how many times as
long the whole takes, and the most memory with each. Time that grows with the work alone makes that
about 2, or less where starting counts. Memory below that of Python, some 20 MB, is told as that. A
run has a minute. One that isn't done is said, and the exit status is 1.

    bench/try speeds [RUNS [PROGRAM]]       RUNS is 3 if unsaid
"""
import sys

sys.dont_write_bytecode = True

import arguments
import timed

VERDICTS = {0: "L", 3: "R", 6: "S2"}


def actor(name, node, *lines):
    """The block of an actor."""
    return [f"actor {name} {node}", *lines, "end"]


def repeat(times, *lines):
    """A block that is done so often."""
    return [f"repeat {times}", *lines, "end"]


def load(requests):
    """The generated load of number 7, each client with so many requests in place of 100."""
    lines = [f"node n{node}" for node in range(1, 5)]
    lines += [f"link l{k} n{k} n{k + 1}" for k in range(1, 4)]
    for k in range(1, 4):
        for place, arrow in enumerate("><"):
            digits = [(7 + 3 * j + k + place) % 10 for j in range(1, 201)]
            lines.append(f"plan l{k} {arrow} " + " ".join(VERDICTS.get(d, "D") for d in digits))
    for k in range(1, 4):
        lines += actor(f"v{k}", f"n{k + 1}", f"open s{k}",
                       *repeat(8 * requests, "recv 10", "send last 11"), *repeat(8, "recv 12"))
        for i in range(8 * (k - 1) + 1, 8 * k + 1):
            send = f"send s 10 fill:{(97 * 7 + 131 * i) % 4001}:{i % 256:02x}"
            asks = repeat(requests, send, "recv 11")
            lines += actor(f"c{i}", f"n{k}", f"open c{i}", f"hunt l{k}/s{k}", "recv 251", "keep s",
                           "attach s r", *asks, "detach r", "send s 12")
    return lines


def queues(actors):
    """Actors that fill their queues with 9,990 signals and then take all in order."""
    lines = ["node n"]
    for k in range(actors):
        lines += actor(f"p{k}", "n", "open a", *repeat(9990, "send self 5"),
                       *repeat(9990, "recv any"), "close")
    return lines


def sends(count):
    """One actor sends itself so many signals, and receives each at once."""
    return ["node n", *actor("p", "n", "open a", *repeat(count, "send self 5", "recv any"))]


def ring(rounds):
    """64 actors; each waits so often for the one before it and then sends to the one behind it."""
    lines = ["node n"]
    for k in range(64):
        begins = ["send next 1"] if k == 0 else []
        lines += actor(f"p{k}", "n", f"open e{k}", f"hunt e{(k + 1) % 64}", "recv 251", "keep next",
                       *begins, *repeat(rounds, "recv 1", "send next 1"))
    return lines


def alike(count):
    """One actor sends itself so many equal signals of the largest size."""
    return ["node n", *actor("p", "n", "open a", *repeat(count, "send self 1 fill:65532:5a"))]


def unlike(count):
    """The same of nearly that size, no two alike, so that each has a digest of its own."""
    kinds = [f"send self 1 fill:{65_532 - k // 256}:{k % 256:02x}" for k in range(count)]
    return ["node n", *actor("p", "n", "open a", *kinds)]


def middle(count, selection):
    """Ten actors fill a queue with signals 1, 2 and 3 in turn; each taken one is the first 2."""
    lines = ["node n", *actor("taker", "n", "open q", "recv 4", *repeat(2 * count, selection))]
    for k in range(10):
        part = count // 5
        lines += actor(f"p{k}", "n", "open a", "hunt q", "recv 251", "keep q",
                       *repeat(part, "send q 1"), *repeat(part, "send q 2"),
                       *repeat(part, "send q 3"), "send q 4")
    return lines


def behind(count):
    """Ten actors fill a queue with 1s; the taker sends itself a 2 again and again, and takes it."""
    takes = repeat(count, "send self 2", "recv not 1")
    lines = ["node n", *actor("taker", "n", "open q", "recv 4", *takes)]
    for k in range(10):
        lines += actor(f"p{k}", "n", "open a", "hunt q", "recv 251", "keep q",
                       *repeat(count, "send q 1"), "send q 4")
    return lines


def lower(count):
    """Nine actors fill a queue with 2s, and then with as many 1s, each before all 2s by number."""
    lines = ["node n", *actor("taker", "n", "open q", "recv 9")]
    for k in range(9):
        lines += actor(f"p{k}", "n", "open a", "hunt q", "recv 251", "keep q",
                       *repeat(count, "send q 2"), *repeat(count, "send q 1"))
    return lines


def in_vain(count):
    """An actor that waits for what is no 5, while ten others send it 5s, takes the 6 at last."""
    lines = ["node n", *actor("taker", "n", "open q", "recv not 5")]
    for k in range(10):
        ends = ["send q 6"] if k == 9 else []
        lines += actor(f"p{k}", "n", "open a", "hunt q", "recv 251", "keep q",
                       *repeat(count, "send q 5"), *ends)
    return lines


def restarts(count):
    """64 actors that each restart their node so often."""
    return ["node n", *[line for k in range(64)
                        for line in actor(f"p{k}", "n", *repeat(count, "restart n"))]]


def hunters(rounds):
    """60 actors that hunt again and again for names that four actors open and close."""
    lines = ["node n"]
    for k in range(4):
        lines += actor(f"o{k}", "n", *repeat(2 * rounds, f"open x{k}", "close"))
    for k in range(60):
        lines += actor(f"h{k}", "n", f"open h{k}", *repeat(rounds, f"hunt x{k % 4}", "recv 251"))
    return lines


def attaches(actors):
    """Actors that each attach 9,990 times to one peer, and detach 6,990 of these at once."""
    lines = ["node n", *actor("peer", "n", "open s", "recv 1")]
    for k in range(actors):
        lines += actor(f"p{k}", "n", "open a", "hunt s", "recv 251", "keep s",
                       *repeat(3000, "attach s r"), *repeat(6990, "attach s r", "detach r"))
    return lines


def ping_pong(rounds):
    """Signals go to and fro over two links with windows of 1, ten steps a round and link."""
    lines = ["node m", "node n"] + [f"link l{k} m n window 1" for k in range(2)]
    for k in range(2):
        lines += actor(f"p{k}", "m", f"open a{k}", f"hunt l{k}/b{k}", "recv 251", "keep b",
                       *repeat(rounds, "send b 1", "recv 2"))
        lines += actor(f"q{k}", "n", f"open b{k}", *repeat(rounds, "recv 1", "send last 2"))
    return lines


def long_script(size):
    """A script of so many bytes, all but a few of them commands that are run."""
    command = "send self 1 hex:0102"
    commands = (size - 200) // (len(command) + 1)
    lines = ["node n"]
    for k, first in enumerate(range(0, commands, 9990)):
        lines += actor(f"p{k}", "n", "open a", *([command] * min(9990, commands - first)), "close")
    return lines


def long_data(actors):
    """Actors that each send themselves 9,990 signals of 300 bytes, of 30 kinds, and take them."""
    lines = ["node n"]
    for k in range(actors):
        kinds = [line for byte in range(30)
                 for line in (f"send self 1 fill:{300 - k}:{byte:02x}", "recv any")]
        lines += actor(f"p{k}", "n", "open a", *repeat(333, *kinds), "close")
    return lines


LINES = [
    ("generated load, 100 or 50 requests a client", load(100), load(50)),
    ("gen 7", None, None),
    ("200,000 steps in all queues", queues(10), queues(5)),
    ("the middle of 60,000 taken, by its number", middle(9990, "recv 2"), middle(4995, "recv 2")),
    ("the same, by what it isn't", middle(9990, "recv not 1 3"), middle(4995, "recv not 1 3")),
    ("the end of up to 99,900 taken, by what it isn't", behind(9900), behind(4950)),
    ("90,000 signals and then as many of a lower number", lower(9900), lower(4950)),
    ("99,900 signals that a waiting actor leaves", in_vain(9990), in_vain(4995)),
    ("60 hunters against openings and closings", hunters(1000), hunters(500)),
    ("100,000 attaches, 70,000 of them detached", attaches(10), attaches(5)),
    ("190,000 restarts by 64 actors", restarts(3000), restarts(1500)),
    ("130,000 steps of ping-pong, windows of 1", ping_pong(6500), ping_pong(3250)),
    ("a script of 1 MB", long_script(1_000_000), long_script(500_000)),
    ("the text of 200,000 steps with long data", long_data(10), long_data(5)),
    ("20,000 sends and receives of one actor", sends(9998), sends(4999)),
    ("64 actors in a ring, 200 or 100 rounds", ring(200), ring(100)),
    ("511 or 255 signals of 65,532 bytes", alike(511), alike(255)),
    ("as many of about that size, no two alike", unlike(511), unlike(255)),
]


def text_of(lines):
    """The bytes of a script of these lines."""
    return "".join(f"{line}\n" for line in lines).encode()


def measured(command, script, runs):
    """The least seconds of some runs, the most kilobytes, and how one ended that wasn't done."""
    took = timed.several(command, script, runs)
    return (min(ran.processor for ran in took), max(ran.kilobytes for ran in took),
            timed.failure(took))


def measure(program, runs, name, whole, half):
    """Prints a line; whether all runs were done."""
    if whole is None:
        seconds, size, failed = measured([program, "gen", "7"], b"", runs)
        print(f"{name:50} {seconds:7.3f} s{'':17} {size:9} kB{failed}", flush=True)
        return not failed
    command = [program, "serial"]
    seconds, size, failed = measured(command, text_of(whole), runs)
    half_seconds, half_size, half_failed = measured(command, text_of(half), runs)
    times = seconds / max(half_seconds, 0.000_001)
    print(f"{name:50} {seconds:7.3f} s {half_seconds:7.3f} s {times:6.2f}"
          f" {size:9} kB {half_size:9} kB{failed or half_failed}", flush=True)
    return not failed and not half_failed


def main():
    """Measures all lines."""
    parser = arguments.parser(__doc__)
    parser.add_argument("runs", type=arguments.count, nargs="?", default=3)
    arguments.add_program(parser)
    given = parser.parse_args()
    program = arguments.found_program(parser, given)
    print(f"{'':50}     whole      half  times        whole         half")
    done = [measure(program, given.runs, *line) for line in LINES]
    return 0 if all(done) else 1


if __name__ == "__main__":
    sys.exit(main())
