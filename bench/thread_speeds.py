#!/usr/bin/env python3
"""How long runs with a thread for each actor and each link take, beside the fixed order.

Each line is a script: the least elapsed seconds of some runs, and the processor seconds of that
run, under `serial` and under `run` (of the generated load: under `gen 7`). The waiting actors wait
for what comes at the end alone, so they should cost next to nothing. A run has a minute. One that
isn't done is said, and the exit status is 1.

    bench/try thread_speeds [RUNS [PROGRAM]]       RUNS is 10 if unsaid
"""
import pathlib
import sys

sys.dont_write_bytecode = True

import arguments
import timed
from speeds import actor, load, ping_pong, queues, repeat, text_of

EXAMPLES = pathlib.Path(__file__).resolve().parent.parent / "examples"


def crowd():
    """64 actors on 16 nodes with 32 links, that open an endpoint and end."""
    lines = [f"node n{k}" for k in range(16)]
    lines += [f"link l{k} n{k % 16} n{(k + 1 + k // 16) % 16}" for k in range(32)]
    for k in range(64):
        lines += actor(f"p{k}", f"n{k % 16}", "open a")
    return lines


def waiting(actors):
    """An actor sends itself 9,990 signals and takes each, while so many others wait for its end."""
    lines = ["node n", *actor("worker", "n", "open w", *repeat(9990, "send self 1", "recv 1"))]
    for k in range(actors):
        lines += actor(f"p{k}", "n", "open a", "hunt w", "recv 251", "attach last r", "recv 252")
    return lines


LINES = [
    ("the generated load of 7", load(100), ["gen", "7"]),
    ("130,000 steps of ping-pong, windows of 1", ping_pong(6500), ["run"]),
    ("ten full queues, 200,000 steps", queues(10), ["run"]),
    ("64 actors and 32 links that start and end", crowd(), ["run"]),
    ("one actor of 20,000 steps, nobody waits", waiting(0), ["run"]),
    ("the same, and 63 actors that wait", waiting(63), ["run"]),
]


def measured(command, script, runs):
    """The fastest of some runs, as it is printed, and how one ended that wasn't done."""
    took = timed.several(command, script, runs)
    fastest = min(took, key=lambda ran: ran.elapsed)
    return f" {fastest.elapsed:9.4f} {fastest.processor:9.4f}", timed.failure(took)


def measure(program, runs, name, script, words):
    """Prints a line; whether all runs were done."""
    serial, failed = measured([program, "serial"], script, runs)
    threads, also_failed = measured([program, *words], script, runs)
    print(f"{name:44}{serial}{threads}{failed or also_failed}", flush=True)
    return not failed and not also_failed


def main():
    """Measures all lines, and the examples one by one."""
    parser = arguments.parser(__doc__)
    parser.add_argument("runs", type=arguments.count, nargs="?", default=10)
    arguments.add_program(parser)
    given = parser.parse_args()
    program = arguments.found_program(parser, given)
    print(f"{'':44}         serial             threads\n{'seconds':44}"
          f"   elapsed processor   elapsed processor")
    lines = [(name, text_of(script), words) for name, script, words in LINES]
    lines += [(f"examples/{file.name}", file.read_bytes(), ["run"])
              for file in sorted(EXAMPLES.glob("*.linx"))]
    done = [measure(program, given.runs, *line) for line in lines]
    return 0 if all(done) else 1


if __name__ == "__main__":
    sys.exit(main())
