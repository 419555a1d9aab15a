#!/usr/bin/env python3
"""How long runs in threads take, elapsed, on a machine that is idle and on one that is busy.

A busy machine has a loop for each of its processors beside the runs, or as many as are said. On
each it says of `gen 7` the least, the median and the longest time of some runs, and of short
scripts under `run`, the examples and 100 signals to and fro by turns, the same and how many runs
took longer than 0.2 s. To be judged by, nothing else may run. A run has a minute. Where one isn't
done, or on the busy machine the median of `gen 7` is above 0.1 s or a short one above 0.2 s, the
exit status is 1.

    bench/try busy_threads [--loops N] [--load N] [SHORT [PROGRAM]]
                    SHORT is 10000 if unsaid, the runs of short scripts; of `gen 7` there are 100
"""
import contextlib
import os
import pathlib
import statistics
import subprocess
import sys

sys.dont_write_bytecode = True

import arguments
import timed
from speeds import actor, repeat, text_of

EXAMPLES = pathlib.Path(__file__).resolve().parent.parent / "examples"
MEDIAN_MOST = 0.1
SHORT_MOST = 0.2


def to_and_fro(count):
    """Two actors of a node that send so many signals to and fro."""
    return ["node n", *actor("p", "n", "open a", "hunt b", "recv 251", "keep s",
                             *repeat(count, "send s 1", "recv 2")),
            *actor("q", "n", "open b", *repeat(count, "recv 1", "send last 2"))]


def short_scripts():
    """The short scripts."""
    return [file.read_bytes() for file in sorted(EXAMPLES.glob("*.linx"))] + [
        text_of(to_and_fro(100))]


@contextlib.contextmanager
def busy(loops):
    """So many loops beside what is done here."""
    running = [subprocess.Popen([sys.executable, "-c", "while True: pass"]) for _ in range(loops)]
    try:
        yield
    finally:
        for loop in running:
            loop.kill()
            loop.wait()


def told(name, took, most):
    """Prints what some runs took; the median, the longest, and how many weren't done."""
    elapsed = [ran.elapsed for ran in took]
    longer = sum(seconds > most for seconds in elapsed)
    failed = sum(ran.status != 0 for ran in took)
    print(f"{name:36} {len(took):6} runs, least {min(elapsed):.4f} s, median "
          f"{statistics.median(elapsed):.4f} s, longest {max(elapsed):.3f} s, {longer} above "
          f"{most} s{f', {failed} not done' if failed else ''}", flush=True)
    return statistics.median(elapsed), max(elapsed), failed


def measure(program, where, given):
    """Measures both kinds of runs; whether they are as they should be on a busy machine."""
    load = timed.several([program, "gen", "7"], b"", given.load)
    median, _, load_failed = told(f"{where}: gen 7", load, SHORT_MOST)
    scripts = short_scripts()
    short = [timed.several([program, "run"], scripts[k % len(scripts)], 1)[0]
             for k in range(given.short)]
    _, longest, failed = told(f"{where}: short scripts", short, SHORT_MOST)
    return not load_failed and not failed and median <= MEDIAN_MOST and longest <= SHORT_MOST


def main():
    """Measures on the machine as it is, and with loops beside."""
    parser = arguments.parser(__doc__)
    parser.add_argument("--loops", type=arguments.count, default=os.cpu_count(), metavar="N")
    parser.add_argument("--load", type=arguments.count, default=100, metavar="N")
    parser.add_argument("short", type=arguments.count, nargs="?", default=10_000)
    arguments.add_program(parser)
    given = parser.parse_args()
    program = arguments.found_program(parser, given)
    print(f"load of the machine before: {os.getloadavg()[0]:.2f}")
    measure(program, "alone", given)
    with busy(given.loops):
        done = measure(program, f"beside {given.loops} loops", given)
    return 0 if done else 1


if __name__ == "__main__":
    sys.exit(main())
