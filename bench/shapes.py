#!/usr/bin/env python3
"""Searches for shapes of scripts whose runs take more than their work, in time or in memory.

Each shape of bench/shape_scripts.py is run under `serial` with a size n, with 2n and with 4n, and
so are random scripts whose actors do all their commands again and again. What the size leaves open
is drawn by the seed, the same for all three. A line has the least processor seconds of some runs,
from the start of the program to the end of its text, and how many times as long 4n takes as 2n; the
most memory, and how much of the bound that docs/use/limits.md has for it 4n takes; and of 4n the
steps, and the time and memory of a step. On a busy machine seconds tell little: with --counted
there are millions of instructions in their place, which valgrind counts in one run, 50 times as
slow. The lines come by growth, the fastest first; then those that take most for a step. Memory
below that of Python, some 15 MB, is told as that. Where a run isn't done within five minutes and
its journal isn't full, where twice the work takes more than 3 times as long, or where a run takes
more memory than the bound, that is said, and the exit status is 1.

    bench/try shapes [--seeds N] [--random N] [--only WORD] [--size X] [--counted] [RUNS [PROGRAM]]
                                RUNS is 3 if unsaid; 1 seed of each shape, no random script
    bench/try shapes --write NAME SIZE SEED             writes the script of a shape
"""
import os
import random
import re
import resource
import sys
import tempfile
from typing import NamedTuple

sys.dont_write_bytecode = True

import arguments
import shape_scripts
import timed
from speeds import text_of

SECONDS = 300
GROWTH_MOST = 3
SECONDS_LEAST = 0.05
FULL_STATUS = 5
DECLARED = (b"node", b"link", b"plan", b"actor")
DIGESTED = re.compile(rb" (\d+):[0-9a-f]{64}")
STEP = re.compile(rb"(\d+) [AP]\d+ ")
FULL = re.compile(rb"journal full after step (\d+)")
COUNTED = re.compile(rb"I +refs: +([0-9,]+)")
COUNT = ["valgrind", "--tool=cachegrind", "--cache-sim=no", "--cachegrind-out-file=/dev/null"]


class Made(NamedTuple):
    """What a run made: steps, effects, data bytes that are printed by a digest, bytes of text."""

    steps: int
    effects: int
    data: int
    text: int


class Ran(NamedTuple):
    """What the runs of a script came to."""

    steps: int
    time: float
    memory: int
    bound: int
    failed: str


class Line(NamedTuple):
    """The runs of a shape with n, 2n and 4n."""

    name: str
    size: int
    runs: tuple

    @property
    def growth(self):
        """How many times as long twice the work takes."""
        return self.runs[2].time / max(self.runs[1].time, 0.000_001)

    @property
    def share(self):
        """How much of its bound the memory of the largest takes, where it is more than Python's."""
        own = 1024 * resource.getrusage(resource.RUSAGE_SELF).ru_maxrss
        return self.runs[2].memory / self.runs[2].bound if self.runs[2].memory > own else 0

    @property
    def step_time(self):
        """The time of a step of the largest."""
        return self.runs[2].time / max(self.runs[2].steps, 1)

    @property
    def step_memory(self):
        """The memory of a step of the largest."""
        return self.runs[2].memory / max(self.runs[2].steps, 1)

    @property
    def fault(self):
        """What is wrong with the runs, or no word."""
        said = next((ran.failed for ran in self.runs if ran.failed), "")
        if not said and self.growth > GROWTH_MOST and self.runs[2].time > SECONDS_LEAST:
            said = "   grows faster than its work"
        return said or ("   takes more than its bound" if self.share > 1 else "")


def made(written, said):
    """What a run made, by its text, or the steps alone where its journal was full."""
    said.seek(0)
    full = FULL.search(said.read())
    if full:
        return Made(int(full[1]), 0, 0, 0)
    written.seek(0)
    steps = effects = data = 0
    for line in written:
        if line.startswith(b"journal "):
            break
    for line in written:
        if line.startswith(b"+ "):
            effects += 1
        elif STEP.match(line):
            steps += 1
        data += sum(int(size) for size in DIGESTED.findall(line))
    return Made(steps, effects, data, written.seek(0, 2))


def bound_of(given, came):
    """What a run may take by docs/use/limits.md, with 256 packets in flight for each verdict R."""
    given.seek(0)
    size = commands = packets = 0
    times = 1
    for line in given:
        size += len(line)
        words = line.split()
        if words[0] == b"plan":
            packets += 256 * words.count(b"R")
        elif words[0] == b"repeat":
            times = int(words[1])
        elif words[0] == b"end":
            times = 1
        elif words[0] not in DECLARED:
            commands += times
    return (4_000_000 + 8 * size + 150 * commands + 800 * came.steps + 400 * came.effects
            + 3 * came.data + came.text + 100 * packets)


def write_script(given, shape, size, seed):
    """Writes a script in a process of its own, so that this one stays small."""
    child = os.fork()
    if child == 0:
        given.write(text_of(shape(size, random.Random(seed))))
        given.flush()
        os._exit(0)
    os.waitpid(child, 0)


def counted(program, given, said):
    """How many millions of instructions a run takes."""
    place = said.seek(0, 2)
    timed.once([*COUNT, program, "serial"], given, said=said, seconds=SECONDS)
    said.seek(place)
    return int(COUNTED.search(said.read())[1].replace(b",", b"")) / 1e6


def measured(program, entry, size, given):
    """What the runs of a shape's script come to, of the first of which the text is read."""
    _, shape, seed, _ = entry
    command = [program, "serial"]
    with tempfile.TemporaryFile() as script, tempfile.TemporaryFile() as written, \
            tempfile.TemporaryFile() as said:
        write_script(script, shape, size, seed)
        took = [timed.once(command, script, written, said, SECONDS)]
        came = made(written, said)
        took += [timed.once(command, script, said=said, seconds=SECONDS)
                 for _ in range(given.runs - 1)]
        bound = bound_of(script, came)
        time = (counted(program, script, said) if given.counted
                else min(ran.processor for ran in took))
    failed = timed.failure([ran for ran in took if ran.status != FULL_STATUS], SECONDS)
    return Ran(came.steps, time, 1024 * max(ran.kilobytes for ran in took), bound, failed)


def entries(given):
    """The names, shapes, seeds and sizes that are to be run."""
    found = []
    for seed in range(1, given.seeds + 1):
        for name, (shape, start) in shape_scripts.SHAPES.items():
            found.append((name, shape, seed, start))
    for seed in range(1, given.random + 1):
        found.append(("A random script", again_and_again(seed), seed, 100))
    return [entry for entry in found if given.only in entry[0]]


def again_and_again(seed):
    """The shape of a random script."""
    return lambda size, _chance: shape_scripts.again_and_again(seed, size)


def measure(program, entry, given):
    """The line of a shape."""
    name, _, seed, start = entry
    size = max(round(start * given.size), 1)
    ran = [measured(program, entry, times * size, given) for times in (1, 2, 4)]
    return Line(f"{name} ({seed})", size, tuple(ran))


def show(line):
    """Prints a line."""
    times = " ".join(f"{ran.time:7.{0 if ran.time > 100 else 3}f}" for ran in line.runs)
    memory = " ".join(f"{ran.memory / 1e6:5.0f}" for ran in line.runs)
    print(f"{line.name[:90]:90} {line.size:6} {times} {line.growth:5.2f} {memory} "
          f"{line.share:5.2f} {line.runs[2].steps:7} {1e6 * line.step_time:8.2f} "
          f"{line.step_memory:6.0f}{line.fault}", flush=True)


def show_all(lines):
    """Prints the lines by growth, and which take most for a step."""
    print(f"\n{'by growth':90} {'n':>6} {'time: n':>7} {'2n':>7} {'4n':>7} {'times':>5} "
          f"{'MB: n':>5} {'2n':>5} {'4n':>5} {'share':>5} {'steps':>7} {'a step':>8} {'bytes':>6}")
    for line in sorted(lines, key=lambda line: -line.growth):
        show(line)
    for title, key in (("most time for a step", "step_time"),
                       ("most memory for a step", "step_memory"),
                       ("most of the bound of memory", "share")):
        print(f"\n{title}")
        for line in sorted(lines, key=lambda line: -getattr(line, key))[:8]:
            show(line)


def main():
    """Measures all shapes, or writes the script of one."""
    parser = arguments.parser(__doc__)
    parser.add_argument("--seeds", type=arguments.count, default=1, help="so many of each shape")
    parser.add_argument("--random", type=int, default=0, help="so many random scripts")
    parser.add_argument("--only", default="", metavar="WORD", help="those with this in their name")
    parser.add_argument("--size", type=float, default=1, help="so many times the sizes")
    parser.add_argument("--counted", action="store_true", help="count instructions")
    parser.add_argument("--write", nargs=3, metavar=("NAME", "SIZE", "SEED"))
    parser.add_argument("runs", type=arguments.count, nargs="?", default=3)
    arguments.add_program(parser)
    given = parser.parse_args()
    if given.write:
        name, size, seed = given.write
        write_script(sys.stdout.buffer, shape_scripts.SHAPES[name][0], int(size), int(seed))
        return 0
    program = arguments.found_program(parser, given)
    lines = []
    for entry in entries(given):
        lines.append(measure(program, entry, given))
        show(lines[-1])
    show_all(lines)
    return 1 if any(line.fault for line in lines) else 0


if __name__ == "__main__":
    sys.exit(main())
