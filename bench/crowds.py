#!/usr/bin/env python3
"""Runs the built program on crowded scripts, each of 64 actors on 16 nodes with 32 links that lose.

Goes on with the next seeds, as many side by side as there are processors, until the runs have taken
so many processor seconds together, or one was wrong: in the fixed order, or with --threads with a
thread for each actor and each link. Each must end within a minute. One that is done has a log and,
in order, as many steps as its journal says; with --model its whole text must be that of
bench/model, which in threads takes the turns in the order of that journal. One may say that its
journal is full only where the model's is in the fixed order, asked for or not. Prints how many runs
were as they should be, how many lines they wrote, and the one that was wrong.

    bench/try crowds [--threads] [--model] [SECONDS [PROGRAM]]       SECONDS is 600 if unsaid
    bench/try crowds --write SEED                        writes the script of a seed
"""
import multiprocessing
import re
import sys
import tempfile

sys.dont_write_bytecode = True

import arguments
import judge
import random_script
import timed

BATCH = 256


class Crowd(random_script.Writer):
    """As many nodes, links and actors as a script may have."""

    def script(self):
        """The whole script."""
        self.nodes = [f"n{number}" for number in range(16)]
        self.lines += [f"node {name}" for name in self.nodes]
        for number in range(32):
            self.write_link(f"l{number}")
        for name, _ in self.links:
            for direction in "><":
                self.write_plan(name, direction)
        for number in range(64):
            link, ends = self.links[number % 32]
            self.actors.append((ends[number // 32], self.pick(*random_script.NAMES)))
        for number in range(64):
            self.write_actor(number)
        return "\n".join(self.lines) + "\n"


def is_whole(text):
    """Whether a text has the steps that it says, in order, and before them a log at least."""
    lines = text.decode("ascii", "replace").split("\n")
    at = next((at for at, line in enumerate(lines) if line.startswith("journal ")), None)
    if at is None or lines[-1] or not re.match(r"log \d+\.1 \S+ n\d+\Z", lines[0]):
        return False
    steps = [line.split(" ")[0] for line in lines[at + 1:-1] if not line.startswith("+ ")]
    return lines[at] == f"journal {len(steps)}" and (
        steps == [str(step) for step in range(1, len(steps) + 1)])


def fault(word, script, end, with_model):
    """What is wrong with how a run under this word ended, or None."""
    if end[:2] == (0, b"") and not is_whole(end[2]):
        return "its text isn't whole"
    if end[:2] == (0, b"") and not with_model:
        return None
    return (judge.wrong_in_threads if word == "run" else judge.wrong_in_order)(script, end)


def run(program, word, script):
    """How the program ended, and the processor seconds that it took."""
    with tempfile.TemporaryFile() as given, tempfile.TemporaryFile() as said, \
            tempfile.TemporaryFile() as written:
        given.write(script)
        took = timed.once([program, word], given, written, said)
        said.seek(0)
        written.seek(0)
        return (took.status, said.read(), written.read()), took.processor


class Crowds:
    """Runs of the program under a word."""

    def __init__(self, program, word, with_model):
        self.program, self.word, self.with_model = program, word, with_model

    def __call__(self, seed):
        """The run of a seed: the time that it took, its lines, and what is wrong with it."""
        script = Crowd(seed).script().encode()
        end, used = run(self.program, self.word, script)
        lines = end[2].count(b"\n") - end[2].count(b"\n+ ")
        return used, lines, fault(self.word, script, end, self.with_model)


def tried(crowds, seconds):
    """Runs them until the time is over or one is wrong: how many, time, lines, what is wrong."""
    seed, taken, lines = 0, 0, 0
    with multiprocessing.Pool() as pool:
        while taken < seconds:
            for used, written, wrong in pool.map(crowds, range(seed + 1, seed + BATCH + 1)):
                seed, taken, lines = seed + 1, taken + used, lines + written
                if wrong:
                    return seed, taken, lines, wrong
    return seed, taken, lines, None


def main():
    """Runs them, or writes one script."""
    parser = arguments.parser(__doc__)
    parser.add_argument("--threads", action="store_true", help="with a thread for each maker")
    parser.add_argument("--model", action="store_true", help="compare the texts, too")
    parser.add_argument("--write", type=int, metavar="SEED", help="only write the script of a seed")
    parser.add_argument("seconds", type=float, nargs="?", default=600)
    arguments.add_program(parser)
    given = parser.parse_args()
    if given.write is not None:
        sys.stdout.write(Crowd(given.write).script())
        return 0
    program = arguments.found_program(parser, given)
    word = "run" if given.threads else "serial"
    count, taken, lines, wrong = tried(Crowds(program, word, given.model), given.seconds)
    print(f"{count - bool(wrong)} of {count} crowded runs as they should be, {lines} lines of logs "
          f"and steps, {taken:.0f} s")
    if wrong:
        print(f"wrong: seed {count}: {wrong}")
    return 1 if wrong else 0


if __name__ == "__main__":
    sys.exit(main())
