#!/usr/bin/env python3
"""Runs the built program with a thread for each actor and each link: each worked script many times,
and random scripts once each.

The worked scripts are those of `examples/` and those of the rows of rows_program and of thread_cases.
The makers of the steps in a run's journal are the order in which they took their turns. In this
order bench/model takes the same turns: all must be over behind the last of them, and its text
must be the run's, byte by byte. A run may say that its journal is full only where the model's is in
the fixed order. `check` must find each text legal, and `replay` that it is that of a run of its
script. Each run must end within ten seconds. Prints how many runs of how many scripts were
as they should be, in how many ways they ended, and the first that was wrong.

    bench/try threads [RUNS [SEEDS [PROGRAM]]]       1,000 runs and 2,000 seeds if unsaid
"""
import multiprocessing
import pathlib
import re
import sys

sys.dont_write_bytecode = True

import arguments
import judge
import random_script

TOP = pathlib.Path(__file__).resolve().parent.parent
SECONDS = 10
INPUT = re.compile(r"^input\n((?:  .*\n)+)", re.MULTILINE)
LITERAL = re.compile(r'"(node (?:[^"\\]|\\.)*)"', re.DOTALL)


def scripts_of_tests():
    """The texts in the tests of threads that begin as scripts do."""
    for file in sorted((TOP / "crates/thread_cases/src").glob("*.rt")):
        for literal in LITERAL.findall(file.read_text()):
            script = re.sub(r"\\\n\s*", "", literal).replace("\\n", "\n")
            yield file.stem, re.sub(r"(?m)^ +", "", script).rstrip("\n") + "\n"


def scripts_of_rows():
    """What the rows of rows_program have on standard input, but for what is spelled there."""
    for file in sorted((TOP / "crates/rows_program/data").glob("*.rows")):
        for block in INPUT.findall(file.read_text()):
            if not set(block) & set("{\\*"):
                yield file.stem, block.replace("\n  ", "\n")[2:]


def worked_scripts():
    """The good scripts of the examples and of the tests, each once."""
    scripts = {file.read_text(): file.stem for file in sorted((TOP / "examples").glob("*.linx"))}
    for name, script in [*scripts_of_rows(), *scripts_of_tests()]:
        if judge.is_script(script.encode()):
            scripts.setdefault(script, f"{name}: {script[:60]!r}")
    return [(name, script) for script, name in scripts.items()]


def try_script(job):
    """Runs a script so many times; how many runs were right, how many ends, the first wrong."""
    program, runs, name, script = job
    right, ends, wrong = 0, {}, None
    for _ in range(runs):
        end = judge.ended([program, "run"], script.encode(), SECONDS)
        if end not in ends:
            ends[end] = judge.wrong_in_threads(script.encode(), end) or (
                judge.wrong_when_judged(program, script.encode(), end, SECONDS))
        right += ends[end] is None
        wrong = wrong or ends[end] and f"{name}: {ends[end]}"
    return runs, right, len(ends), wrong


def tell(what, jobs):
    """Does the jobs, and tells what came of them; whether all was right."""
    with multiprocessing.Pool() as pool:
        done = pool.map(try_script, jobs, chunksize=1)
    runs, right, ends = (sum(column) for column in list(zip(*done))[:3])
    print(f"{right} of {runs} runs of {len(jobs)} {what} scripts as they should be, "
          f"{ends} different ends", flush=True)
    wrongs = [wrong for *_, wrong in done if wrong]
    for wrong in wrongs[:1]:
        print(f"first that is wrong: {wrong}")
    return not wrongs


def main():
    """Runs the worked scripts, and then random ones."""
    parser = arguments.parser(__doc__)
    parser.add_argument("runs", type=arguments.count, nargs="?", default=1000)
    parser.add_argument("seeds", type=int, nargs="?", default=2000)
    arguments.add_program(parser)
    given = parser.parse_args()
    program = arguments.found_program(parser, given)
    worked = [(program, given.runs, name, script) for name, script in worked_scripts()]
    random = [(program, 1, f"seed {seed}", random_script.Writer(seed).script())
              for seed in range(1, given.seeds + 1)]
    right = [tell("worked", worked), not random or tell("random", random)]
    return 0 if all(right) else 1


if __name__ == "__main__":
    sys.exit(main())
