#!/usr/bin/env python3
"""Runs the built program on the spoiled scripts of mutated_script.py, at most ten seconds on each.

On a script with a bad line, which is the first one by the rules of docs/use/script.md as
bench/model/lines.py has them, it must name that line and write nothing. On a good one it must be
done, and may say that the journal is full only where that of bench/model is; what is written of a
good script is looked at with --model alone, and must then be what the model writes. Prints how many
runs were as they should be, how many ended with each exit status, and the first one that was wrong:
mutated_script.py writes the script of its seed.

    bench/try mutants [--model] [COUNT [PROGRAM]]       COUNT is 100,000 if unsaid
"""
import collections
import sys

sys.dont_write_bytecode = True

import arguments
import judge
from mutated_script import Mutant

SECONDS = 10


def fault(script, end, with_model):
    """What is wrong with how a run ended, or None."""
    if end[:2] == (0, b"") and not with_model and judge.is_script(script):
        return None
    return judge.wrong_in_order(script, end)


def tried(program, with_model, seeds):
    """How many runs ended with each status, and what was wrong with some."""
    ended, wrongs = collections.Counter(), []
    for seed in seeds:
        script = Mutant(seed).spoiled()
        end = judge.ended([program, "serial"], script, SECONDS)
        ended[end[0]] += 1
        wrong = fault(script, end, with_model)
        if wrong:
            wrongs.append(f"seed {seed}: {wrong}")
    return ended, wrongs


def main():
    """Runs them all."""
    parser = arguments.parser(__doc__)
    parser.add_argument("--model", action="store_true", help="compare what is written, too")
    parser.add_argument("count", type=arguments.count, nargs="?", default=100_000)
    arguments.add_program(parser)
    given = parser.parse_args()
    program = arguments.found_program(parser, given)
    ended, wrongs = tried(program, given.model, range(1, given.count + 1))
    kinds = ", ".join(f"{times} ended with {'no status' if status is None else status}"
                      for status, times in sorted(ended.items(), key=str))
    right = given.count - len(wrongs)
    print(f"{right} of {given.count} spoiled scripts as they should be: {kinds}")
    for wrong in wrongs[:1]:
        print(f"first that is wrong: {wrong}")
    return 1 if wrongs else 0


if __name__ == "__main__":
    sys.exit(main())
