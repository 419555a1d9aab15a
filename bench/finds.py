#!/usr/bin/env python3
"""Compares `linx_sim find` and `seeds` with a run under `linx_sim seed S` for each number.

Each script of examples/, and the random scripts of the seeds 1 to COUNT, are searched for some
lines, and for runs without them, over the numbers 1 to 40, and what comes of them is reported. What
`find` and `seeds` write, their line on standard error and their exit status must be those of the
slow search, and of the report that is reckoned from the texts of the runs one by one. The searches
take one processor, two, and so on by turns, and the report takes each of these numbers. It says how
many were, and the first that weren't.

    bench/try finds [COUNT [PROGRAM]]           COUNT is 100 if unsaid
"""
import itertools
import os
import sys

sys.dont_write_bytecode = True

import arguments
import judge
import outcomes
from seeds import scripts

LAST = 40
SECONDS = 60
SOUGHT = ["notified _ _ _ dead", "notified _ _ _ lost", "took _ 5", "none", "down", "refused",
          "closed", "sent _ _ _ dead", "tick", "_ _ _ _ _ _ _ _"]


def said(line):
    """What a line says, by its words."""
    words = line.split()
    if words[:1] == ["+"]:
        return words[1:]
    return words[2:] if words and words[0].isdigit() else words


def found_in(text, wanted):
    """The first line of a text that begins with the wanted words, or None."""
    for line in text.decode().splitlines():
        words = said(line)
        if len(words) >= len(wanted) and all(w in ("_", v) for w, v in zip(wanted, words)):
            return line
    return None


def slowly(runs, wanted, without):
    """How a search must end, by the ends of the runs of the numbers from 1 on."""
    for seed, (status, errors, text) in enumerate(runs, 1):
        if status != 0:
            return status, errors, b""
        line = found_in(text, wanted)
        if without and line is None:
            return 0, b"", b"seed %d\n" % seed
        if not without and line is not None:
            return 0, b"", b"seed %d\n%s\n" % (seed, line.encode())
    return 7, b"linx_sim: found in none\n", b""


def reported(script, runs):
    """How the report of the runs of the numbers from 1 on must end."""
    for status, errors, _ in runs:
        if status not in (0, 5):
            return status, errors, b""
    return 0, b"", outcomes.report(script, [(status, text) for status, _, text in runs])


def on_processors(count):
    """What leaves a process so many of the processors."""
    left = sorted(os.sched_getaffinity(0))[:count]
    return lambda: os.sched_setaffinity(0, left)


def searches(program, script):
    """Each search of a script, and its report, with what is wrong with it, or None."""
    runs = [judge.ended([program, "seed", str(seed)], script, SECONDS)
            for seed in range(1, LAST + 1)]
    counts = itertools.cycle(range(1, len(os.sched_getaffinity(0)) + 1))
    for sought in SOUGHT:
        for without in (False, True):
            words = ["not"] * without + sought.split()
            count = next(counts)
            end = judge.ended([program, "find", "1", str(LAST), *words], script, SECONDS,
                              preexec_fn=on_processors(count))
            yield (f"{' '.join(words)} on {count} processors",
                   judge.difference(end, slowly(runs, sought.split(), without)))
    told = reported(script, runs)
    for count in range(1, len(os.sched_getaffinity(0)) + 1):
        end = judge.ended([program, "seeds", "1", str(LAST)], script, SECONDS,
                          preexec_fn=on_processors(count))
        yield f"seeds on {count} processors", judge.difference(end, told)


def main():
    """Compares all of them."""
    parser = arguments.parser(__doc__)
    parser.add_argument("count", type=arguments.count, nargs="?", default=100)
    arguments.add_program(parser)
    given = parser.parse_args()
    program = arguments.found_program(parser, given)
    alike, faults = 0, []
    for name, script in scripts(given.count):
        for words, fault in searches(program, script):
            alike += fault is None
            if fault is not None:
                faults.append(f"{name}, {words}: {fault}")
    print(f"{alike} of {alike + len(faults)} alike")
    if faults:
        print(f"first that differs: {faults[0]}")
    return min(len(faults), 1)


if __name__ == "__main__":
    sys.exit(main())
