#!/usr/bin/env python3
"""Runs scripts in threads and in the orders of numbers, and again with their turns in `order` lines.

Each script of examples/, and the random scripts of the seeds 1 to COUNT, are run once by `linx_sim
run` and three times by `linx_sim seed S`. What `linx_sim order` writes of a text must list the
makers of its turns, as docs/use/orders.md has them; behind the script, these lines make `linx_sim
serial` write that text again, byte by byte. It says how many did, and the first that didn't.

    bench/try replays [COUNT [PROGRAM]]         COUNT is 100 if unsaid
"""
import re
import sys

sys.dont_write_bytecode = True

import arguments
import judge
from seeds import scripts

SECONDS = 60
STEP = re.compile(rb"[0-9]+ ([AP][0-9]+) ([a-z-]+)")


def makers_of_turns(text):
    """The maker of each turn of a printed run: the packets and ticks with which an actor settles a
    link are of the turn that it began."""
    journal = text[text.index(b"journal "):].split(b"\n")[1:]
    for step in filter(None, map(STEP.match, journal)):
        maker, head = step.groups()
        if maker.startswith(b"P") or head not in (b"wire", b"tick"):
            yield maker


def listed_makers(lines):
    """The maker of each turn that lines `order` list."""
    for line in lines.splitlines():
        for word in line.split()[1:]:
            maker, _, times = word.partition(b"*")
            yield from [maker] * int(times or 1)


def wrong(program, words, script):
    """What is wrong with the run of a script under these words and its run again, or None; where
    there is no text, there is none to make again."""
    status, said, text = judge.ended([program, *words], script, SECONDS)
    if status == 5:
        return None
    if status != 0:
        return f"ended with {status}: {said!r}"
    status, said, lines = judge.ended([program, "order"], text, SECONDS)
    if status != 0:
        return f"its order ended with {status}: {said!r}"
    if list(listed_makers(lines)) != (list(makers_of_turns(text)) if text else []):
        return f"its order is another: {lines!r}"
    listed = script.rstrip(b"\n") + b"\n" + lines
    return judge.difference(judge.ended([program, "serial"], listed, SECONDS), (0, b"", text))


def main():
    """Runs all of them, and each again."""
    parser = arguments.parser(__doc__)
    parser.add_argument("count", type=arguments.count, nargs="?", default=100)
    arguments.add_program(parser)
    given = parser.parse_args()
    program = arguments.found_program(parser, given)
    alike, faults = 0, []
    for place, (name, script) in enumerate(scripts(given.count)):
        orders = [["run"]] + [["seed", str(seed)] for seed in range(3 * place, 3 * place + 3)]
        for words in orders:
            fault = wrong(program, words, script)
            alike += fault is None
            if fault is not None:
                faults.append(f"{name} under {' '.join(words)}: {fault}")
    print(f"{alike} of {alike + len(faults)} came again")
    if faults:
        print(f"first that didn't: {faults[0]}")
    return min(len(faults), 1)


if __name__ == "__main__":
    sys.exit(main())
