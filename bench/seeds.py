#!/usr/bin/env python3
"""Runs the built program and the model of bench/model in the orders of numbers, and compares them.

Each script of examples/, and the random scripts of the seeds 1 to COUNT, are run under `linx_sim
seed S` with three numbers each, one of each rule. The text must be that of bench/model, byte by
byte, and the same a second time. It says how many were, and the first that wasn't.

    bench/try seeds [COUNT [PROGRAM]]           COUNT is 100 if unsaid
"""
import pathlib
import subprocess
import sys

sys.dont_write_bytecode = True

import arguments
import judge
import orders

TOP = pathlib.Path(__file__).resolve().parent.parent
SECONDS = 60


def wanted(script, seed):
    """How the run in the order of a number must end."""
    try:
        return 0, b"", orders.play(judge.model_of(script), seed).encode()
    except judge.Full as full:
        return 5, b"linx_sim: %s\n" % str(full).encode(), b""


def wrong(program, script, seed):
    """What is wrong with the program's runs in the order of a number, or None."""
    command = [program, "seed", str(seed)]
    ends = [judge.ended(command, script, SECONDS) for _ in range(2)]
    if ends[0] != ends[1]:
        return "ended in two ways"
    return judge.difference(ends[0], wanted(script, seed))


def scripts(count):
    """Each script, with its name."""
    for path in sorted((TOP / "examples").glob("*.linx")):
        yield path.name, path.read_bytes()
    for seed in range(1, count + 1):
        made = subprocess.run([sys.executable, str(TOP / "bench/random_script.py"), str(seed)],
                              capture_output=True, check=True)
        yield f"seed {seed}", made.stdout


def main():
    """Compares all of them."""
    parser = arguments.parser(__doc__)
    parser.add_argument("count", type=arguments.count, nargs="?", default=100)
    arguments.add_program(parser)
    given = parser.parse_args()
    program = arguments.found_program(parser, given)
    alike, faults = 0, []
    for place, (name, script) in enumerate(scripts(given.count)):
        for seed in range(3 * place, 3 * place + 3):
            fault = wrong(program, script, seed)
            alike += fault is None
            if fault is not None:
                faults.append(f"{name} in the order of {seed}: {fault}")
    print(f"{alike} of {alike + len(faults)} alike")
    if faults:
        print(f"first that differs: {faults[0]}")
    return min(len(faults), 1)


if __name__ == "__main__":
    sys.exit(main())
