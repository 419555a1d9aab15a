#!/usr/bin/env python3
"""Looks at the races of examples/races under a thousand orders each.

`linx_sim seeds 1 1000` must find as many outcomes as the head of each script says. Each `find` that
the head shows must find a run, and the line that it writes must stand in the text of that run under
`seed`. It says how many scripts were as they say, and the first that wasn't.

    bench/try races [PROGRAM]
"""
import pathlib
import re
import sys

sys.dont_write_bytecode = True

import arguments
import judge

TOP = pathlib.Path(__file__).resolve().parent.parent
OUTCOMES = re.compile(r"`seeds 1 1000` of it: (\d+) outcomes")
FOUND = re.compile(r"`find 1 1000 in (\S+) ([^`]+)`")
SECONDS = 60


def head_of(path):
    """The comment at the head of a script, in one line."""
    lines = path.read_text().splitlines()
    return " ".join(line[1:].strip() for line in lines[:lines.index("node n")] if line)


def wrong(program, path):
    """What a script's head says that isn't so, or None."""
    head = head_of(path)
    status, said, report = judge.ended([program, "seeds", "1", "1000", str(path)], b"", SECONDS)
    wanted = b"\noutcomes %s\n" % OUTCOMES.search(head).group(1).encode()
    if status != 0 or wanted not in report:
        return f"another report: {status} {said!r} {report[:60]!r}"
    for name, words in FOUND.findall(head):
        command = [program, "find", "1", "1000", "in", str(TOP / name), *words.split()]
        status, said, found = judge.ended(command, b"", SECONDS)
        if status != 0:
            return f"`find {words}` ended with {status}: {said!r}"
        seed, line = found.decode().splitlines()
        text = judge.ended([program, *seed.split(), str(path)], b"", SECONDS)[2]
        if f"\n{line}\n" not in f"\n{text.decode()}":
            return f"{seed} doesn't have its line: {line}"
    return None


def main():
    """Looks at each of them."""
    parser = arguments.parser(__doc__)
    arguments.add_program(parser)
    program = arguments.found_program(parser, parser.parse_args())
    paths = sorted((TOP / "examples/races").glob("*.linx"))
    faults = [f"{path.name}: {fault}" for path in paths
              if (fault := wrong(program, path)) is not None]
    print(f"{len(paths) - len(faults)} of {len(paths)} are as they say")
    if faults:
        print(f"first that isn't: {faults[0]}")
    return min(len(faults), 1)


if __name__ == "__main__":
    sys.exit(main())
