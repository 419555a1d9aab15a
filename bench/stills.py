#!/usr/bin/env python3
"""How long `linx_sim check` takes for texts in which many receives find none beside links.

Each line is a script, run under `serial`, whose text is then checked: how many steps it has, and
how many of them find none; the least processor seconds of some checks of it, with the whole work
and with half of it, how many times as long the whole takes; and the most memory beside the bytes of
the text. Time that grows with the text alone makes that about 2. Memory below that of Python, some
20 MB, is told as that. One that isn't legal is said, and the exit status is 1.

    bench/try stills [RUNS [PROGRAM]]       RUNS is 3 if unsaid
"""
import sys

sys.dont_write_bytecode = True

import arguments
import judge
import timed
from speeds import actor, load, queues, repeat


def asking(name, node, paths, *lines):
    """An actor that finds each of these paths, keeps what it found as its number, and goes on."""
    finds = [line for place, path in enumerate(paths)
             for line in (f"hunt {path}", "recv 251", f"keep p{place}")]
    return actor(name, node, f"open {name}", *finds, *lines)


def server(name, node, times):
    """An actor that takes so many signals of number 5, and waits for another one."""
    takes = repeat(times, "recv 5") if times else []
    return actor(name, node, f"open {name}", *takes, "recv 6")


def pings(times):
    """One sends over a link, and finds none behind each signal."""
    return ["node n", "node m", "link l n m",
            *asking("a", "n", ["l/b"], *repeat(times, "send p0 5", "recv 9")),
            *server("b", "m", times)]


def flows(times):
    """32 over a link from 32, each to each, and then one sends and finds none."""
    lines = ["node n", "node m", "link l n m"]
    for k in range(32):
        again = repeat(times, "send p0 5", "recv 9") if k == 0 else ["recv 9"]
        lines += asking(f"a{k}", "n", [f"l/b{j}" for j in range(32)],
                        *(f"send p{j} 5" for j in range(32)), *again)
    for k in range(32):
        lines += server(f"b{k}", "m", 32 + times * (k == 0))
    return lines


def star():
    """15 nodes with 32 links to a node between them, and the two ends of each."""
    lines = ["node n", *(f"node m{k}" for k in range(15))]
    return [*lines, *(f"link l{k} n m{k % 15}" for k in range(32))]


def sends(times):
    """32 links from one node, with one who sends at this end of each, and finds none behind each
    signal, and one at the other."""
    lines = star()
    for k in range(32):
        again = repeat(times // 32, "send p0 5", "recv 9")
        lines += asking(f"a{k}", "n", [f"l{k}/b{k}"], *again)
    for k in range(32):
        lines += server(f"b{k}", f"m{k % 15}", times // 32)
    return lines


def waits(times):
    """The same, but nothing is sent."""
    lines = star()
    for k in range(32):
        lines += asking(f"a{k}", "n", [f"l{k}/b{k}"], *repeat(times // 32, "recv 9"))
    for k in range(32):
        lines += server(f"b{k}", f"m{k % 15}", 0)
    return lines


def opens(times):
    """32 links from one node, on which one opens and closes, and finds none between."""
    lines = star() + actor("a", "n", *repeat(times, "open a", "recv 9", "close"))
    for k in range(63):
        lines += server(f"b{k}", f"m{k % 15}", 0)
    return lines


def hunts(times):
    """One hunts over a link for what nobody opens, and finds none behind each hunt."""
    return ["node n", "node m", "link l n m",
            *actor("a", "n", "open a", *repeat(times, "hunt l/nobody", "recv 9")),
            *server("b", "m", 0)]


ROWS = [("pings", pings, 9000), ("flows", flows, 9000), ("sends", sends, 24000),
        ("waits", waits, 120000), ("opens", opens, 6000), ("hunts", hunts, 4000),
        ("load", load, 100), ("queues", queues, 10)]


def text_of(program, lines):
    """The script of these lines, the line `text`, and the text of its run."""
    script = "".join(line + "\n" for line in lines).encode()
    status, said, text = judge.ended([program, "serial"], script, timed.SECONDS)
    return (script + b"text\n" + text) if status == 0 else said


def row_of(program, name, given, runs):
    """The steps of a text, those that find none, and what some checks of it took."""
    checks = timed.several([program, "check"], given, runs)
    steps = given[given.find(b"\njournal ") + 1:]
    nones = sum(line.split(b" ")[2:3] == [b"none"] for line in steps.split(b"\n"))
    count = int(steps.split(b"\n")[0].split(b" ")[-1]) if steps else 0
    failed = timed.failure(checks)
    return count, nones, min(ran.processor for ran in checks), max(
        ran.kilobytes for ran in checks), failed


def main():
    """Measures each."""
    parser = arguments.parser(__doc__)
    parser.add_argument("runs", type=arguments.count, nargs="?", default=3)
    arguments.add_program(parser)
    given = parser.parse_args()
    program = arguments.found_program(parser, given)
    failed = 0
    for name, script, times in ROWS:
        half = row_of(program, name, text_of(program, script(times // 2)), given.runs)
        text = text_of(program, script(times))
        count, nones, seconds, kilobytes, failure = row_of(program, name, text, given.runs)
        failed |= bool(failure or half[-1])
        print(f"{name}: {count} steps, {nones} find none: {seconds:.3f} s, of half {half[2]:.3f} s, "
              f"{seconds / max(half[2], 0.001):.1f} times; {kilobytes // 1024} MB of "
              f"{len(text) // 2**20} MB of text{failure}", flush=True)
    return int(failed)


if __name__ == "__main__":
    sys.exit(main())
