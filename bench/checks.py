#!/usr/bin/env python3
"""Compares `linx_sim check` and the laws of bench/model/laws.py on legal texts and on spoiled ones.

The legal ones are the texts of examples/ and examples/races, in threads, in the fixed order and in
those of some numbers, and of random scripts. Each must be legal by both. Then COUNT texts of runs
without links, and as many of runs over links, are spoiled in each of the kinds of
spoiled_steps.py, spoiled_calls.py, spoiled_links.py and spoiled_lines.py. Both must say the same of them: legal, or the first step that isn't with the first law that it
breaks, or the first bad line, or the first line of the logs that their steps don't tell. A spoiled
text may be legal still where its kind has a sentence that says why. Then `linx_sim replay` must
call it no run of its script, unless it is the text of another one, by bench/model in the order of
its turns. Prints what came of each kind, and the first that wasn't so.

    bench/try checks [COUNT [RUNS [PROGRAM]]]       20 of each kind and 1,000 runs if unsaid
"""
import collections
import pathlib
import random
import re
import sys

sys.dont_write_bytecode = True

import arguments
import judge
import laws
import random_script
from lines import first_bad_line
from script import parse
import spoiled_links  # pylint: disable=unused-import
from spoiled_lines import LINE_KINDS, SCRIPT_KINDS
from spoiled_steps import KINDS, Run
from texts import steps_of

TOP = pathlib.Path(__file__).resolve().parent.parent
SECONDS = 60
POOL_STEPS = 400
SAID = {
    "unread": "text line {}: no line of a printed text",
    "log": "text line {}: the steps tell another log",
    "full": "text line {}: more signals than a journal holds",
}
NO_TEXT = 8, b"linx_sim: no line `text` behind the script\n", b""
INPUTS = [
    (b"", NO_TEXT),
    (b"node n\n", NO_TEXT),
    (b"node n\ntext", NO_TEXT),
    (b"node n\ntext\r\n", NO_TEXT),
    (b"node n\n text\n", NO_TEXT),
    (b"node n\nnode n\n", NO_TEXT),
    (b"text\n", (0, b"", b"legal 0\n")),
    (b"# text\ntext\n", (0, b"", b"legal 0\n")),
    (b"node n\ntext\ntext\n", (8, b"linx_sim: text line 2: no line of a printed text\n", b"")),
    (b"node n\nnode n\ntext\n",
     (2, b"linx_sim: script line 2: this name stands twice: n\n", b"")),
]
CROWD = """node n
node m
{}actor last n
  open s
  recv 1
  recv 1
  close
  open s
  recv 1
  restart n
end
actor other m
  open s
  hunt s 9 hex:0102
  recv any
  attach last r
  close
end
"""
ASKER = """actor p{0} n
  open p{0}
  hunt s
  recv 251
  keep s
  attach s r 300 fill:{1}:5a
  attach s t
  hunt nobody 7
  send s 1 fill:{1}:0{0}
  recv 300
  detach t
  detach r
  attach s r
  hunt s
end
"""


# Legal texts.

def scripts(linked):
    """The scripts of examples/ with links or without, and one of many that hunt and attach."""
    for path in sorted([*TOP.glob("examples/*.linx"), *TOP.glob("examples/races/*.linx")]):
        script = path.read_text()
        if bool(re.search("^ *link ", script, re.M)) == linked:
            yield path.name, script
    if not linked:
        yield "a crowd", CROWD.format("".join(ASKER.format(k, 30 + k) for k in (1, 2, 3)))


def texts_of(program, script, orders):
    """The texts of a script under these words."""
    for words in orders:
        status, _, text = judge.ended([program, *words], script.encode(), SECONDS)
        if status == 0:
            yield text.decode()


def legal_runs(program, count, linked=False):
    """Each legal run, over links or without, with its name: examples in many orders, and random
    scripts in threads and, some of them, in the orders of numbers."""
    orders = [["run"], ["serial"], *(["seed", str(seed)] for seed in range(20))]
    for name, script in scripts(linked):
        for text in texts_of(program, script, orders):
            yield name, script, text
    for seed in range(1, count + 1):
        script = random_script.Writer(seed, alone=not linked).script()
        orders = [["run"]] + [["serial"], ["seed", str(seed)]] * (seed <= count // 10)
        for text in texts_of(program, script, orders):
            yield f"seed {seed}", script, text


def pooled(runs):
    """Those of the runs that are spoiled: they have steps, and not too many."""
    for _, script, text in runs:
        steps = steps_of(text)
        if 0 < len(steps) <= POOL_STEPS:
            yield Run(script, laws.shape_of(parse(script)), steps, text)


# What is said of a text behind a script.

def behind(script, text):
    """The input of a check."""
    return script.encode("latin-1") + b"text\n" + text.encode("latin-1")


def said(line):
    """A line on standard error."""
    return f"linx_sim: {line}\n".encode()


def wanted(script, text):
    """How a check of a text behind a script must end."""
    bad = first_bad_line(script.encode("latin-1"))
    if bad is not None:
        return 2, re.compile(rb"linx_sim: script line %d: " % bad + judge.REASON + rb"\n"), b""
    verdict = laws.verdict(laws.shape_of(parse(script)), text)
    if verdict.kind == "legal":
        return 0, b"", b"legal %d\n" % verdict.at
    if verdict.kind == "illegal":
        rule = laws.RULES[verdict.law]
        here = f"; here the earliest is {verdict.earliest}" if verdict.earliest else ""
        return 7, said(f"step {verdict.at} breaks the law {verdict.law}: {rule}{here}"), b""
    return 8, said(SAID[verdict.kind].format(verdict.at)), b""


def replayed(program, run, script, text):
    """What `replay` says of a text that is legal still, and whether that may be."""
    status, _, _ = judge.ended([program, "replay"], behind(script, text), SECONDS)
    if status != 0:
        return ("another" if status == 7 else "unread"), status in (7, 8)
    if text == run.text:
        return "the run's own", True
    model = judge.model_of(script.encode("latin-1"))
    return "of another order", model.replay(judge.makers_of(text)) == text


class Tally:
    """What came of the spoiled texts of a kind."""

    def __init__(self, kind):
        self.kind = kind
        self.judged, self.legal = 0, 0
        self.statuses, self.replays = collections.Counter(), collections.Counter()

    def line(self):
        """The kind in a line."""
        ends = ", ".join(f"{count} {end}" for end, count in sorted(self.statuses.items()))
        line = f"{self.kind.name}: {self.judged} judged: {ends or 'nothing to spoil so'}"
        if self.legal:
            told = ", ".join(f"{count} {what}" for what, count in sorted(self.replays.items()))
            line += f"; {self.legal} legal still, since {self.kind.why}; replay: {told}"
        return line


def name_of(end):
    """A short name of how a check ended."""
    status, errors, _ = end
    law = re.search(rb"breaks the law (\w+)", errors)
    if law:
        return law[1].decode()
    kinds = {b"no line": "unread", b"another log": "log", b"more signals": "full",
             b"script line": "no script"}
    return next((name for words, name in kinds.items() if words in errors),
                "legal" if status == 0 else str(status))


def fault_of(program, tally, run, script, text):
    """Judges a spoiled text; what is wrong with what is said of it, or None."""
    end = judge.ended([program, "check"], behind(script, text), SECONDS)
    tally.judged += 1
    tally.statuses[name_of(end)] += 1
    right = wanted(script, text)
    fault = judge.difference(end, right)
    if fault or end[0] != 0:
        return fault
    tally.legal += 1
    what, may_be = replayed(program, run, script, text)
    tally.replays[what] += 1
    if tally.kind.why is None:
        return "is legal, and its kind has no reason for that"
    return None if may_be else f"passes, and `replay` finds it {what}"


def spoiled(kind, chance, run):
    """The script and the text that a kind makes of a run, or None."""
    new = kind.spoil(chance, run)
    if new is None:
        return None
    if kind in KINDS:
        new = run.script, laws.text_of(run.shape.nodes, new)
    elif kind in LINE_KINDS:
        new = run.script, new
    return None if new == (run.script, run.text) else new


def tried(program, kind, pool, count):
    """Judges so many texts of a kind; what came of them, and what was wrong."""
    tally, faults = Tally(kind), []
    chance = random.Random(kind.name)
    for _ in range(20 * count):
        if tally.judged == count:
            break
        run = chance.choice(pool)
        case = spoiled(kind, chance, run)
        fault = case and fault_of(program, tally, run, *case)
        if fault:
            faults.append(f"{kind.name}: {fault}:\n{case[0]}text\n{case[1]}")
    return tally, faults


def judged_legal(program, runs):
    """What is wrong with what is said of legal runs."""
    for name, script, text in runs:
        end = judge.ended([program, "check"], behind(script, text), SECONDS)
        legal = 0, b"", b"legal %d\n" % len(steps_of(text))
        fault = judge.difference(end, legal)
        if fault:
            yield f"{name}: {fault}:\n{script}text\n{text}"
        elif wanted(script, text) != legal:
            yield f"{name}: is {wanted(script, text)} by the laws:\n{script}text\n{text}"


def overfull():
    """Texts that tell as many signals as are read, and more, with their script."""
    for count in (4095, 4096, 4097):
        effects = f"+ arrived 1.1 1.1 5 65532:{'ab' * 32}\n" * count
        yield "node n\nactor a n\nend\n", "journal 1\n1 A1 ended\n" + effects


def judged_rows(program):
    """What is wrong with what is said of texts with too many signals, and of INPUTS."""
    for script, text in overfull():
        end = judge.ended([program, "check"], behind(script, text), SECONDS)
        yield judge.difference(end, wanted(script, text))
    for given, end in INPUTS:
        yield judge.difference(judge.ended([program, "check"], given, SECONDS), end)


def main():
    """Judges all of them."""
    parser = arguments.parser(__doc__)
    parser.add_argument("count", type=arguments.count, nargs="?", default=20)
    parser.add_argument("runs", type=arguments.count, nargs="?", default=1000)
    arguments.add_program(parser)
    given = parser.parse_args()
    program = arguments.found_program(parser, given)
    faults, pools, tallies = [], [], []
    for linked in (False, True):
        runs = list(legal_runs(program, given.runs, linked))
        wrong = list(judged_legal(program, runs))
        print(f"{len(runs) - len(wrong)} of {len(runs)} runs "
              f"{'over' if linked else 'without'} links are legal by both", flush=True)
        faults += wrong
        pools.append(list(pooled(runs)))
    faults += filter(None, judged_rows(program))
    for pool, where in zip(pools, ("without", "over")):
        print(f"of runs {where} links:")
        for kind in [*KINDS, *LINE_KINDS, *SCRIPT_KINDS]:
            tally, wrong = tried(program, kind, pool, given.count)
            tallies.append(tally)
            faults += wrong
            print(tally.line(), flush=True)
    print(f"{sum(tally.judged for tally in tallies)} spoiled texts of {len(tallies) // 2} kinds, "
          f"{sum(tally.legal for tally in tallies)} legal still; {len(faults)} faults")
    if faults:
        print(f"first fault: {faults[0]}")
    return min(len(faults), 1)


if __name__ == "__main__":
    sys.exit(main())
