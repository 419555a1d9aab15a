#!/usr/bin/env python3
"""Judges the charts that `linx_sim chart` draws by those of bench/charts.py.

The texts are those of examples/ and its races in the fixed order, and of the random scripts of the
seeds 1 to COUNT, each in the order of its seed. Both must draw the same, byte for byte: of each text
the whole chart, that without lines, a window of its steps, with lines and without, and one behind
its last step; the chart folded, what is of one maker, of two of them folded, and all of that at once;
a chart of more than 6,000 rows must be refused. The pictures of docs/use/pictures must be those that
the program draws. It says how many charts were the same, and the first that wasn't.

    bench/try drawn [COUNT [PROGRAM]]           COUNT is 100 if unsaid
"""
import pathlib
import random
import sys

sys.dont_write_bytecode = True

import arguments
import charts
import judge
from seeds import scripts

BENCH = pathlib.Path(__file__).resolve().parent
TOP = BENCH.parent
PICTURES = TOP / "docs/use/pictures"
ROWS_MOST = 6000
SECONDS = 60
TOO_LARGE = b"linx_sim: more than 6000 rows: map, fold or steps\n"


def journal_of(text):
    """The lines of the journal of a text."""
    return text[text.index(b"journal "):].split(b"\n")[1:-1] if text else []


def views(name, text):
    """The views of a text that are drawn."""
    steps = sum(not line.startswith(b"+") for line in journal_of(text))
    dice = random.Random(name)
    first = dice.randint(1, max(steps, 1))
    window = ["steps", str(first), str(dice.randint(first, max(steps, 1)))]
    makers = sorted({line.split(b" ")[1].decode() for line in journal_of(text) if not line.startswith(b"+")})
    one = ["of", dice.choice(makers or ["A1"])]
    some = ["of", ",".join(dice.sample(makers, min(2, len(makers))) or ["P1"])]
    return [[], ["plain"], window, ["plain", *window], ["steps", str(steps + 1), str(steps + 9)], ["fold"], one,
            ["fold", *some], ["plain", "fold", *window, *some]]


def wrong(program, text, view):
    """What is wrong with a chart of a text, or None."""
    ended = judge.ended([program, "chart", *view], text, SECONDS)
    drawing = charts.drawing(text.decode(), view)
    if len(drawing.seen) > ROWS_MOST:
        return judge.difference(ended, (8, TOO_LARGE, b""))
    return judge.difference(ended, (0, b"", drawing.whole().encode()))


def texts(program, count):
    """The texts, each with a name."""
    races = [(path.name, path.read_bytes()) for path in (TOP / "examples/races").glob("*.linx")]
    for place, (name, script) in enumerate([*sorted(races), *scripts(count)]):
        words = ["serial"] if name.endswith(".linx") else ["seed", str(place)]
        status, _, text = judge.ended([program, *words], script, SECONDS)
        if status == 0 and text:
            yield name, text


def picture(program, name):
    """The picture of docs/use/pictures with this name: of an example's text alone, or, where words of
    `chart` stand behind the example's name, by these words of its script and text."""
    example, *words = name.split(".")
    script = (TOP / "examples" / f"{example}.linx").read_bytes()
    text = judge.ended([program, "serial"], script, SECONDS)[2]
    return judge.ended([program, "chart", *words], script + b"text\n" + text if words else text, SECONDS)[2]


def main():
    """Draws all of them."""
    parser = arguments.parser(__doc__)
    parser.add_argument("count", type=arguments.count, nargs="?", default=100)
    arguments.add_program(parser)
    given = parser.parse_args()
    program = arguments.found_program(parser, given)
    same, faults = 0, []
    for name, text in texts(program, given.count):
        for view in views(name, text):
            fault = wrong(program, text, view)
            same += fault is None
            if fault is not None:
                faults.append(f"{name} {' '.join(view)}: {fault}")
    for path in sorted(PICTURES.glob("*.svg")):
        if picture(program, path.stem) != path.read_bytes():
            faults.append(f"{path.name}: another picture")
    print(f"{same} charts are the same")
    if faults:
        print(f"first that isn't: {faults[0]}")
    return min(len(faults), 1)


if __name__ == "__main__":
    sys.exit(main())
