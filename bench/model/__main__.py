"""Reads a script on standard input, and writes the text that `linx_sim serial` writes for it, or
`linx_sim seed S` where a number is given.

A plain interpreter of the scripts of docs/use/script.md, beside which bench/beside_model.sh runs
the program. It is made for reading: no rule here is taken from the program's code. The script must
be a good one; one that fills a journal is refused with exit status 2.

    bench/try model [S] < SCRIPT
"""
import sys

sys.dont_write_bytecode = True

import orders
from runs import Run
from script import parse
from values import Refused


def main(words):
    """The text of the script on standard input, or why there is none."""
    try:
        run = Run(parse(sys.stdin.read()))
        text = orders.play(run, int(words[0])) if words else orders.play_fixed(run)
    except Refused as reason:
        print(f"model: {reason}", file=sys.stderr)
        return 2
    sys.stdout.write(text)
    return 0


sys.exit(main(sys.argv[1:]))
