#!/usr/bin/env python3
"""Writes crates/rows_program/data/examples.rows, by which the program plays the examples against their texts.

Run it after each change of an example, whose text is that of bench/model:

    bench/try example_rows > crates/rows_program/data/examples.rows
"""
import pathlib
import sys

HEAD = """\
# The scripts of `examples/` with the texts that stand beside them, in the fixed order.
# `bench/example_rows.py` writes this file.
"""


def block(text):
    """The lines of a text that aren't empty, set in."""
    return "".join(f"  {line}\n" for line in text.splitlines() if line)


def main():
    """Writes the file."""
    folder = pathlib.Path(__file__).resolve().parent.parent / "examples"
    out = [HEAD]
    for script in sorted(folder.glob("*.linx")):
        text = script.with_suffix(".txt").read_text()
        out.append(f"\nrow {script.name}\nwords serial\ninput\n{block(script.read_text())}text\n{block(text)}")
    sys.stdout.write("".join(out))


if __name__ == "__main__":
    main()
