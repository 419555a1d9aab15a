#!/usr/bin/env python3
"""Writes crates/rows_program/data/charts.rows, by which the program draws the examples as bench/charts.py does.

Run it after each change of an example or of a drawing, and look at the pictures:

    bench/try chart_rows > crates/rows_program/data/charts.rows
    bench/try chart_rows FOLDER         each picture as a file of this folder, to be looked at
"""
import pathlib
import sys

sys.dont_write_bytecode = True

import charts
import maps

EXAMPLES = pathlib.Path(__file__).resolve().parent.parent / "examples"
HEAD = """\
# The charts of the texts in `examples/`, and other views of some of them, as bench/charts.py draws them.
# `bench/chart_rows.py` writes this file.
"""
# the words behind `chart` for an example, and whether its script stands before its text
VIEWS = [
    ("losses", "fold", False),
    ("losses", "plain fold steps 20 90", False),
    ("losses", "map", False),
    ("losses", "", True),
    ("hunts", "of A2 steps 10 60", False),
    ("restarted_node", "of A1,P1 fold", True),
    ("settle", "map", True),
]


def spelled(text):
    """The lines of a text, set in and spelled as a file of rows wants them."""
    assert text.endswith("\n") and "\n\n" not in text
    return "".join("  " + line.replace("\\", "\\x5c").replace("{", "\\x7b") + "\n" for line in text.splitlines())


def given(name, with_script):
    """The text of an example, behind its script or alone."""
    text = (EXAMPLES / f"{name}.txt").read_text()
    return (EXAMPLES / f"{name}.linx").read_text() + "text\n" + text if with_script else text


def picture(text, words):
    """The picture that the words behind `chart` ask for."""
    return maps.Map(charts.Run(text)).whole() if words == "map" else charts.drawing(text, words.split()).whole()


def views():
    """The chart of each example, and then the other views: a name, the words, and whether the script is known."""
    yield from ((path.stem, "", False) for path in sorted(EXAMPLES.glob("*.txt")))
    yield from VIEWS


def row(name, words, with_script):
    """A row: the text is drawn."""
    text = given(name, with_script)
    title = f"{name}{', behind its script' if with_script else ''}"
    block = "".join(f"  {line}\n" for line in text.splitlines() if line)
    return f"\nrow {title}\nwords {' '.join(['chart', *words.split()])}\ninput\n{block}text\n{spelled(picture(text, words))}"


def main(words):
    """Writes the rows, or the pictures."""
    if not words:
        sys.stdout.write(HEAD + "".join(row(*view) for view in views()))
        return
    folder = pathlib.Path(words[0])
    for name, words, with_script in views():
        file = "-".join([name, *words.split(), *["named"] * with_script])
        (folder / f"{file}.svg").write_text(picture(given(name, with_script), words))


if __name__ == "__main__":
    main(sys.argv[1:])
