"""What scripts are given: flags and numbers, and last of all the program, where they run it."""
import argparse
import os
import pathlib

PROGRAM = pathlib.Path(__file__).resolve().parent.parent / "crates/linx_sim/out/linx_sim"


def count(word):
    """A number of at least 1."""
    if int(word) < 1:
        raise ValueError(word)
    return int(word)


def parser(document):
    """A parser for a script with this document, which takes no part of a flag's name for it."""
    head = document.split("\n\n", maxsplit=1)[0]
    return argparse.ArgumentParser(description=head, allow_abbrev=False)


def add_program(to):
    """Adds the program, which is the built one if unsaid."""
    to.add_argument("program", type=pathlib.Path, nargs="?", default=PROGRAM,
                    help="the one that `rt run` leaves in crates/linx_sim/out, if unsaid")


def found_program(to, given):
    """The whole path of the given program; where none is there, a message ends the script."""
    path = given.program.resolve()
    if not (path.is_file() and os.access(path, os.X_OK)):
        to.error(f"no program at {path}")
    return path
