"""Copies of crates, over which a script builds a program of its own, unknown to the gate."""
import pathlib
import re
import shutil

TOP = pathlib.Path(__file__).resolve().parent.parent


def copied_crates(folder, crates, lines):
    """These crates in a folder, with the libraries that are built, and lines for further ones."""
    for crate in crates:
        shutil.copytree(TOP / "crates" / crate, folder / "crates" / crate,
                        ignore=shutil.ignore_patterns("must-fail"))
    wanted = [line for line in (TOP / "crates.txt").read_text().split("\n")
              if re.split("[ :]", line)[0] in crates]
    (folder / "crates.txt").write_text("\n".join([*wanted, *lines]) + "\n")


def add_program(folder, crate, text):
    """The folder of a crate that is a program with this text."""
    source = folder / "crates" / crate / "src"
    source.mkdir(parents=True)
    (source / "main.rt").write_text(text)
    return source.parent
