#!/usr/bin/env python3
"""Tries the edits that must be refused: of the crates whose edits the gate tries, and of all others.

    bench/try edits [CRATE ..]     the edits of these crates, or of all: each must be refused
    bench/try edits --read         only whether each can be made: its old text stands once

The gate tries those in `must-fail/`. Those of the crates that take longest lie in `edits/`, in the
same form, since it proves a crate a second time to try its edits; no gate looks at them. Here both are
tried, by `rt must-fail`, over a copy in which they lie together, with the libraries that are built.
Say it for the crates that you changed; for all it takes some two hours on four processors.
"""
import pathlib
import re
import shutil
import subprocess
import sys
import tempfile

from copied import TOP, copied_crates

FOLDERS = ("must-fail", "edits")


def edits_of(crate):
    """The edits of a crate, whoever tries them."""
    return sorted(path for folder in FOLDERS for path in (crate / folder).glob("*.edit"))


def faults_of(edit):
    """What keeps an edit from being made: a file that isn't there, a text that doesn't stand once."""
    crate, text = edit.parent.parent, None
    for line in edit.read_text().split("\n"):
        word, _, rest = line.partition(": ")
        if word == "file":
            path = crate / rest.strip()
            text = path.read_text() if path.is_file() else None
            if text is None:
                yield f"no file {rest.strip()}"
        elif word == "old" and text is not None and text.count(rest) != 1:
            yield f"stands {text.count(rest)} times: {rest}"


def below(names):
    """The crates with these names and all that they stand on, in the order of crates.txt."""
    lines = [line for line in (TOP / "crates.txt").read_text().split("\n") if re.match(r"[a-z]", line)]
    uses = {re.split("[ :]", line)[0]: line.partition(":")[2].split() for line in lines}
    found = set(names)
    while more := {it for name in found for it in uses[name] if it in uses} - found:
        found |= more
    return [name for name in uses if name in found]


def read(crates):
    """Says which edits can't be made, and how many were read."""
    faults = [f"{edit.relative_to(TOP)}: {why}" for crate in crates for edit in edits_of(crate)
              for why in faults_of(edit)]
    print(*faults, sep="\n", end="\n" if faults else "")
    print(f"{sum(len(edits_of(crate)) for crate in crates)} edits, {len(faults)} faults")
    return 1 if faults else 0


def tried(crates):
    """Tries the edits of these crates over a copy, and says what `rt must-fail` says."""
    names = [crate.name for crate in crates if edits_of(crate)]
    with tempfile.TemporaryDirectory(prefix="edits-") as room:
        folder = pathlib.Path(room)
        copied_crates(folder, below(names), [])
        shutil.copy(TOP / "HANDLES", folder)
        for name in names:
            to = folder / "crates" / name / "must-fail"
            to.mkdir()
            for edit in edits_of(TOP / "crates" / name):
                (to / edit.name).write_bytes(edit.read_bytes())
        subprocess.run(["git", "init", "-q"], cwd=folder, check=True)
        return subprocess.run(["rt", "must-fail", *names], cwd=folder, check=False).returncode


def main(words):
    """Reads or tries the edits of all crates, or of those that are named."""
    named = [word for word in words if word != "--read"]
    crates = [TOP / "crates" / name for name in named] or sorted((TOP / "crates").iterdir())
    if lacking := [crate.name for crate in crates if not crate.is_dir()]:
        print(f"edits: no crate {lacking[0]}", file=sys.stderr)
        return 2
    return read(crates) or (0 if "--read" in words else tried(crates))


if __name__ == "__main__":
    sys.exit(main(sys.argv[1:]))
