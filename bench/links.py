#!/usr/bin/env python3
"""Looks whether what README, the pages of docs and the sources name is there.

Of each page: every file that a link goes to, every path from the top or from `crates/` that stands
in it, and every script that `bench/try` is shown with. Of the crates, the scripts and the examples: every page of
docs that a line names. Prints how many were looked at, and each one that isn't there; ends with 1
where there is one.

    bench/try links
"""
import pathlib
import re
import sys

TOP = pathlib.Path(__file__).resolve().parent.parent
LINK = re.compile(r"\]\(([^)#\s]+)(?:#[^)]*)?\)")
PATH = re.compile(r"(?<![\w/.])((?:docs|bench|examples|crates|\.ci)/[\w./*-]*\w)")
PART = re.compile(r"`(\w+/(?:src|specs|proofs)/[\w/]+\.(?:antt|rt))`")
SHOWN = re.compile(r"bench/try ([a-z_]+)")
SOURCES = ("crates/*/src/**/*.rt", "crates/*/specs/**/*.antt", "crates/*/proofs/**/*.antt",
           "bench/*.py", "bench/*.sh", "bench/model/*.py", "examples/*")


def pages():
    """README and each page of docs, the manual too."""
    return [TOP / "README.md", *sorted(TOP.glob("docs/**/*.md")), *TOP.glob("docs/**/*.1")]


def named_in_page(path):
    """What a page names, with whether it is there."""
    text = path.read_text()
    for name in LINK.findall(text):
        if "://" not in name:
            yield name, (path.parent / name).exists()
    for name in PATH.findall(text):
        yield name, "out/" in name or any(TOP.glob(name))
    for name in PART.findall(text):
        yield name, (TOP / "crates" / name).is_file()
    for name in SHOWN.findall(text):
        yield f"bench/try {name}", name == "model" or any((TOP / "bench").glob(f"{name}.*"))


def named_in_source(path):
    """The pages that a source names, with whether each is there."""
    for name in re.findall(r"docs/[\w/]+\.(?:md|1)\b", path.read_text()):
        yield name, (TOP / name).is_file()


def main():
    """Says what isn't there."""
    found = [(path, *named) for path in pages() for named in named_in_page(path)]
    sources = {path for shape in SOURCES for path in TOP.glob(shape) if path.is_file()}
    found += [(path, *named) for path in sorted(sources) for named in named_in_source(path)]
    wrongs = [f"{path.relative_to(TOP)}: no {name}" for path, name, there in found if not there]
    print(f"{len(found)} names were looked at, {len(wrongs)} aren't there")
    for wrong in wrongs:
        print(wrong)
    return 1 if wrongs else 0


if __name__ == "__main__":
    sys.exit(main())
