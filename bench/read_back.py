#!/usr/bin/env python3
"""Reads texts back: spoiled ones, of which the right line must be named, and those of runs.

The spoiled ones are the texts of examples/, or parts of them with the steps numbered anew, and in
most of them some lines are altered: a word more, less or of another line, zeros in front, a number
past its bound, a name that isn't there, a line twice, lost or out of turn, a byte more or less, or
no end. `read` of journal_read must name just the line that the reader of bench/model/texts.py
finds, which follows docs/use/text.md; and where a text has no bad line, its steps must be printed
again as they were, but for the digests of long data, which are others then. The runs are those of
random scripts in threads and that of the generated load, and their texts must be read and printed
again so, with the names of the script and alone.
The program that reads them is built in a copy of the crates, so that the gate knows nothing of it;
`try` builds it unproved. Prints how many answers were right, and the first that wasn't.

    bench/try read_back [run|try] [COUNT [RUNS [PROGRAM]]]       100,000 and 1,000 if unsaid
"""
import pathlib
import random
import re
import subprocess
import sys
import tempfile

sys.dont_write_bytecode = True

import arguments
import judge
import random_script
import speeds
from copied import add_program, copied_crates
from texts import NAME, Reader

CRATES = ["linx_base", "sigsel", "journal", "journal_text", "text_words", "text_names",
          "journal_words", "reading_laws", "journal_read", "text_alone"]
EXAMPLES = pathlib.Path(__file__).resolve().parent.parent / "examples"
PROGRAM = """#![tactic(auto)]

use anyhow::Context;
use journal::Journal;
use journal_read::{Unread, read};
use journal_text::{write_count, write_step};
use linx_base::{Name, NameList, Names};
use std::alloc::Global;
use std::io::{BufRead, BufReader};
use text_alone::read_alone;

fn list(alloc: Global, words: &str) -> anyhow::Result<NameList> {
    let mut names = NameList::new(alloc);
    for word in words.split(',') {
        if !word.is_empty() {
            names.push(Name::of(alloc, word.as_bytes()).ok().context("name")?).context("names")?;
        }
    }
    Ok(names)
}

fn is_digest(bytes: &[u8]) -> bool {
    bytes.len() == 64 && bytes.iter().all(|byte| byte.is_ascii_hexdigit())
}

// The bytes without the digests.
fn without_digests(alloc: Global, bytes: &[u8]) -> anyhow::Result<Vec<u8>> {
    let mut left = Vec::new(alloc);
    for part in bytes.split(|byte| *byte == b':') {
        match part.split_at_checked(64) {
            Some((digest, rest)) if is_digest(digest) => left.extend_from_slice(rest)?,
            _ => left.extend_from_slice(part)?,
        }
        left.push(b':')?;
    }
    Ok(left)
}

// Whether the text ends with what is printed of the steps, but for digests.
fn is_printed(alloc: Global, journal: &Journal, text: &[u8]) -> anyhow::Result<bool> {
    let mut printed = Vec::new(alloc);
    if !journal.is_empty() {
        write_count(&mut printed, journal).context("count")?;
    }
    for k in 0..journal.len() {
        write_step(&mut printed, journal, k + 1).context("step")?;
    }
    let wanted = without_digests(alloc, text)?;
    Ok(wanted.ends_with(without_digests(alloc, printed.as_slice())?.as_slice()))
}

// What is read of a text: with names before it, or alone behind a `?` in their place.
fn read_so(alloc: Global, nodes: &str, links: &str, text: &[u8])
    -> anyhow::Result<Result<Journal, Unread>> {
    if nodes == "?" {
        return Ok(read_alone(alloc, text));
    }
    let names = Names { nodes: list(alloc, nodes)?, links: list(alloc, links)? };
    Ok(read(alloc, names, text))
}

// The first bad line of the text behind the names, or whether its steps are printed again.
fn answer(alloc: Global, line: &str) -> anyhow::Result<String> {
    let (nodes, rest) = line.split_once(' ').context("nodes")?;
    let (links, digits) = rest.split_once(' ').context("links")?;
    let text = hex::decode(alloc, digits.as_bytes())?;
    match read_so(alloc, nodes, links, text.as_slice())? {
        Ok(journal) => {
            let is_same = is_printed(alloc, &journal, text.as_slice())?;
            let again = if is_same { "same" } else { "other" };
            Ok(format!(in alloc; "{again}")?)
        }
        Err(Unread::Bad { line }) => Ok(format!(in alloc; "{line}")?),
        Err(Unread::Full { .. }) => anyhow::bail!("full"),
        Err(Unread::NoMemory) => anyhow::bail!("memory"),
    }
}

fn main(rt: HostRuntime) -> anyhow::Result<()> {
    let alloc = rt.alloc();
    for line in BufReader::new(alloc, rt.reader())?.lines(alloc) {
        let answer = answer(alloc, &line?)?;
        println!(rt; "{answer}")?;
    }
    Ok(())
}
"""
class Maker:
    """Spoils texts."""

    def __init__(self, seed, texts):
        self.random = random.Random(seed)
        self.texts = texts
        self.words = sorted({word for _, _, text in texts for word in re.split("[ \n]", text)})

    def part(self, text):
        """Some steps of a text, numbered anew, behind some lines of its logs."""
        lines = text.split("\n")[:-1]
        at = next(k for k, line in enumerate(lines) if line.startswith("journal "))
        heads = [k for k in range(at + 1, len(lines)) if not lines[k].startswith("+")]
        first = self.random.randrange(len(heads))
        last = min(len(heads), first + self.random.randint(1, 6))
        end = heads[last] if last < len(heads) else len(lines)
        steps, number = [], 0
        for line in lines[heads[first]:end]:
            if not line.startswith("+"):
                number += 1
                line = f"{number} {line.partition(' ')[2]}"
            steps.append(line)
        return [*lines[:self.random.randint(0, min(3, at))], f"journal {number}", *steps]

    def word(self, word):
        """A word in place of this one."""
        return self.random.choice([
            word + " " + word, "", "0" + word, word + "0", word.upper(), word[:-1], word + "\r",
            "4294967295", "4294967296", "18446744073709551616", "nobody", "?", "-", "1.1",
            word.replace(".", ".0", 1), word.replace(":", "", 1), word.replace(",", ",,", 1),
            self.random.choice(self.words), self.random.choice(self.words)])

    def spoil(self, lines):
        """Alters one line, or where it stands."""
        at = self.random.randrange(len(lines))
        kind = self.random.randrange(9)
        if kind < 5:
            words = lines[at].split(" ")
            k = self.random.randrange(len(words))
            words[k] = self.word(words[k])
            lines[at] = " ".join(words)
        elif kind == 5:
            del lines[at]
        elif kind == 6:
            lines.insert(at, lines[at])
        elif kind == 7:
            other = self.random.randrange(len(lines))
            lines[at], lines[other] = lines[other], lines[at]
        else:
            k = self.random.randint(0, len(lines[at]))
            byte = chr(self.random.choice([32, 9, 13, 48, 58, 43, self.random.randrange(128)]))
            lines[at] = lines[at][:k] + byte + lines[at][k + self.random.randint(0, 1):]

    def case(self):
        """The names of nodes and links, and a text."""
        nodes, links, text = self.random.choice(self.texts)
        lines = self.part(text) if self.random.random() < 0.97 else text.split("\n")[:-1]
        for _ in range(self.random.choice([0, 1, 1, 1, 1, 2])):
            if lines:
                self.spoil(lines)
        end = self.random.choice(["\n"] * 30 + ["", "\n\n"])
        return nodes, links, "\n".join(lines) + (end if lines else "")


def names_of(script):
    """The names of nodes and links that a script declares."""
    return [re.findall(rf"^ *{kind} +({NAME})", script, re.M) for kind in ("node", "link")]


def texts():
    """The texts of the examples, each with the names that its script declares."""
    return [(*names_of(path.with_suffix(".linx").read_text()), path.read_text())
            for path in sorted(EXAMPLES.glob("*.txt"))]


def runs(program, count):
    """The texts of runs of random scripts in threads, with the names that these declare."""
    found = []
    for seed in range(1, count + 1):
        script = random_script.Writer(seed).script()
        status, _, text = judge.ended([program, "run"], script.encode(), 10)
        if status == 0:
            found.append((*names_of(script), text.decode()))
    return found


def load(program):
    """The text of the generated load, with the names that its script declares."""
    script = "\n".join(speeds.load(100)) + "\n"
    status, _, text = judge.ended([program, "serial"], script.encode(), 60)
    return [(*names_of(script), text.decode())] if status == 0 else []


def build(folder):
    """The program's crate, beside copies of those that it stands on."""
    copied_crates(folder, CRATES, [f"read_bench: {' '.join(CRATES)} anyhow hex"])
    return add_program(folder, "read_bench", PROGRAM)


def wanted(case):
    """What the program must answer."""
    nodes, links, text = case
    bad = Reader(nodes, links).first_bad(text)
    return str(bad) if bad else "same"


def asked(cases, alone):
    """What the program is asked: each text with its names, and then some of them alone."""
    named = [f"{','.join(nodes)} {','.join(links)} {text.encode().hex()}\n"
             for nodes, links, text in cases]
    return "".join([*named, *(f"? ? {text.encode().hex()}\n" for _, _, text in alone)])


def tell(answers, cases, alone):
    """Compares the answers, and tells what came of them; whether all were right."""
    right = [*map(wanted, cases), *("same" for _ in alone)]
    answers += ["nothing"] * (len(right) - len(answers))
    wrong = [at for at in range(len(right)) if answers[at] != right[at]]
    good = sum(not answer.isdigit() for answer in right)
    print(f"{len(right) - len(wrong)} of {len(right)} answers as they should be, "
          f"{good} of the texts have no bad line")
    for at in wrong[:1]:
        print(f"first that is wrong: {[*cases, *alone][at]!r} "
              f"gives {right[at]}, and gave {answers[at]}")
    return not wrong


def main():
    """Makes them, has them read, and compares."""
    parser = arguments.parser(__doc__)
    parser.add_argument("way", choices=["run", "try"], nargs="?", default="run")
    parser.add_argument("count", type=arguments.count, nargs="?", default=100_000)
    parser.add_argument("runs", type=arguments.count, nargs="?", default=1000)
    arguments.add_program(parser)
    given = parser.parse_args()
    known = texts()
    program = arguments.found_program(parser, given)
    whole = [*load(program), *runs(program, given.runs)]
    maker = Maker(1, known)
    cases = [*known, *whole, *(maker.case() for _ in range(given.count))]
    alone = [*known, *whole]
    with tempfile.TemporaryDirectory() as folder:
        crate = build(pathlib.Path(folder))
        ran = subprocess.run(["rt", given.way], cwd=crate, input=asked(cases, alone),
                             stdout=subprocess.PIPE, text=True, check=False)
    answers = [line for line in ran.stdout.split("\n") if re.fullmatch("[0-9]+|same|other", line)]
    return 0 if tell(answers, cases, alone) else 1


if __name__ == "__main__":
    sys.exit(main())
