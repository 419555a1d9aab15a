#!/usr/bin/env python3
"""Judges the pages that `linx_sim chart page` writes, in a browser without a window.

The texts are those of examples/ and its races in the fixed order, and of the random scripts of the
seeds 1 to COUNT. A page must hold the chart as `linx_sim chart` draws it and nothing from elsewhere; a
click on each row must light those that bench/charts.py ties to it, a search find the rows whose line
has its words, and the part of an address behind # light its row. It needs Chromium.

    bench/try pages [COUNT [PROGRAM]]           COUNT is 20 if unsaid
"""
import html
import pathlib
import re
import subprocess
import sys
import tempfile

sys.dont_write_bytecode = True

import arguments
import charts
import judge
from drawn import SECONDS, texts

ROWS_MOST = 600
SOUGHT = "take"
BROWSER = ["chromium", "--headless=new", "--no-sandbox", "--disable-gpu", "--virtual-time-budget=20000",
           "--dump-dom"]
DRIVEN = """<script>
const said = [lit.map(it => it.id).join()];
for (const row of rows) {
  row.querySelector('.hit').dispatchEvent(new MouseEvent('click', { bubbles: true }));
  said.push(lit.map(it => it.id).join());
}
box.value = 'SOUGHT';
box.dispatchEvent(new Event('input'));
said.push(document.querySelector('output').textContent);
box.dispatchEvent(new KeyboardEvent('keydown', { key: 'Enter' }));
said.push(lit.map(it => it.id).join());
document.title = said.join(' | ');
</script>
""".replace("SOUGHT", SOUGHT)


def name_of(line):
    """The name of a line's row."""
    return f"s{line.step}" + (f".{line.place}" if line.place else "")


def ties_of(run):
    """The rows that a line of the chart joins, by their lines."""
    for kind, start, end in charts.ties_of(run):
        yield from [(start, end.head), (end.head, end)] if kind == "carried" else [(start, end)]
    for line in run.lines:
        if line.place and line.kind in ("arrived", "found", "notified"):
            yield line.head, line


def wanted(text):
    """What the driven page must say of a text."""
    run = charts.Run(text.decode())
    near = {name_of(line): {name_of(line)} for line in run.lines}
    for start, end in ties_of(run):
        near[name_of(start)].add(name_of(end))
        near[name_of(end)].add(name_of(start))
    order = [name_of(line) for line in run.lines]
    said = [order[-1]]
    for name in order:
        found = [name]
        for one in found:
            found += sorted(near[one] - set(found))
        said.append(",".join(it for it in order if it in found))
    hits = [name_of(line) for line in run.lines if SOUGHT in f"{line.step} {line.text}"]
    return said + ([f"{len(hits)} rows", hits[0]] if hits else ["0 rows", said[-1]])


def driven(page, name):
    """What a page says once its rows were clicked and a word was sought."""
    with tempfile.TemporaryDirectory() as room:
        path = pathlib.Path(room) / "page.html"
        path.write_text(page.replace("</html>", DRIVEN + "</html>"))
        dom = subprocess.run([*BROWSER, f"file://{path}#{name}"], capture_output=True, check=True).stdout
    return html.unescape(re.search(r"<title>(.*?)</title>", dom.decode(), re.S)[1]).split(" | ")


def wrong(program, text):
    """What is wrong with the page of a text, or None."""
    page = judge.ended([program, "chart", "page"], text, SECONDS)[2].decode()
    chart = judge.ended([program, "chart"], text, SECONDS)[2].decode()
    if page.count(chart) != 1:
        return "the chart doesn't stand in it"
    if re.search(r"(src|href)=|url\(|import|https?:", page.replace(chart, "")):
        return "it takes something from elsewhere"
    said = wanted(text)
    told = driven(page, said[0])
    return next((f"said {one[:80]}, wanted {other[:80]}" for one, other in zip(told, said)
                 if one != other), None if len(told) == len(said) else "another count of rows")


def main():
    """Judges all of them."""
    parser = arguments.parser(__doc__)
    parser.add_argument("count", type=arguments.count, nargs="?", default=20)
    arguments.add_program(parser)
    given = parser.parse_args()
    program = arguments.found_program(parser, given)
    right, faults = 0, []
    for name, text in texts(program, given.count):
        if text[text.index(b"journal "):].count(b"\n") > ROWS_MOST:
            continue
        fault = wrong(program, text)
        right += fault is None
        if fault is not None:
            faults.append(f"{name}: {fault}")
    print(f"{right} pages are right, {len(faults)} aren't")
    if faults:
        print(f"first that isn't: {faults[0]}")
    return min(len(faults), 1)


if __name__ == "__main__":
    sys.exit(main())
