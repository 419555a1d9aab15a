#!/usr/bin/env python3
"""Draws the map of a printed text by itself, and judges those that `linx_sim chart map` draws.

The texts are those of examples/ and its races in the fixed order, and of the random scripts of the
seeds 1 to COUNT, each in the order of its seed, and that of the generated load. Each is given alone
and with its script before it: the map must be the one that this draws, byte for byte; and with its
script before it the chart must be that of bench/charts.py. It says how many were the same, and the
first that wasn't.

    bench/try maps draw < TEXT > MAP.svg
    bench/try maps [COUNT [PROGRAM]]            COUNT is 100 if unsaid
"""
import pathlib
import sys

sys.dont_write_bytecode = True

import arguments
import charts
import drawn
import judge
from seeds import scripts
from speeds import load

TOP = pathlib.Path(__file__).resolve().parent.parent
SHADES = ["dot", "told-head", "session", "packet-head", "wait"]
NOTHING = "no refused, none, dead, cut, down, notified"


class Map(charts.Drawing):
    """The map of a run. A strip has a key: the number of an actor, or a link's name and a direction."""

    def __init__(self, run):
        self.run, self.out = run, []
        self.s = charts.Setting(run, False, None)
        self.steps = len(run.heads)
        self.per = max(1, -(-self.steps // 240))
        self.rows = -(-self.steps // self.per)
        self.wide = 64 if len(self.s.actors) <= 12 else 22
        self.right = 66 + 34 * len(self.s.names) + self.wide * len(self.s.actors) + 78 * len(self.s.links)
        self.count, self.lost = {}, set()
        for step, head in run.heads.items():
            key = (head.words[1], head.words[2]) if head.kind in ("wire", "tick") else int(head.maker[1:])
            at = key, (step - 1) // self.per
            self.count[at] = self.count.get(at, 0) + 1
            if head.kind == "wire" and head.words[3] == "lose":
                self.lost.add(at)

    def node_left(self, node):
        """Where what belongs to a node begins."""
        return (66 + 34 * sum(n < node for n in self.s.names) + self.wide * sum(a[1] < node for a in self.s.actors)
                + 78 * sum(max(l[2:]) < node for l in self.s.links))

    def lane_left(self, link):
        """The left edge of a link's lane."""
        later = max(link[2:])
        return self.node_left(later) + 78 * sum(max(l[2:]) == later and l[0] < link[0] for l in self.s.links)

    def box_left(self, node):
        """The left edge of a node's box."""
        return self.node_left(node) + 78 * sum(max(l[2:]) == node for l in self.s.links)

    def strip_left(self, actor):
        """The left edge of an actor's strip."""
        before = sum(a[1] == actor[1] and a[0] < actor[0] for a in self.s.actors)
        return self.box_left(actor[1]) + 14 + self.wide * before

    def caption(self, left, width, name):
        """A name in a box."""
        self.box("node-caption", left, 32, width, 20)
        self.words("strong", "middle", left + width // 2, 46, charts.cut(width // 7, name))

    def frame(self, x, width):
        """The frame of a strip."""
        self.box("rail", x, 88, width, 3 * self.rows)

    def captions(self):
        """What stands over the strips and at their left, and their frames."""
        self.words("strong", "start", 66, 20, f"{self.steps} steps, {self.per} in a row; stronger: more of them; "
                   "orange: packets lost")
        for node, name in self.s.names.items():
            self.caption(self.box_left(node), 28 + self.wide * sum(a[1] == node for a in self.s.actors), name)
        for actor in self.s.actors:
            x, width = self.strip_left(actor), self.wide - 3
            self.frame(x, width)
            if self.wide == 64:
                self.words("strong", "middle", x + width // 2, 66, charts.cut(9, actor[2]))
                self.words("faint", "middle", x + width // 2, 80, charts.cut(9, actor[3]))
            else:
                self.words("strong", "middle", x + width // 2, 66, f"A{actor[0]}")
        for link in self.s.links:
            self.caption(self.lane_left(link), 72, link[1])
            for mark, x in (">", self.lane_left(link) + 14), ("<", self.lane_left(link) + 36):
                self.frame(x, 19)
                self.words("faint", "middle", x + 9, 66, mark)
        for row in range(0, self.rows, 20):
            self.words("line", "end", 58, 88 + 3 * row + 6, str(1 + row * self.per))

    def cells(self, strips):
        """The cells of strips, each with its place; they are as dark as they are beside each other."""
        most = max((self.count.get((key, row), 0) for key, _, _ in strips for row in range(self.rows)), default=0)
        for key, x, width in strips:
            for row in range(self.rows):
                many = self.count.get((key, row), 0)
                if many:
                    level = next((k for k in range(4) if many > most // 2 ** (k + 1)), 4)
                    self.box(SHADES[level], x, 88 + 3 * row, width, 3)
                if (key, row) in self.lost:
                    self.box("wrong", x + width - 3, 88 + 3 * row, 2, 3)

    def rare(self):
        """The lines that are rare, in order."""
        seen = set()
        for line in self.run.lines:
            if line.place == 0:
                dead = line.kind == "send" and line.words[-1] == "dead"
                if dead or line.kind in ("refused", "none", "cut", "mend", "settle", "restart"):
                    yield line
            elif line.kind in ("down", "notified") or (line.kind == "up" and line.column in seen):
                yield line
            elif line.kind == "up":
                seen.add(line.column)

    def beside(self, y, line):
        """A rare line, whose words stand so far down."""
        place = f"s{line.step}" + (f".{line.place}" if line.place else "")
        title, x = f"{line.step} {line.text}", self.right
        at = 89 + 3 * ((line.step - 1) // self.per)
        wrong = line.kind in ("none", "cut", "restart", "refused", "down", "send")
        self.out.append(f'<g class="row" id="{place}">\n<title>{charts.escaped(title)}</title>\n')
        self.box("hit", x + 32, y - 10, 306, 14)
        self.path("packet", ("M", x, at), ("L", x + 6, at), ("L", x + 28, y - 4), ("L", x + 32, y - 4))
        name = "wrong-label" if wrong else "strong" if line.kind == "up" else "label"
        self.words(name, "start", x + 36, y, charts.cut(42, title))
        self.out.append("</g>\n")

    def whole(self):
        """The bytes of the picture."""
        depth = max(3 * self.rows + 40, 200)
        width, height = self.right + 340, 88 + depth
        self.out.append(f'<svg xmlns="http://www.w3.org/2000/svg" width="{width}" height="{height}" '
                        f'viewBox="0 0 {width} {height}" role="img">\n<title>{self.steps} steps</title>\n')
        self.out.append("<style>\n" + charts.style() + "</style>\n<g class=\"back\">\n")
        self.captions()
        self.cells([(a[0], self.strip_left(a), self.wide - 3) for a in self.s.actors])
        self.cells([((l[1], mark), self.lane_left(l) + left, 19) for l in self.s.links
                    for mark, left in ((">", 14), ("<", 36))])
        self.out.append("</g>\n<g class=\"rows\">\n")
        rare, room = list(self.rare()), depth // 14 - 2
        shown = rare[:room]
        first = min(3 * ((shown[0].step - 1) // self.per), 14 * (room - len(shown))) if shown else 0
        for k, line in enumerate(shown):
            self.beside(96 + first + 14 * k, line)
        self.out.append("</g>\n<g class=\"front\">\n")
        if not rare:
            self.words("faint", "start", self.right + 36, 96, NOTHING)
        elif len(rare) > room:
            self.words("faint", "start", self.right + 36, 96 + 14 * room, f"and {len(rare) - room} more")
        self.out.append("</g>\n</svg>\n")
        return "".join(self.out)


def texts(program, count):
    """Each script, and the text of a run of it, with a name."""
    races = [(path.name, path.read_bytes()) for path in sorted((TOP / "examples/races").glob("*.linx"))]
    generated = ("load", "\n".join(load(100)).encode() + b"\n")
    for place, (name, script) in enumerate([*races, *scripts(count), generated]):
        words = ["seed", str(place)] if name.startswith("seed") else ["serial"]
        status, _, text = judge.ended([program, *words], script, drawn.SECONDS)
        if status == 0 and text:
            yield name, script, text


def wrong(program, script, text):
    """What is wrong with the maps of a text, or with its chart behind its script; or None."""
    whole = script + b"text\n" + text
    for given in text, whole:
        wanted = Map(charts.Run(given.decode())).whole().encode()
        fault = judge.difference(judge.ended([program, "chart", "map"], given, drawn.SECONDS), (0, b"", wanted))
        if fault is not None:
            return f"map: {fault}"
    if len(drawn.journal_of(text)) > drawn.ROWS_MOST:
        return None
    wanted = charts.Drawing(charts.Run(whole.decode())).whole().encode()
    return judge.difference(judge.ended([program, "chart"], whole, drawn.SECONDS), (0, b"", wanted))


def main():
    """Draws one map, or all of them."""
    if sys.argv[1:] == ["draw"]:
        sys.stdout.write(Map(charts.Run(sys.stdin.read())).whole())
        return 0
    parser = arguments.parser(__doc__)
    parser.add_argument("count", type=arguments.count, nargs="?", default=100)
    arguments.add_program(parser)
    given = parser.parse_args()
    program = arguments.found_program(parser, given)
    same, faults = 0, []
    for name, script, text in texts(program, given.count):
        fault = wrong(program, script, text)
        same += fault is None
        if fault is not None:
            faults.append(f"{name}: {fault}")
    print(f"{same} texts have their maps")
    if faults:
        print(f"first that hasn't: {faults[0]}")
    return min(len(faults), 1)


if __name__ == "__main__":
    sys.exit(main())
