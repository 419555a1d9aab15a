#!/usr/bin/env python3
"""Draws the chart of a printed text by itself, as SVG: what `journal_charts` is judged by. A script, and
a line `text`, may stand before it.

    bench/try charts [plain] [fold] [steps A B] [of M,..] < TEXT > CHART.svg    in any order
"""
import re
import sys
from pathlib import Path

ROOT = Path(__file__).resolve().parent.parent
RIGHTMOST = 2**32 - 1
NOWHERE = ("nowhere",)


class Line:
    """A line of a journal: its place, its words without position, and where its mark stands."""

    def __init__(self, step, place, maker, text, head):
        self.step, self.place, self.maker, self.text, self.head = step, place, maker, text, head
        self.words = text.split(" ")[1:]
        self.kind = self.words[0]
        self.row = self.x = self.at = 0
        self.seen = True
        self.told = self.turned = self.folded = False
        self.column = self.to = NOWHERE
        self.run = [self]


class Run:
    """What a text says, behind a script or alone."""

    def __init__(self, text):
        self.script, text = parted(text)
        lines = text.split("\n")[:-1]
        at = next(k for k, line in enumerate(lines) if line.startswith("journal "))
        self.node_names, self.link_names = names_of(lines) if self.script is None else declared(self.script)
        self.lines, self.heads = [], {}
        for line in lines[at + 1:]:
            if line.startswith("+ "):
                head = self.lines[-1].head
                self.lines.append(Line(head.step, self.lines[-1].place + 1, head.maker, line, head))
                head.effects.append(self.lines[-1])
            else:
                position, words = line.split(" ", 1)
                made = Line(int(position), 0, words.split(" ")[0], words, None)
                made.head, made.effects = made, []
                self.heads[made.step] = made
                self.lines.append(made)
        self.opener = {}
        for line in self.lines:
            if line.place and line.kind == "opened":
                self.opener[line.words[1]] = line.maker
            line.column = self.column(line)
            if line.place == 0 and line.kind == "send":
                line.to = life(self.opener.get(line.words[1].split(":")[-1], "P"))

    def node(self, name):
        """The number of a node's name."""
        return self.node_names.index(name) + 1

    def link(self, name):
        """The number of a link's name."""
        return self.link_names.index(name) + 1

    def column(self, line):
        """The column of a line's mark."""
        words = line.words
        if line.place == 0:
            if line.kind in ("wire", "tick"):
                return ("lane", self.link(words[1]), words[2])
            return life(line.maker)
        if line.kind in ("up", "down"):
            return ("rail", self.link(words[2]), self.node(words[1]))
        if line.kind in ("met", "gone"):
            if ":" not in words[2]:
                return NOWHERE
            return ("rail", self.link(words[2].split(":")[0]), self.node(words[1]))
        return life(self.opener.get(words[1], "P"))

    def is_of_link(self, line, number):
        """Whether a line's mark is in a link's lane or on a rail of it, or cuts or mends it."""
        if line.column[0] in ("lane", "rail"):
            return line.column[1] == number
        return line.place == 0 and line.kind in ("cut", "mend") and self.link(line.words[1]) == number

    def find(self, at):
        """The line of a place."""
        step, place = (int(n) for n in at.split("."))
        head = self.heads.get(step)
        if head is None or place > len(head.effects):
            return None
        return head if place == 0 else head.effects[place - 1]


def life(maker):
    """The column of a maker."""
    return ("life", int(maker[1:])) if maker[0] == "A" else NOWHERE


def parted(text):
    """The script before a line `text`, None where there is no such line; and the printed text."""
    at = 0 if text.startswith("text\n") else text.find("\ntext\n") + 1
    return (text[:at], text[at + 5:]) if at or text.startswith("text\n") else (None, text)


def statements(script, kind):
    """The words behind this one, of each line of a script that it begins."""
    lines = [line.split("#")[0].split() for line in script.split("\n")]
    return [words[1:] for words in lines if words[:1] == [kind]]


def declared(script):
    """The names of the nodes and links of a script."""
    return [[words[0] for words in statements(script, kind)] for kind in ("node", "link")]


def names_of(lines):
    """The names of nodes and links, in the order of their numbers."""
    told, others = [{}, {}], [[], []]
    firsts = [line.split(" ")[:4] for line in lines]
    firsts = [words for words in firsts if len(words) == 4]
    for a, b, c, d in firsts:
        if a == "log" and re.fullmatch(r"[0-9]+\.[0-9]+", b):
            told[0].setdefault(int(b.split(".")[0]), d)
        if c in ("wire", "tick") and re.fullmatch(r"P[0-9]+", b):
            told[1].setdefault(int(b[1:]), d)
    for a, b, c, d in firsts:
        named = [None, None]
        if a == "+":
            named[0] = c if b in ("up", "down", "met", "gone") else None
            alone = b in ("up", "down")
        else:
            named[0] = d if c == "restart" and a != "log" else None
            alone = c in ("wire", "tick", "cut", "mend", "settle")
        if a != "log":
            if alone:
                named[1] = d
            elif ":" in d:
                named[1] = d.split(":")[0] if d.count(":") > 1 else None
            elif "/" in d:
                named[1] = d.split("/")[0]
        for k in 0, 1:
            name = named[k]
            if name and re.fullmatch(r"[A-Za-z0-9_.-]{1,32}", name) and len(others[k]) < 64 \
                    and name not in told[k].values() and name not in others[k]:
                others[k].append(name)
    made = []
    for k in 0, 1:
        rest = list(others[k])
        names = [told[k].get(n) or (rest.pop(0) if rest else "-")
                 for n in range(1, max(told[k], default=0) + 1)]
        made.append(names + rest)
    return made


def ties_of(run):
    """The ties: why, from which line, to which."""
    ties, over = [], []
    pairs, flights = {}, []
    for line in run.lines:
        words = line.words
        if line.place == 0:
            if line.kind == "take":
                ties.append(("taken", run.find(words[2]), line))
            elif line.kind == "detach" and words[2] != "none":
                ties.append(("attach", run.heads.get(int(words[1][1:])), line))
            elif line.kind == "send" and words[-1] == "link":
                link, session, inc = words[1].split(":")
                flights.append(((line.maker, link, session, inc), line))
        elif line.kind == "arrived":
            if line.head.kind == "send":
                ties.append(("signal", line.head, line))
            if ":" in words[2]:
                link, session, inc = words[2].split(":")
                other = pairs.get((words[1].split(".")[0], link, session))
                way = (run.opener.get(inc), link, other, words[1])
                at = next((k for k, flight in enumerate(flights) if flight[0] == way), None)
                if at is not None:
                    over.append(("carried", flights.pop(at)[1], line))
        elif line.kind == "found":
            ties.append(("hunt", run.heads.get(int(words[5][1:])), line))
        elif line.kind == "notified":
            ties.append(("attach", run.heads.get(int(words[5][1:])), line))
        elif line.kind == "up":
            pairs.setdefault((str(run.node(words[1])), words[2], words[3]), words[4])
    return [tie for tie in ties if tie[1] is not None] + over + \
        [("lost", line, line) for _, line in flights]


class Setting:
    """What stands side by side, and where."""

    def __init__(self, run, plain, part):
        self.left = 60 if plain else 364
        self.names = dict(enumerate(run.node_names, 1))
        self.actors = []
        for line in run.lines:
            maker = line.maker
            if line.place == 0 and maker[0] == "A" and int(maker[1:]) not in [a[0] for a in self.actors]:
                opening = next((l for l in run.lines if l.place == 0 and l.maker == maker
                                and l.kind == "open"), None)
                first = opening.effects[0] if opening and opening.effects else None
                node = int(first.words[1].split(".")[0]) if first and first.kind == "opened" else RIGHTMOST
                self.actors.append((int(maker[1:]), node, maker, opening.words[1] if opening else ""))
        if any(a[1] == RIGHTMOST for a in self.actors):
            self.names[RIGHTMOST] = "?"
        self.links = [(k, name, self.end(run, name, ">", 0), self.end(run, name, "<", RIGHTMOST))
                      for k, name in enumerate(run.link_names, 1)]
        if run.script is not None:
            self.declare(run)
        if part:
            self.leave_out(run, [line for line in run.lines if line.seen])
        count = len(self.actors)
        self.gap = 168 if count <= 6 else 120 if count <= 12 else 84
        self.width = self.left + 10 + 34 * len(self.names) + self.gap * count + 162 * len(self.links)

    def declare(self, run):
        """Takes all actors and links from the script."""
        self.names = dict(enumerate(run.node_names, 1))
        self.actors = [(k, run.node(words[1]), words[0], f"A{k}")
                       for k, words in enumerate(statements(run.script, "actor"), 1)]
        self.links = [(k, words[0], run.node(words[1]), run.node(words[2]))
                      for k, words in enumerate(statements(run.script, "link"), 1)]

    def leave_out(self, run, seen):
        """Leaves out the columns without a mark that is seen, and the nodes without columns."""
        self.actors = [a for a in self.actors if any(l.column == ("life", a[0]) for l in seen)]
        self.links = [k for k in self.links if any(run.is_of_link(l, k[0]) for l in seen)]
        used = {a[1] for a in self.actors} | {node for k in self.links for node in k[2:]}
        self.names = {node: name for node, name in self.names.items() if node in used}

    def has(self, run, line):
        """Whether a line's mark stands in a column, or cuts or mends a link that has one."""
        return any(line.column == ("life", a[0]) for a in self.actors) \
            or any(run.is_of_link(line, k[0]) for k in self.links)

    def link(self, number):
        """The link of a number, if it has a lane."""
        return next((k for k in self.links if k[0] == number), None)

    @staticmethod
    def end(run, link, side, otherwise):
        """The number of the node at a side of a link."""
        for line in run.lines:
            if line.place or line.kind not in ("wire", "tick") or line.words[1] != link:
                continue
            if (line.kind == "tick") == (line.words[2] == side) and line.effects \
                    and line.effects[0].kind in ("met", "gone", "up", "down"):
                return run.node(line.effects[0].words[1])
        return otherwise

    def node_left(self, node):
        """Where what belongs to a node begins."""
        return (self.left + 34 * sum(n < node for n in self.names) + self.gap * sum(a[1] < node for a in self.actors)
                + 162 * sum(max(l[2], l[3]) < node for l in self.links))

    def lane_left(self, link):
        """The left edge of a lane."""
        later = max(link[2], link[3])
        return self.node_left(later) + 162 * sum(max(l[2], l[3]) == later and l[0] < link[0] for l in self.links)

    def box_left(self, node):
        """The left edge of a node's box."""
        return self.node_left(node) + 162 * sum(max(l[2], l[3]) == node for l in self.links)

    def box_width(self, node):
        """Its width."""
        return 28 + self.gap * sum(a[1] == node for a in self.actors)

    def life_left(self, actor):
        """Where the cells of an actor begin."""
        return self.box_left(actor[1]) + 12 + self.gap * sum(a[1] == actor[1] and a[0] < actor[0] for a in self.actors)

    def place(self, column):
        """The left edge of a column, and whether it is turned."""
        nowhere = self.left - 52, False
        if column[0] == "life":
            actor = next((a for a in self.actors if a[0] == column[1]), None)
            return (self.life_left(actor), False) if actor else nowhere
        link = self.link(column[1]) if column != NOWHERE else None
        if link is None:
            return nowhere
        earlier = min(link[2], link[3])
        if column[0] == "lane":
            return self.lane_left(link), (link[2] if column[2] == ">" else link[3]) != earlier
        right = column[2] != earlier
        return self.lane_left(link) + (116 if right else 8), right


def top(row):
    """How far down a row begins."""
    return 78 + 18 * row


def escaped(words):
    """Words as XML has them."""
    for raw, name in ("&", "&amp;"), ("<", "&lt;"), (">", "&gt;"), ('"', "&quot;"):
        words = words.replace(raw, name)
    return words


def cut(most, words):
    """Words of at most so many characters."""
    return words if len(words) <= most else words[:most - 2] + ".."


class Drawing:
    """Shapes, as they are written."""

    def __init__(self, run, plain=False, fold=False, window=None, makers=None):
        self.run, self.plain, self.makers, self.out = run, plain, makers, []
        self.part = window is not None or makers is not None
        first, last = window or (0, 2**64)
        self.number_rows(first, last, fold)
        self.setting = Setting(run, plain, self.part)
        self.kept = [line for line in run.lines
                     if not line.folded and (line.seen or self.setting.has(run, line))]
        for at, line in enumerate(self.kept):
            line.at = at
            line.x, line.turned = self.setting.place(line.column)
        self.drawn = drawn = set(map(id, self.kept))
        self.ties = [(kind, start, end) for kind, start, end in ties_of(run)
                     if start.step <= last and first <= end.step
                     and any(id(line) in drawn and self.is_asked_for(line) for line in (start, end))
                     and id(start) in drawn and (kind == "carried" or id(end) in drawn)]

    def is_asked_for(self, line):
        """Whether a line is of a maker that is asked for."""
        if self.makers is None:
            return True
        lives = [life(maker) for maker in self.makers if maker[0] == "A"]
        return line.maker in self.makers or line.column in lives or line.to in lives

    def number_rows(self, first, last, fold):
        """Finds the lines that are seen, and the row of each line."""
        lines = self.run.lines
        self.rows, self.seen = int(any(line.step < first for line in lines)), []
        quiet = False
        for at, line in enumerate(lines):
            line.seen = first <= line.step <= last and self.is_asked_for(line)
            line.told = at + 1 < len(lines) and lines[at + 1].place != 0
            line.row = 0 if line.step < first else self.rows
            if not line.seen:
                continue
            still = line.place == 0 and line.kind in ("wire", "tick") and not line.told
            line.folded = fold and quiet and still
            quiet = still
            if line.folded:
                line.row = self.rows - 1
                self.seen[-1].run.append(line)
            else:
                self.rows += 1
                self.seen.append(line)

    def box(self, kind, x, y, width, height):
        """A rectangle."""
        self.out.append(f'<rect class="{kind}" x="{x}" y="{y}" width="{width}" height="{height}"/>\n')

    def circle(self, kind, x, y, radius):
        """A circle."""
        self.out.append(f'<circle class="{kind}" cx="{x}" cy="{y}" r="{radius}"/>\n')

    def path(self, kind, *strokes):
        """A path of strokes, each a letter and its numbers."""
        text = "".join(stroke[0] + " ".join(str(n) for n in stroke[1:]) for stroke in strokes)
        self.out.append(f'<path class="{kind}" d="{text}"/>\n')

    def words(self, kind, anchor, x, y, words):
        """Words."""
        self.out.append(f'<text class="{kind}" text-anchor="{anchor}" x="{x}" y="{y}">{escaped(words)}</text>\n')

    def cell(self, line, *points):
        """A line through points of a cell."""
        return [("ML"[k > 0], line.x + x, top(line.row) + y) for k, (x, y) in enumerate(points)]

    def along(self, line, x):
        """So far along a lane."""
        return line.x + (156 - x if line.turned else x)

    def lane(self, line, *points):
        """A line through points of a lane."""
        return [("ML"[k > 0], self.along(line, x), top(line.row) + y) for k, (x, y) in enumerate(points)]

    def whole(self):
        """The bytes of the picture."""
        rows, s = self.rows, self.setting
        height = top(rows) + 24
        self.out.append(f'<svg xmlns="http://www.w3.org/2000/svg" width="{s.width}" height="{height}" '
                        f'viewBox="0 0 {s.width} {height}" role="img">\n<title>{rows} rows</title>\n')
        self.out.append("<style>\n" + style() + "</style>\n<g class=\"back\">\n")
        self.ground(rows)
        self.bands(rows)
        self.bars(rows)
        self.loops()
        self.signals()
        self.out.append("</g>\n<g class=\"rows\">\n")
        for line in self.seen:
            place = f"s{line.step}" + (f".{line.place}" if line.place else "")
            self.out.append(f'<g class="row" id="{place}">\n<title>{escaped(f"{line.step} {said(line)}")}</title>\n')
            self.box("hit", 0, top(line.row), s.width, 18)
            if len(line.run) > 1:
                self.tallies(line)
            else:
                self.mark(line)
            self.out.append("</g>\n")
        self.out.append("</g>\n<g class=\"front\">\n")
        for line in self.seen:
            if len(line.run) == 1:
                self.label(line)
        for line in self.seen:
            y = top(line.row) + 13
            if line.place == 0 or self.makers is not None:
                self.words("line", "end", 48, y, str(line.step))
            if not self.plain:
                self.words("effect" if line.place else "line", "start", 60, y, cut(42, said(line)))
        self.out.append("</g>\n</svg>\n")
        return "".join(self.out)

    def ground(self, rows):
        """Boxes, lanes, stripes and lines."""
        s = self.setting
        foot = top(rows) + 8
        for node, name in s.names.items():
            if self.part and not any(actor[1] == node for actor in s.actors):
                continue
            left, width = s.box_left(node), s.box_width(node)
            self.box("node", left, 66, width, 18 * rows + 28)
            self.box("node-caption", left, 6, width, 22)
            self.words("strong", "middle", left + width // 2, 21, "node " + name)
        for link in s.links:
            left = s.lane_left(link)
            self.box("lane", left, 66, 156, 18 * rows + 28)
            self.words("strong", "middle", left + 78, 21, "link " + link[1])
            for node, x in (min(link[2:]), left + 24), (max(link[2:]), left + 132):
                self.path("rail", ("M", x, 70), ("L", x, foot))
                self.words("faint", "middle", x, 44, cut(10, s.names.get(node, "?")))
        for line in self.seen:
            if line.step % 2 == 0:
                self.box("stripe", 0, top(line.row), s.width, 18)
        for actor in s.actors:
            x = s.life_left(actor) + 32
            self.words("strong", "middle", x, 44, cut(s.gap // 7, actor[2]))
            self.words("faint", "middle", x, 58, cut(s.gap // 7, actor[3]))
            mine = [line for line in self.kept if line.column == ("life", actor[0])]
            if mine:
                last = next((l for l in mine if l.place == 0 and l.kind == "ended"), None)
                self.path("life", ("M", x, top(mine[0].row) + 9), ("L", x, top(last.row) + 9 if last else foot))

    def bands(self, rows):
        """Cuts and restarts."""
        for line in self.kept:
            y = top(line.row) + 9
            if line.place == 0 and line.kind == "cut":
                end = next((l.row for l in self.kept[line.at + 1:]
                            if l.place == 0 and l.kind == "mend" and l.words[1] == line.words[1]), rows)
                link = self.setting.link(self.run.link(line.words[1]))
                if link and end > line.row:
                    self.box("cut", self.setting.lane_left(link), y, 156, 18 * (end - line.row))
            elif line.place == 0 and line.kind == "restart" and line.seen:
                node = self.run.node(line.words[1])
                if node not in self.setting.names:
                    continue
                left = self.setting.box_left(node)
                self.path("restart", ("M", left, y), ("L", left + self.setting.box_width(node), y))

    def bars(self, rows):
        """Open endpoints, waits and sessions."""
        for line in self.kept:
            below = [l for l in self.kept[line.at + 1:] if l.column == line.column and l.column[0] != "lane"
                     and l.column != NOWHERE]
            kind = (line.place > 0, line.kind)
            ends = {(True, "opened"): lambda l: l.place and l.kind == "closed",
                    (False, "waits"): lambda l: l.place == 0 or l.kind == "closed",
                    (True, "up"): lambda l: l.place and l.kind == "down"}.get(kind)
            if ends:
                end = next((l.row for l in below if ends(l)), rows)
                if end == line.row:
                    continue
                name, left, width = {"opened": ("bar", 27, 10), "waits": ("wait", 28, 8), "up": ("session", 13, 6)}[line.kind]
                self.box(name, line.x + left, top(line.row) + 9, width, 18 * (end - line.row))

    def loops(self):
        """What lies beside lines."""
        loops = []
        for kind, start, end in self.ties:
            if kind in ("signal", "carried", "lost"):
                continue
            right = kind == "taken"

            def meets(out):
                return any(o == out and r == right and f.column == start.column and f.column[0] in ("life", "rail")
                           and f.row < end.row and start.row < t.row for o, r, f, t in loops)
            out = next((o for o in (0, 4, 8, 12) if not meets(o)), 16)
            loops.append((out, right, start, end))
            if right:
                name = {"found": "queue-found", "notified": "queue-notice"}.get(start.kind, "queue")
                edge, far = 37, 41 + out
            else:
                name = {"hunt": "found"}.get(kind, "notice")
                edge, far = 27, 23 - out
            self.path(name, ("M", start.x + edge, top(start.row) + 9), ("L", start.x + far, top(start.row) + 9),
                      ("L", start.x + far, top(end.row) + 9), ("L", end.x + edge, top(end.row) + 9))

    def head(self, name, to, tip, base):
        """The head of an arrow."""
        self.path(name, *self.cell(to, (tip, 9), (base, 5), (base, 13)), ("Z",))

    def arrow(self, name, x, y, to):
        """An arrow from a point to a line."""
        bend, tip, base = (13, 27, 19) if x < to.x + 32 else (51, 37, 45)
        self.path(name, ("M", x, y), *[("L", to.x + k, top(to.row) + 9) for k in (bend, tip)])
        self.head(name + "-head", to, tip, base)

    def arrow_from(self, name, start, to):
        """An arrow from a mark on a line."""
        if start.column == to.column and start.column[0] in ("life", "rail"):
            self.path(name, *self.cell(start, (37, 9), (56, 9)), ("L", start.x + 56, top(to.row) + 9),
                      ("L", to.x + 37, top(to.row) + 9))
            self.head(name + "-head", to, 37, 45)
        else:
            self.arrow(name, start.x + 32, top(start.row) + 9, to)

    def signals(self):
        """Signals, and what else came to queues."""
        for kind, start, to in self.ties:
            if kind == "signal":
                self.arrow_from("signal", start, to)
            elif kind == "carried" and id(to) not in self.drawn:
                if start.seen:
                    self.path("signal", *self.cell(start, (32, 9), (48, 9)))
                    self.head("signal-head", start, 56, 48)
            elif kind == "carried" and id(to.head) not in self.drawn:
                self.arrow_from("signal", start, to)
            elif kind == "carried" and to.head.kind == "wire":
                packet = to.head
                self.path("signal", *self.cell(start, (32, 9)), ("L", self.along(packet, 24), top(start.row) + 9),
                          ("L", self.along(packet, 132), top(packet.row) + 9))
            elif kind == "lost":
                self.path("signal", *self.cell(start, (32, 9), (48, 9)))
                self.cross(start, 48)
        for line in self.seen:
            name = {"arrived": "signal", "found": "found", "notified": "notice"}.get(line.kind) if line.place else None
            head = line.head
            if name is None or head.kind == "send" or id(head) not in self.drawn:
                continue
            if head.kind in ("wire", "tick"):
                self.arrow(name, self.along(head, 132 if head.kind == "wire" else 24), top(head.row) + 9, line)
            else:
                self.arrow_from(name, head, line)

    def cross(self, line, left):
        """A cross."""
        self.path("wrong", *self.cell(line, (left, 5), (left + 8, 13)), *self.cell(line, (left + 8, 5), (left, 13)))

    def tallies(self, line):
        """What is in each lane of a row of several steps."""
        for link in self.setting.links:
            mine = [l for l in line.run if l.column[1] == link[0]]
            if not mine:
                continue
            packets, lost, ticks = tally(mine)
            mixed = lost or (packets and ticks)
            units = ("p", "p"), (" lost", " lost"), ("t", "t")
            x, y = self.setting.lane_left(link), top(line.row)
            self.box("fold", x + 30, y + 3, 96, 12)
            self.words("wrong-label" if lost else "faint", "middle", x + 78, y + 13,
                       counted((packets, lost, ticks), units if mixed else UNITS))

    def mark(self, line):
        """The mark of a line."""
        kind, words, ring = line.kind, line.words, lambda x, r: self.circle("mark", line.x + x, top(line.row) + 9, r)
        level = lambda a, b, name="mark": self.path(name, *self.cell(line, (a, 9), (b, 9)))
        square = self.cell(line, (27, 4), (37, 4), (37, 14), (27, 14)) + [("Z",)]
        if line.place:
            if kind in ("opened", "closed"):
                level(25, 39)
            elif kind in ("arrived", "found", "notified"):
                self.path("mark", *self.cell(line, (37, 6), (37, 12)))
            elif kind == "met":
                ring(16, 6)
                self.path("mark", *self.cell(line, (12, 9), (20, 9)), *self.cell(line, (16, 5), (16, 13)))
            elif kind == "gone":
                ring(16, 6)
                level(12, 20)
            else:
                level(10, 22, "mark" if kind == "up" else "wrong")
        elif kind == "open":
            ring(32, 3)
        elif kind == "close":
            level(26, 38)
        elif kind == "send":
            if words[-1] == "dead":
                self.path("signal", *self.cell(line, (32, 9), (48, 9)))
            self.circle("dot", line.x + 32, top(line.row) + 9, 4)
            if words[-1] == "dead":
                self.cross(line, 48)
        elif kind == "take":
            self.path("dot", *self.cell(line, (37, 4), (28, 9), (37, 14)), ("Z",))
        elif kind == "none":
            ring(32, 5)
            self.path("wrong", *self.cell(line, (26, 15), (38, 3)))
        elif kind == "waits":
            level(27, 37)
        elif kind == "hunt":
            self.path("mark", *self.cell(line, (32, 3), (38, 9), (32, 15), (26, 9)), ("Z",))
        elif kind == "attach":
            self.path("mark", *square)
        elif kind == "detach":
            self.path("mark", *square, *self.cell(line, (27, 14), (37, 4)))
        elif kind in ("cut", "mend", "settle", "restart"):
            self.path("mark", *self.cell(line, (26, 5), (38, 5), (38, 13), (26, 13)), ("Z",))
        elif kind == "refused":
            ring(32, 5)
            self.cross(line, 28)
        elif kind == "ended":
            self.path("mark", *self.cell(line, (24, 9), (40, 9)), *self.cell(line, (27, 12), (37, 12)))
        else:
            self.packet(line)

    def packet(self, line):
        """A packet or a tick."""
        name = "told" if line.told else "packet"
        head = lambda base, tip: self.path(name + "-head", *self.lane(line, (tip, 9), (base, 5), (base, 13)), ("Z",))
        if line.kind == "tick":
            self.path(name, *self.lane(line, (20, 9), (34, 9)), *self.lane(line, (34, 6), (34, 12)))
        elif line.words[3] == "lose":
            self.path("packet", *self.lane(line, (28, 9), (72, 9)))
            self.path("wrong", *self.lane(line, (74, 5), (82, 13)), *self.lane(line, (82, 5), (74, 13)))
        elif line.words[3].startswith("swap"):
            y, at = top(line.row), lambda x: self.along(line, x)
            self.path("told", ("M", at(28), y + 5), ("C", at(78), y + 5, at(58), y + 13, at(78), y + 13),
                      ("M", at(28), y + 13), ("C", at(78), y + 13, at(58), y + 5, at(78), y + 5))
        else:
            self.path(name, *self.lane(line, (28, 9), (128, 9)))
            head(120, 128)
            if line.words[3] == "repeat":
                head(111, 119)

    def label(self, line):
        """The label of a line."""
        kind, words = line.kind, line.text.split(" ")
        shown = {"send": [3, 4] + [5] * (words[-1] == "dead"), "close": [1], "none": [1], "tick": [1], "ended": [1],
                 "take": [1, 3], "detach": [1, 3],
                 "wire": [4] if line.kind == "wire" and words[4] != "deliver" else []}.get(kind, [1, 2])
        if line.place:
            shown = {"opened": [2], "closed": [], "arrived": [4, 5], "found": [1, 4], "met": [1, 4], "up": [1, 4],
                     "down": [1, 4], "notified": [4, 7], "gone": [1]}[kind]
        said = [brief(words[k]) for k in shown if k < len(words) and words[k] != "-"]
        room = (self.setting.gap - 46) // 7 if line.column[0] == "life" else 13
        said = cut(room, " ".join(said))
        if not said:
            return
        wrong = kind in ("none", "cut", "restart", "refused", "down") or (kind == "send" and words[-1] == "dead")
        strong = line.place and kind in ("opened", "up")
        faint = not line.place and kind in ("open", "close", "waits", "ended", "tick")
        name = "wrong-label" if wrong else "strong" if strong else "faint" if faint else "label"
        y, anchor = top(line.row) + 13, "end" if line.turned else "start"
        if kind == "wire":
            verdict = words[4]
            if verdict == "repeat":
                self.words("label", "middle", self.along(line, 78), y, said)
            else:
                self.words("wrong-label" if verdict == "lose" else "label", anchor,
                           self.along(line, 84 if verdict.startswith("swap") else 88), y, said)
        elif kind == "tick":
            self.words("faint", anchor, self.along(line, 40), y, said)
        elif line.place and kind in ("up", "down", "met", "gone"):
            self.words(name, anchor, line.x + (6 if line.turned else 26), y, said)
        else:
            self.words(name, "start", line.x + 62, y, said)


UNITS = (" packet", " packets"), (" lost", " lost"), (" tick", " ticks")


def tally(lines):
    """How many packets, losses and ticks lines are."""
    ticks = sum(line.kind == "tick" for line in lines)
    return len(lines) - ticks, sum(line.words[-1] == "lose" for line in lines), ticks


def counted(numbers, units):
    """Numbers with their units, but for those that are 0."""
    return " ".join(f"{n}{unit[n != 1]}" for n, unit in zip(numbers, units) if n)


def said(line):
    """The words of the row that begins with a line."""
    if len(line.run) == 1:
        return line.text
    return f"to {line.run[-1].step}: {counted(tally(line.run), UNITS)}"


def brief(word):
    """A word; of a digest how many bytes it stands for."""
    before, colon, behind = word.partition(":")
    return f"[{before}B]" if colon and len(behind) == 64 else word


def style():
    """The style sheet, of the looks in svg_text."""
    text = (ROOT / "crates/svg_text/src/looks.rt").read_text()
    literal = lambda part: re.sub(r"\\\n\s*", "", "".join(re.findall(r'b"((?:[^"\\]|\\.|\\\n)*)"', part, re.S))).replace("\\n", "\n")
    parts = {name: text.split(f"fn {name}(")[1].split("\n}\n")[0] for name in
             ("light_ground", "dark_ground", "name", "light", "dark")}
    rows = {name: dict(re.findall(r'Class::(\w+) => b"([^"]*)"', parts[name])) for name in ("name", "light", "dark")}
    rules = lambda looks: "".join(f".{rows['name'][c]}{{{rows[looks][c]}}}\n" for c in rows["name"])
    return literal(parts["light_ground"]) + rules("light") + literal(parts["dark_ground"]) + rules("dark") + "}\n"


def drawing(text, words):
    """The drawing of a text that the words ask for."""
    asked = {"plain": False, "fold": False}
    rest = list(words)
    while rest:
        word = rest.pop(0)
        if word == "steps":
            asked["window"], rest = tuple(map(int, rest[:2])), rest[2:]
        elif word == "of":
            asked["makers"] = rest.pop(0).split(",")
        else:
            asked[word] = True
    return Drawing(Run(text), **asked)


def main(words):
    """Draws what the words ask for."""
    sys.stdout.write(drawing(sys.stdin.read(), words).whole())


if __name__ == "__main__":
    main(sys.argv[1:])
