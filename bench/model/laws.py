"""The laws of LINX on a printed text: whether it is that of a legal run of a script.

Each law and each part of a history is written from the definition of its name, which
docs/audit/definitions.md lists: those in crates/journal/specs, crates/link_laws/specs/Laws.antt
and crates/journal_check/specs/Faults.antt; those of links stand in link_laws.py. The text is read by docs/use/text.md, and of long data
stands what the words `stand_in`, `shown_of` and `told_of` say. A value is the word that spells it,
but for data. Nothing is known here of how the program does it.
"""
import collections
import functools
import hashlib
from typing import NamedTuple

import link_laws
from link_laws import node_of, over_link
from texts import Reader, Step, steps_of

DATA_LIMIT, SHOWN_MOST, NOTED_LIMIT = 65_532, 32, 268_435_456
REASONS = ("closed", "lost", "dead")
RULES = {
    "makers": "an actor makes steps until it ends, and a pump those of its own link",
    "endpoints": "who opens an endpoint has none, and the steps of an endpoint need one",
    "bounds": "a signal has at most 65532 data bytes, and that of an attach one fewer",
    "effects": "the effects are exactly those that the step has, in order",
    "sends": "a signal is answered dead exactly where its peer is not alive",
    "receives": "a receive takes the earliest item that its filter selects, or finds none at rest",
    "links": "the link is one that there is",
    "rest": "a receive finds none only where every link is still",
    "packets": "a packet brings one thing, with exactly its effects, and only what may come",
    "cuts": "while a link is cut, its packets are lost",
    "ticks": "a tick does nothing, or ends a session whose side heard nothing for two ticks",
}
OF_ENDPOINT = ("close", "send", "take", "none", "waits", "hunt", "attach", "detach")
OF_LINK = ("cut", "mend", "settle", "wire", "tick")
SIGNAL_AT = {"send": 2, "hunt": 2, "attach": 2, "arrived": 3, "found": 3, "notified": 3}


class Shape(NamedTuple):
    """What a run is laid out on: the names of its nodes, the number of each actor's node, and its
    links."""

    nodes: list
    actors: list
    links: list = []

    def link(self, name):
        """A link by its name."""
        return next(link for link in self.links if link.name == name)


def shape_of(script):
    """The shape of a parsed script."""
    def number(node):
        return str(script.nodes.index(node) + 1)
    return Shape(script.nodes, [number(actor.node) for actor in script.actors],
                 [link_laws.Link(link.name, *map(number, link.nodes)) for link in script.links])


class Verdict(NamedTuple):
    """What is said of a text: a kind, the line or the step that it is about, a law, and where the
    item stood that a receive was to take."""

    kind: str
    at: int
    law: str = ""
    earliest: str = ""


# Signals, and what is read of their data.

class Note(NamedTuple):
    """A signal: its number, and what is read of its data."""

    number: str
    data: bytes

    def with_reason(self, reason):
        """The signal with the byte of a reason behind its data."""
        return Note(self.number, self.data + bytes([REASONS.index(reason)]))

    def size(self):
        """How many bytes are noted for it."""
        return 4 + len(self.data)


def stand_in(digest, size):
    """What stands for so many bytes with this digest."""
    return digest.ljust(size, b"\xff")


def shown_of(data):
    """What is read where these data are printed."""
    if len(data) <= SHOWN_MOST:
        return data
    return stand_in(hashlib.sha256(data).digest(), len(data))


@functools.lru_cache(4096)
def data_in(word):
    """The data that a word spells, or what stands for them."""
    if word == "-":
        return b""
    size, mark, digest = word.partition(":")
    return stand_in(bytes.fromhex(digest), int(size)) if mark else bytes.fromhex(word)


def valued(words):
    """The words of a head or an effect, with the signal in place of its number and its data."""
    at = SIGNAL_AT.get(words[0])
    if at is None:
        return tuple(words)
    return (*words[:at], Note(words[at], data_in(words[at + 1])), *words[at + 2:])


def can_tell(reason, attach, note):
    """Whether a signal can be the notification of an attach, as far as is known of their data."""
    return len(note.data) == len(attach.data) + 1 and (
        len(attach.data) > SHOWN_MOST or note.data == shown_of(attach.with_reason(reason).data))


def told_effect(effect, attaches):
    """An effect with what its attach tells of it, of the attaches up to its step."""
    if effect[0] != "notified" or effect[4] not in attaches:
        return effect
    kind, inc, peer, note, reference, reason = effect
    attach = attaches[reference]
    if can_tell(reason, attach, note):
        note = Note(note.number, attach.with_reason(reason).data)
    return kind, inc, peer, note, reference, reason


def told_of(steps):
    """The steps of a text with their values, and with what the attaches tell of notifications."""
    attaches = {}
    for position, (maker, words, effects) in enumerate(steps, 1):
        head = valued(words)
        if head[0] == "attach":
            attaches[f"@{position}"] = head[2]
        yield Step(maker, head, [told_effect(valued(effect), attaches) for effect in effects])


# A history.

class Item(NamedTuple):
    """What is queued: the signal's number, where it was put there, and what it is a notice of."""

    number: str
    position: str
    notice_of: str


class Hunt(NamedTuple):
    """A pending hunt."""

    at: str
    path: str
    note: Note
    number: str


class Attach(NamedTuple):
    """An attach that is owed a notification."""

    at: str
    peer: str
    note: Note
    reference: str


def incs_in(kind, effects):
    """The incarnations of the effects of a kind: opened or closed."""
    return [effect[1] for effect in effects if effect[0] == kind]


def selects(selected, number):
    """Whether a filter selects a number."""
    kind, _, listed = selected.partition(":")
    return kind == "any" or (number in listed.split(",")) == (kind == "only")


class History:
    """What the steps so far leave on a shape, each of which was legal."""

    def __init__(self, shape):
        self.of_links = link_laws.LinkHistory(shape.links, shape.nodes)
        self.count = 0
        self.endpoints, self.waits, self.ended = {}, {}, set()
        self.open, self.opened, self.names = [], collections.Counter(), {}
        self.hunts, self.attaches = [], []
        self.queues = collections.defaultdict(list)

    def add(self, step):
        """A step more."""
        self.count += 1
        me = self.endpoints.get(step.maker)
        self.of_links.add(me, step)
        self.add_to_queues(me, step)
        self.add_to_pending(me, step)
        opened, closed = incs_in("opened", step.effects), incs_in("closed", step.effects)
        for inc in opened:
            self.endpoints[step.maker] = inc
            self.names[inc] = step.head[1]
        self.endpoints = {k: inc for k, inc in self.endpoints.items() if inc not in closed}
        self.open = [inc for inc in self.open + opened if inc not in closed]
        self.opened.update(map(node_of, opened))
        self.waits[step.maker] = step.head[1] if step.head[0] == "waits" else None
        if step.head[0] == "ended":
            self.ended.add(step.maker)

    def add_to_queues(self, me, step):
        """Queues: what the step took out, and what its effects put in."""
        if me is not None:
            self.queues[me] = [item for item in self.queues[me] if not removes(step.head, item)]
        for inc in incs_in("opened", step.effects):
            self.queues[inc] = []
        for place, effect in enumerate(step.effects, 1):
            if effect[0] in ("arrived", "found", "notified"):
                notice_of = effect[4] if effect[0] == "notified" else None
                item = Item(effect[3].number, f"{self.count}.{place}", notice_of)
                self.queues[effect[1]].append(item)

    def add_to_pending(self, me, step):
        """Hunts and attaches: what the step began, without those that it settled."""
        mark, head = f"@{self.count}", step.head
        if head[0] == "hunt":
            self.hunts.append(Hunt(me, head[1], head[2], mark))
        elif head[0] == "attach":
            self.attaches.append(Attach(me, head[1], head[2], mark))
        closed = incs_in("closed", step.effects)
        found = [(effect[1], effect[4]) for effect in step.effects if effect[0] == "found"]
        told = [(effect[1], effect[4]) for effect in step.effects if effect[0] == "notified"]
        if head[0] == "detach" and head[2] == "pending":
            told.append((me, head[1]))
        self.hunts = [hunt for hunt in self.hunts
                      if (hunt.at, hunt.number) not in found and hunt.at not in closed]
        self.attaches = [attach for attach in self.attaches
                         if (attach.at, attach.reference) not in told and attach.at not in closed]

    def open_endpoints(self, node):
        """The open endpoints of a node, in order of opening."""
        return [inc for inc in self.open if node_of(inc) == node]

    def hunting(self, node):
        """The pending hunts of a node, in order of hunting."""
        return [hunt for hunt in self.hunts if node_of(hunt.at) == node]

    def owed(self, node):
        """The attaches of a node that are owed a notification, in order of attaching."""
        return [attach for attach in self.attaches if node_of(attach.at) == node]

    def is_alive(self, node, peer):
        """Whether a peer is an open endpoint of a node, or one over a link that it met and that
        lives."""
        if over_link(peer):
            return self.of_links.is_living(node, peer)
        return peer in self.open_endpoints(node)

    def find(self, node, path):
        """The first opened endpoint of a node that has this name and is open, or the first peer of
        the name that it met over the link and that lives, or None."""
        link, mark, name = path.rpartition("/")
        if mark:
            return self.of_links.first_named(node, link, name)
        return next((inc for inc in self.open_endpoints(node) if self.names[inc] == path), None)

    def founds(self, path, peer, node):
        """What a found peer brings to the hunts of a node for its path."""
        return founds(path, peer, self.hunting(node))

    @staticmethod
    def notice(reason, attach):
        """The notification of an attach."""
        return notice(reason, attach)

    def first_selected(self, selected, me):
        """The first item that a filter selects at an endpoint, or None."""
        return next((item for item in self.queues[me] if selects(selected, item.number)), None)

    def is_idle(self, maker):
        """Whether the last step of an actor waits, and in vain."""
        selected, me = self.waits.get(maker), self.endpoints.get(maker)
        return None not in (selected, me) and self.first_selected(selected, me) is None

    def is_at_rest(self, shape, maker):
        """Whether each other actor has ended, or is idle and has a greater number."""
        mine = int(maker[1:])
        return all(f"A{other}" in self.ended or (mine < other and self.is_idle(f"A{other}"))
                   for other in range(1, len(shape.actors) + 1) if other != mine)


def removes(head, item):
    """Whether a head takes an item out of its maker's queue."""
    if head[0] == "take":
        return head[2] == item.position
    return head[0] == "detach" and head[2] == "queued" and head[1] == item.notice_of


# The effects of a step.

def founds(path, peer, hunts):
    """What a found peer brings to the hunts for its path."""
    return [("found", hunt.at, peer, hunt.note, hunt.number) for hunt in hunts if hunt.path == path]


def notice(reason, attach):
    """The notification of an attach."""
    note = attach.note.with_reason(reason)
    return "notified", attach.at, attach.peer, note, attach.reference, reason


def effects_by(history, node, me, head):
    """The effects of a step, by the node and the endpoint of its maker, and its head."""
    mark = f"@{history.count + 1}"
    if head[0] == "open":
        inc = f"{node}.{history.opened[node] + 1}"
        return [("opened", inc), *founds(head[1], inc, history.hunting(node))]
    if head[0] in ("close", "ended") and me is not None:
        return [("closed", me), *(notice("closed", attach) for attach in history.owed(node)
                                  if attach.peer == me and attach.at != me)]
    if head[0] == "send" and not over_link(head[1]) and history.is_alive(node, head[1]):
        return [("arrived", head[1], me, head[2])]
    if head[0] == "hunt":
        peer = history.find(node, head[1])
        return [] if peer is None else [("found", me, peer, head[2], mark)]
    if head[0] == "attach" and not history.is_alive(node, head[1]):
        return [notice("dead", Attach(me, head[1], head[2], mark))]
    return []


# The laws.

class Judged:
    """A step behind a history. Each method says whether it keeps the law of its name, where it
    keeps those before it."""

    def __init__(self, shape, history, step):
        self.shape, self.history = shape, history
        self.maker, self.head, self.effects_noted = step
        self.me = history.endpoints.get(step.maker)

    def node(self):
        """The number of the maker's node."""
        return self.shape.actors[int(self.maker[1:]) - 1]

    def makers(self):
        """It is made by an actor of the script that hasn't ended, or by the pump of a link, which
        makes only packets and ticks of that one."""
        kind, number = self.maker[0], int(self.maker[1:])
        if kind == "P":
            return 1 <= number <= len(self.shape.links) and self.head[0] in ("wire", "tick") and (
                self.head[1] == self.shape.links[number - 1].name)
        return 1 <= number <= len(self.shape.actors) and self.maker not in self.history.ended

    def endpoints(self):
        """Who opens an endpoint has none, and the steps of an endpoint need one."""
        if self.head[0] == "open":
            return self.me is None
        return self.me is not None or self.head[0] not in OF_ENDPOINT

    def bounds(self):
        """A signal has no more data than it may; that a name is one, each text says."""
        if self.head[0] == "attach":
            return len(self.head[2].data) < DATA_LIMIT
        return self.head[0] not in ("send", "hunt") or len(self.head[2].data) <= DATA_LIMIT

    def effects(self):
        """The effects are exactly those of the step."""
        if self.head[0] in ("wire", "tick"):
            return True
        if self.head[0] == "restart":
            node = str(self.shape.nodes.index(self.head[1]) + 1)
            wanted = [*self.history.of_links.downs_of(node),
                      *(("closed", inc) for inc in self.history.open_endpoints(node))]
        else:
            wanted = effects_by(self.history, self.node(), self.me, self.head)
        return self.effects_noted == wanted

    def sends(self):
        """A signal is answered by whether its peer is alive."""
        if self.head[0] != "send":
            return True
        answer = "link" if over_link(self.head[1]) else "queued"
        return self.head[3] == (
            answer if self.history.is_alive(self.node(), self.head[1]) else "dead")

    def receives(self):
        """A receive takes the earliest item, or finds none at rest, or waits; and a detach is
        answered by what is owed and what is queued."""
        kind = self.head[0]
        if kind == "detach":
            return self.head[2] == self.detached_as()
        if kind == "take":
            return self.earliest() == self.head[2]
        if kind == "none":
            return not self.earliest() and self.history.is_at_rest(self.shape, self.maker)
        if kind == "waits":
            return not self.earliest() and self.history.waits.get(self.maker) is None
        return True

    def earliest(self):
        """The position of the earliest item that a receive selects; nothing where there is none."""
        if self.head[0] not in ("take", "none", "waits"):
            return ""
        item = self.history.first_selected(self.head[1], self.me)
        return item.position if item else ""

    def detached_as(self):
        """The answer to a detach."""
        if any((attach.at, attach.reference) == (self.me, self.head[1])
               for attach in self.history.owed(self.node())):
            return "pending"
        queued = self.history.queues[self.me]
        return "queued" if any(item.notice_of == self.head[1] for item in queued) else "none"

    def links(self):
        """What is said of a link is said of one that there is."""
        return self.head[0] not in OF_LINK or (
            self.head[1] in [link.name for link in self.shape.links])

    def rest(self):
        """A receive finds none only where every link is still."""
        return self.head[0] != "none" or all(
            link_laws.is_still(self.history, link) for link in self.shape.links)

    def packets(self):
        """A packet that is handed over brings one thing, and one that isn't brings nothing."""
        if self.head[0] != "wire":
            return True
        _, name, direction, verdict = self.head
        return link_laws.keeps_packets(self.history, self.shape.link(name), direction, verdict,
                                       self.effects_noted)

    def cuts(self):
        """While a link is cut, its packets are lost."""
        return self.head[0] != "wire" or self.head[3] == "lose" or (
            self.head[1] not in self.history.of_links.cut)

    def ticks(self):
        """A tick does nothing, or ends a session whose side heard nothing for two ticks."""
        if self.head[0] != "tick":
            return True
        return link_laws.keeps_ticks(self.history, self.shape.link(self.head[1]), self.head[2],
                                     self.effects_noted)


def first_fault(shape, steps):
    """The first step that isn't legal, with the first law that it breaks, or None."""
    history = History(shape)
    for step in told_of(steps):
        judged = Judged(shape, history, step)
        for law in RULES:
            if not getattr(judged, law)():
                wanted = judged.earliest() if law == "receives" else ""
                return Verdict("illegal", history.count + 1, law, wanted)
        history.add(step)
    return None


# The logs.

def item_words(steps, position):
    """The sender and the content of the item at a position."""
    step, place = map(int, position.split("."))
    if 1 <= step <= len(steps) and 1 <= place <= len(steps[step - 1].effects):
        effect = steps[step - 1].effects[place - 1]
        if effect[0] in ("arrived", "found", "notified"):
            return effect[2:5]
    return ["?"]


def head_log(steps, head):
    """The line of a head in the log of its maker's endpoint, or None."""
    kind = head[0]
    words = {"send": ["sent", *head[1:]], "none": ["none"], "hunt": head, "attach": head,
             "detach": ["detach", head[-1]]}.get(kind)
    if kind == "take":
        words = ["took", *item_words(steps, head[2])]
    return words and " ".join(words)


def effect_log(effect):
    """The line of an effect in the log of the incarnation that it reaches."""
    kind = effect[0]
    words = {"closed": ["closed"], "arrived": [kind, *effect[2:]], "found": [kind, *effect[2:5]],
             "notified": [kind, *effect[2:5], effect[-1]]}[kind]
    return " ".join(words)


def logs_of(nodes, steps):
    """The logs of steps, as lines."""
    logs, last, closed, titles = collections.defaultdict(list), {}, set(), {}
    order = []
    for maker, head, effects in steps:
        mine = last.get(maker)
        if mine is not None and mine not in closed and head_log(steps, head):
            logs[mine].append(head_log(steps, head))
        for effect in effects:
            if effect[0] == "opened":
                order.append(effect[1])
                titles[effect[1]] = head[1] if head[0] == "open" else "?"
                if maker[0] == "A":
                    last[maker] = effect[1]
            elif effect[0] in ("closed", "arrived", "found", "notified"):
                logs[effect[1]].append(effect_log(effect))
        closed.update(incs_in("closed", effects))
    named = {str(number): name for number, name in enumerate(nodes, 1)}
    return [line for inc in order for line in (
        f"log {inc} {titles[inc]} {named.get(node_of(inc), '?')}", *logs[inc])]


def first_other(nodes, steps, text):
    """The first line of a text that isn't as the logs of these steps, or None."""
    if not steps:
        return None
    wanted = "".join(line + "\n" for line in logs_of(nodes, steps)) + "journal "
    if text.startswith(wanted):
        return None
    alike = next((at for at, (byte, other) in enumerate(zip(text, wanted)) if byte != other),
                 min(len(text), len(wanted)))
    return text.count("\n", 0, alike) + 1


# A text.

def first_full(text):
    """The first line with which a text tells more signals than may be read, or None."""
    lines, noted, begun = text.split("\n")[:-1], 0, False
    for number, line in enumerate(lines, 1):
        words = line.split(" ")
        if begun:
            words = words[1:] if words[0] == "+" else words[2:]
            noted += sum(word.size() for word in valued(words) if isinstance(word, Note))
            if noted > NOTED_LIMIT:
                return number
        begun = begun or line.startswith("journal ")
    return None


def verdict(shape, text):
    """What is said of a text behind a script of this shape."""
    bad = Reader(shape.nodes, [link.name for link in shape.links]).first_bad(text)
    good = "".join(line + "\n" for line in text.split("\n")[:bad - 1]) if bad else text
    full = first_full(good)
    if full or bad:
        return Verdict("full", full) if full else Verdict("unread", bad)
    steps = steps_of(text)
    fault = first_fault(shape, steps)
    if fault:
        return fault
    other = first_other(shape.nodes, steps, text)
    return Verdict("log", other) if other else Verdict("legal", len(steps))


def steps_text(steps):
    """The count and the lines of steps."""
    lines = [f"journal {len(steps)}"]
    for position, (maker, head, effects) in enumerate(steps, 1):
        lines.append(" ".join([str(position), maker, *head]))
        lines += [" ".join(["+", *effect]) for effect in effects]
    return "".join(line + "\n" for line in lines)


def text_of(nodes, steps):
    """The text of steps."""
    if not steps:
        return ""
    return "".join(line + "\n" for line in logs_of(nodes, steps)) + steps_text(steps)
