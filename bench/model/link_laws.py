"""The laws of links on the steps of a run: what a packet may bring, which session a tick may end,
when a link is still, and what a restart ends.

Each law and each part of a history is written from the definition of its name, which
docs/audit/definitions.md lists: those in crates/journal/specs (Effects, Living, Sessions, Traffic)
and in crates/link_laws/specs (Brought, Laws, Sessions, Still). A node is a number and a link a
name; a peer over a link is the word that spells it. Nothing is known here of how the program does
it.
"""
import collections
from typing import NamedTuple


class Link(NamedTuple):
    """A link: its name, and the numbers of the nodes at its two sides."""

    name: str
    first: str
    second: str

    def to(self, direction):
        """The nodes that a packet in a direction comes to and from."""
        return (self.second, self.first) if direction == ">" else (self.first, self.second)

    def side(self, direction):
        """The node that ticks at the side of a direction."""
        return self.first if direction == ">" else self.second


class Peer(NamedTuple):
    """A peer over a link: the link, the session of the own node, and the incarnation."""

    link: str
    session: str
    inc: str

    def word(self):
        """What spells it."""
        return ":".join(self)


def over_link(word):
    """The peer that a word spells, or None where it is one of the own node."""
    return Peer(*word.split(":")) if ":" in word else None


def node_of(inc):
    """The node that an incarnation was opened on."""
    return inc.partition(".")[0]


def number(session):
    """A session as a number that rises."""
    boot, count = map(int, session.split("."))
    return boot * 2**32 + count


class LinkHistory:
    """What the steps so far leave of the links, each of which was legal."""

    def __init__(self, links, nodes):
        self.links = {link.name: link for link in links}
        self.numbers = {name: str(place) for place, name in enumerate(nodes, 1)}
        self.up, self.pairs = {}, {}
        self.boots, self.downs = collections.Counter(), collections.Counter()
        self.had, self.silent, self.cut = collections.defaultdict(set), collections.Counter(), set()
        self.living, self.met = collections.defaultdict(list), set()
        self.opened, self.closed = set(), set()
        self.sent = collections.defaultdict(list)
        self.arrived = collections.defaultdict(list)
        for link in links:
            for node in link[1:]:
                self.note_session(node, link.name)

    def own_session(self, node, link):
        """The session that a node's side of a link has, up or not."""
        return f"{1 + self.boots[node]}.{1 + self.downs[node, link]}"

    def note_session(self, node, link):
        """The side has this session now, and had it from now on."""
        self.had[node, link].add(self.own_session(node, link))

    def add(self, me, step):
        """A step more, of a maker with this endpoint."""
        head = step.head
        if head[0] == "send" and head[3] != "dead" and me is not None and over_link(head[1]):
            self.sent[me, head[1]].append(head[2])
        if head[0] == "cut":
            self.cut.add(head[1])
        if head[0] == "mend":
            self.cut.discard(head[1])
        self.add_silence(step)
        for effect in step.effects:
            self.add_effect(effect)
        self.add_downs(step)

    def add_silence(self, step):
        """The ticks of a side since the history tells that it heard."""
        heard = set(filter(None, map(self.heard_in, step.effects)))
        for link in self.links.values():
            for node, direction in ((link.first, ">"), (link.second, "<")):
                if (node, link.name) in heard:
                    self.silent[node, link.name, direction] = 0
                elif step.head == ("tick", link.name, direction):
                    self.silent[node, link.name, direction] += 1

    def heard_in(self, effect):
        """The node and the link of which an effect tells that the side heard, or None."""
        if effect[0] == "up":
            return self.numbers[effect[1]], effect[2]
        if effect[0] in ("met", "gone") and over_link(effect[2]):
            return self.numbers[effect[1]], over_link(effect[2]).link
        if effect[0] == "arrived" and over_link(effect[2]):
            return node_of(effect[1]), over_link(effect[2]).link
        return None

    def add_effect(self, effect):
        """What an effect changes, but for how often a side went down."""
        kind = effect[0]
        if kind in ("opened", "closed"):
            (self.opened if kind == "opened" else self.closed).add(effect[1])
        elif kind == "arrived" and over_link(effect[2]):
            self.arrived[effect[1], effect[2]].append(effect[3])
        elif kind == "up":
            node = self.numbers[effect[1]]
            self.up[node, effect[2]] = effect[3]
            self.pairs[node, effect[2], effect[3]] = effect[4]
        elif kind == "down":
            node = self.numbers[effect[1]]
            self.up.pop((node, effect[2]), None)
            self.living[node] = [met for met in self.living[node]
                                 if met[0][:2] != (effect[2], effect[3])]
        elif kind == "met" and over_link(effect[2]):
            node = self.numbers[effect[1]]
            self.living[node].append((over_link(effect[2]), effect[3]))
            self.met.add((node, effect[2]))
        elif kind == "gone":
            node = self.numbers[effect[1]]
            self.living[node] = [met for met in self.living[node] if met[0].word() != effect[2]]

    def add_downs(self, step):
        """How often a side went down since the last restart of its node, and its sessions."""
        ended = {(self.numbers[effect[1]], effect[2]) for effect in step.effects
                 if effect[0] == "down"}
        restarted = self.numbers[step.head[1]] if step.head[0] == "restart" else None
        if restarted:
            self.boots[restarted] += 1
        for link in self.links.values():
            for node in link[1:]:
                if node == restarted:
                    self.downs[node, link.name] = 0
                elif (node, link.name) in ended:
                    self.downs[node, link.name] += 1
                self.note_session(node, link.name)

    def is_living(self, node, word):
        """Whether a peer over a link was met by a node and lives."""
        return any(peer.word() == word for peer, _ in self.living[node])

    def first_named(self, node, link, name):
        """The first met peer of a name over a link that lives, or None."""
        return next((peer.word() for peer, named in self.living[node]
                     if peer.link == link and named == name), None)

    def names(self, number_word):
        """The name of a node."""
        return next(name for name, word in self.numbers.items() if word == number_word)

    def downs_of(self, node):
        """The ends of the sessions of a node that are up, by the numbers of the links."""
        return [("down", self.names(node), link, self.up[node, link]) for link in self.links
                if (node, link) in self.up]


class Ends(NamedTuple):
    """What the laws of packets look at: all that is so far, the names of the endpoints, the node
    that a packet comes to, the one that it comes from, and the link."""

    history: object
    here: str
    there: str
    link: str

    @property
    def so_far(self):
        """What is so far of the links."""
        return self.history.of_links

    def pair(self, session):
        """The session of the other side that a session is paired with, or None."""
        return self.so_far.pairs.get((self.here, self.link, session))

    def came(self, session, sender, receiver):
        """What arrived at an endpoint from a peer."""
        return self.so_far.arrived[receiver, Peer(self.link, session, sender).word()]

    def went(self, session, sender, receiver):
        """What an endpoint sent to a peer, in a session of the other node."""
        return self.so_far.sent[sender, Peer(self.link, session, receiver).word()]

    def is_up(self, session):
        """Whether this session is up here."""
        return self.so_far.up.get((self.here, self.link)) == session

    def is_open_there(self, inc):
        """Whether an incarnation is open on the other node."""
        return inc in self.history.open_endpoints(self.there)

    def was_opened_there(self, inc):
        """Whether the other node has opened it, closed by now or not."""
        return node_of(inc) == self.there and inc in self.so_far.opened


# What a packet brings. Each takes the ends and the first effect, and gives the effects of what it
# tells, or None where that may not come.

def goes_up(ends, effect):
    """A side that is down goes up in its own session, with one that the other side has or had."""
    _, _, _, session, other = effect
    may = (ends.here, ends.link) not in ends.so_far.up and (
        session == ends.so_far.own_session(ends.here, ends.link)
        and other in ends.so_far.had[ends.there, ends.link])
    return [("up", ends.so_far.names(ends.here), ends.link, session, other)] if may else None


def losing(ends, session):
    """The effects of losing a session."""
    lost = [attach for attach in ends.history.owed(ends.here)
            if (peer := over_link(attach.peer)) and peer[:2] == (ends.link, session)]
    return [("down", ends.so_far.names(ends.here), ends.link, session),
            *(ends.history.notice("lost", attach) for attach in lost)]


def goes_down(ends, effect):
    """A side goes down by a packet where the other side has a greater session than its pair."""
    session = effect[3]
    pair = ends.pair(session)
    may = ends.is_up(session) and pair is not None and (
        number(pair) < number(ends.so_far.own_session(ends.there, ends.link)))
    return losing(ends, session) if may else None


def arrives(ends, effect):
    """A signal arrives at an open endpoint from a living peer of the other node, as the next one
    of those that it sent."""
    _, receiver, word, note = effect
    peer = over_link(word)
    if peer is None:
        return None
    peer = peer._replace(link=ends.link)
    pair = ends.pair(peer.session)
    may = receiver in ends.history.open_endpoints(ends.here) and (
        ends.was_opened_there(peer.inc) and ends.so_far.is_living(ends.here, peer.word())
        and pair is not None)
    if not may:
        return None
    came = [*ends.came(peer.session, peer.inc, receiver), note]
    went = ends.went(pair, peer.inc, receiver)
    return [("arrived", receiver, peer.word(), note)] if came == went[:len(came)] else None


def meets(ends, effect):
    """In the session that is up a node meets a peer once, by the name that it was opened with."""
    _, _, word, name = effect
    peer = over_link(word)
    if peer is None:
        return None
    peer = peer._replace(link=ends.link)
    may = ends.is_up(peer.session) and ends.was_opened_there(peer.inc) and (
        ends.history.names[peer.inc] == name
        and (ends.here, peer.word()) not in ends.so_far.met)
    if not may:
        return None
    path = f"{ends.link}/{name}"
    return [("met", ends.so_far.names(ends.here), peer.word(), name),
            *ends.history.founds(path, peer.word(), ends.here)]


def parts(ends, effect):
    """A peer that goes was alive and is closed, and each open endpoint has all that it sent."""
    peer = over_link(effect[2])
    if peer is None:
        return None
    peer = peer._replace(link=ends.link)
    pair = ends.pair(peer.session)
    may = ends.so_far.is_living(ends.here, peer.word()) and (
        peer.inc in ends.so_far.closed and pair is not None
        and all(ends.came(peer.session, peer.inc, receiver) == ends.went(pair, peer.inc, receiver)
                for receiver in ends.history.open_endpoints(ends.here)))
    if not may:
        return None
    gone = [attach for attach in ends.history.owed(ends.here) if attach.peer == peer.word()]
    return [("gone", ends.so_far.names(ends.here), peer.word()),
            *(ends.history.notice("closed", attach) for attach in gone)]


BROUGHT = {"up": goes_up, "down": goes_down, "arrived": arrives, "met": meets, "gone": parts}


def keeps_packets(history, link, direction, verdict, effects):
    """A packet that is handed over brings one thing, with exactly its effects, which may come; one
    that isn't brings nothing."""
    if not effects:
        return True
    if verdict not in ("deliver", "repeat") or effects[0][0] not in BROUGHT:
        return False
    ends = Ends(history, *link.to(direction), link.name)
    return BROUGHT[effects[0][0]](ends, effects[0]) == effects


def keeps_ticks(history, link, direction, effects):
    """A tick does nothing, or its side was silent for two ticks or more and the session that is up
    is lost."""
    if not effects:
        return True
    node, so_far = link.side(direction), history.of_links
    session = so_far.up.get((node, link.name))
    return session is not None and so_far.silent[node, link.name, direction] >= 2 and (
        losing(Ends(history, node, "", link.name), session) == effects)


# When a link is still.

def is_still_half(ends, session, other):
    """One direction is still: this session is up here, paired with that one across; each open
    endpoint has what each one across sent to it, the living peers are open across, and no hunt is
    for a name that is open there."""
    return ends.is_up(session) and ends.pair(session) == other and (
        all(ends.came(session, sender, receiver) == ends.went(other, sender, receiver)
            for sender in ends.history.open_endpoints(ends.there)
            for receiver in ends.history.open_endpoints(ends.here))
        and all(ends.is_open_there(peer.inc) for peer, _ in ends.so_far.living[ends.here]
                if peer.link == ends.link)
        and not any(hunt.path == f"{ends.link}/{ends.history.names[inc]}"
                    for hunt in ends.history.hunting(ends.here)
                    for inc in ends.history.open_endpoints(ends.there)))


def is_still(history, link):
    """A link is cut and up at neither end, or whole, up at both with each other, and all is said
    and heard."""
    first, second = (history.of_links.up.get((node, link.name)) for node in link[1:])
    if link.name in history.of_links.cut:
        return first is None and second is None
    return None not in (first, second) and (
        is_still_half(Ends(history, link.first, link.second, link.name), first, second)
        and is_still_half(Ends(history, link.second, link.first, link.name), second, first))
