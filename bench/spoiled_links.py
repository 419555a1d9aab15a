"""Spoils the steps of printed texts of runs over links by what the laws of links ask.

The kinds are those of spoiled_steps.py.
"""

import link_laws
from spoiled_calls import printed
from spoiled_steps import copied, effect_places, history_before, kind, places, with_step
from texts import Step

LINK_EFFECTS = ("up", "down", "met", "gone", "arrived")


def any_link(chance, run):
    """A link of the run with its pump, or None."""
    if not run.shape.links:
        return None
    place = chance.randrange(len(run.shape.links))
    return run.shape.links[place], f"P{place + 1}"


def step_more(name, why, steps_at):
    """A kind in which a step of a link stands at some place, of those that a function of the history,
    the link and a direction gives."""
    @kind(name, why)
    def spoil(chance, run):
        found = any_link(chance, run)
        if found is None:
            return None
        at, (link, pump) = chance.randrange(len(run.steps) + 1), found
        history = history_before(run, at)
        steps = [step for direction in "><"
                 for step in steps_at(run.shape, history, link, direction)]
        if not steps:
            return None
        head, effects = chance.choice(steps)
        return with_step(run, at, Step(pump, head, [printed(effect) for effect in effects]))


def wire(link, direction, verdict="deliver"):
    """The head of a packet."""
    return ["wire", link.name, direction, verdict]


def losses(history, link, direction):
    """The node at the end of a direction, and the effects of losing its session there."""
    node = link.to(direction)[0]
    session = history.of_links.up.get((node, link.name))
    return [] if session is None else [
        link_laws.losing(link_laws.Ends(history, node, "", link.name), session)]


step_more("a packet more that brings nothing", "a packet may bring nothing, and its link isn't cut",
          lambda shape, history, link, direction: [(wire(link, direction), [])])
step_more("a packet more that is lost", "a packet may be lost",
          lambda shape, history, link, direction: [(wire(link, direction, "lose"), [])])
step_more("a packet more that ends the session", "the other side has a greater session",
          lambda shape, history, link, direction: [
              (wire(link, direction), effects) for effects in losses(history, link, direction)])
step_more("a packet more that ends the session is lost", None,
          lambda shape, history, link, direction: [
              (wire(link, direction, "lose"), effects)
              for effects in losses(history, link, direction)])
step_more("a tick more that ends no session", "a tick may do nothing",
          lambda shape, history, link, direction: [(["tick", link.name, direction], [])])
step_more("a tick more that ends the session", "its side heard nothing for two ticks",
          lambda shape, history, link, direction: [
              (["tick", link.name, direction], effects)
              for effects in losses(history, link, "<" if direction == ">" else ">")])


def ups(history, link, direction, session, other):
    """A packet with which a side goes up in this session, with that one."""
    node = history.of_links.names(link.to(direction)[0])
    return [(wire(link, direction), [("up", node, link.name, session, other)])]


step_more("a side goes up with what the other one has", "it is down, and the packet isn't lost",
          lambda shape, history, link, direction: ups(
              history, link, direction,
              history.of_links.own_session(link.to(direction)[0], link.name),
              history.of_links.own_session(link.to(direction)[1], link.name)))
step_more("a side goes up with what the other one hasn't", None,
          lambda shape, history, link, direction: ups(
              history, link, direction,
              history.of_links.own_session(link.to(direction)[0], link.name), "9.9"))
step_more("a side goes up in a session that isn't its own", None,
          lambda shape, history, link, direction: ups(
              history, link, direction, "7.7",
              history.of_links.own_session(link.to(direction)[1], link.name)))


def meetings(history, link, direction):
    """Packets with which a node meets an incarnation of the other one."""
    here, there = link.to(direction)
    session = history.of_links.up.get((here, link.name), "1.1")
    for inc in history.of_links.opened:
        peer = link_laws.Peer(link.name, session, inc).word()
        name = history.names[inc]
        founds = history.founds(f"{link.name}/{name}", peer, here)
        yield wire(link, direction), [("met", history.of_links.names(here), peer, name), *founds]


def partings(history, link, direction):
    """Packets with which a node parts from a peer that lives."""
    here, _ = link.to(direction)
    for peer, _ in history.of_links.living[here]:
        told = [history.notice("closed", attach) for attach in history.owed(here)
                if attach.peer == peer.word()]
        yield wire(link, direction), [("gone", history.of_links.names(here), peer.word()), *told]


def arrivals(history, link, direction, behind):
    """Packets with which a signal arrives so many behind the next one."""
    here, there = link.to(direction)
    for (sender, word), notes in history.of_links.sent.items():
        to = link_laws.over_link(word)
        session = history.of_links.up.get((here, link.name))
        if to.link != link.name or link_laws.node_of(sender) != there or session is None:
            continue
        peer = link_laws.Peer(link.name, session, sender).word()
        place = len(history.of_links.arrived[to.inc, peer]) + behind
        if 0 <= place < len(notes):
            yield wire(link, direction), [("arrived", to.inc, peer, notes[place])]


step_more("a peer is met more", "it is open, its name is this one, and it wasn't met in the session",
          lambda shape, history, link, direction: meetings(history, link, direction))
step_more("a peer is gone more", "it is closed, and all that it sent has come",
          lambda shape, history, link, direction: partings(history, link, direction))
step_more("a signal arrives earlier", "it is the next one, and no step behind is another by it",
          lambda shape, history, link, direction: arrivals(history, link, direction, 0))
step_more("the signal behind the next one arrives", "it is like the next one",
          lambda shape, history, link, direction: arrivals(history, link, direction, 1))
step_more("a signal arrives twice", "the next one is like it",
          lambda shape, history, link, direction: arrivals(history, link, direction, -1))


@kind("what a packet brings is lost with it", "no step behind leans on what it brought")
def packet_lost(chance, run):
    """A packet that is handed over is lost."""
    found = [at for at in places(run, "wire") if run.steps[at].effects]
    if not found:
        return None
    steps, at = copied(run.steps), chance.choice(found)
    steps[at].head[3] = chance.choice(["lose", "swap1"])
    steps[at].effects.clear()
    return steps


@kind("what a packet brings is gone", "no step behind leans on what it brought")
def packet_brings_nothing(chance, run):
    """A packet that is handed over brings nothing."""
    found = [at for at in places(run, "wire") if run.steps[at].effects]
    if not found:
        return None
    steps, at = copied(run.steps), chance.choice(found)
    steps[at].effects.clear()
    return steps


@kind("a packet brings what another one does, too")
def packet_brings_two(chance, run):
    """Two things in one packet."""
    found = [(at, place) for word in LINK_EFFECTS for at, place in effect_places(run, word)
             if run.steps[at].head[0] == "wire"]
    if len(found) < 2:
        return None
    steps, (one, _), (other, place) = copied(run.steps), *chance.sample(found, 2)
    if one == other:
        return None
    steps[one].effects.append(list(run.steps[other].effects[place]))
    return steps


@kind("a tick hears", None)
def tick_brings(chance, run):
    """A tick with the effects of a packet."""
    ticks, found = places(run, "tick"), [at for at in places(run, "wire") if run.steps[at].effects]
    if not ticks or not found:
        return None
    steps = copied(run.steps)
    effects = steps[chance.choice(found)].effects
    steps[chance.choice(ticks)].effects[:] = [list(effect) for effect in effects]
    return steps


@kind("an actor makes the step of a pump", "an actor may make any step")
def pumped_by_actor(chance, run):
    """A packet or a tick of an actor that goes on."""
    found = places(run, "wire") + places(run, "tick")
    if not found:
        return None
    steps, at = copied(run.steps), chance.choice(found)
    maker = f"A{chance.randrange(1, len(run.shape.actors) + 1)}" if run.shape.actors else "A1"
    steps[at] = steps[at]._replace(maker=maker)
    return steps


@kind("a pump makes an actor's step")
def made_by_pump(chance, run):
    """A step off the links by a pump."""
    found = [at for at, step in enumerate(run.steps) if step.maker[0] == "A"]
    if not found or not run.shape.links:
        return None
    steps, at = copied(run.steps), chance.choice(found)
    steps[at] = steps[at]._replace(maker=f"P{chance.randrange(1, len(run.shape.links) + 1)}")
    return steps


@kind("a cut more", "no packet of the link comes before it is mended")
def cut_more(chance, run):
    """A link is cut at some place."""
    found = any_link(chance, run)
    if found is None or not run.shape.actors:
        return None
    at = chance.randrange(len(run.steps) + 1)
    maker = f"A{chance.randrange(1, len(run.shape.actors) + 1)}"
    return with_step(run, at, Step(maker, ["cut", found[0].name], []))


@kind("a restart more", "nothing is open or up on the node")
def restart_more(chance, run):
    """A node is restarted at some place, with its effects."""
    if not run.shape.actors:
        return None
    at = chance.randrange(len(run.steps) + 1)
    history, node = history_before(run, at), chance.choice(run.shape.nodes)
    number = str(run.shape.nodes.index(node) + 1)
    effects = [*history.of_links.downs_of(number),
               *(("closed", inc) for inc in history.open_endpoints(number))]
    maker = f"A{chance.randrange(1, len(run.shape.actors) + 1)}"
    return with_step(run, at, Step(maker, ["restart", node], [list(effect) for effect in effects]))


@kind("the ends of a restart in another order")
def restart_exchanged(chance, run):
    """What a restart ends, otherwise."""
    found = [at for at in places(run, "restart") if len(run.steps[at].effects) > 1]
    if not found:
        return None
    steps, at = copied(run.steps), chance.choice(found)
    chance.shuffle(steps[at].effects)
    return steps
