"""Spoils the steps of printed texts of runs: each field, head and effect by itself.

A kind of spoiling has a name, and, where what it makes may still be legal, the sentence that says
why. Its function is given a source of chance and a run, and gives the steps of the spoiled text,
whose logs are then told anew, or None where the run has nothing to spoil so. spoiled_calls.py has
more kinds.
"""
from typing import NamedTuple

import laws
from link_laws import Peer, over_link
from texts import Reader, Step

HEADS, EFFECTS = Reader.HEADS, Reader.EFFECTS
HEAD_WORDS = [row.split(" ")[0] for row in HEADS]
EFFECT_WORDS = [row.split(" ")[0] for row in EFFECTS]
ZEROS = "0" * 64
OTHERS = {
    "INC": ["1.9", "2.1", "9.1", "0.0", "4294967295.4294967295"],
    "PEER": ["1.9", "2.1", "9.1", "0.0", "4294967295.4294967295"],
    "NUMBER": ["0", "1", "9", "251", "252", "4294967295"],
    "DATA": ["-", "00", "02", "ff" * 32, f"33:{ZEROS}", f"34:{ZEROS}", f"65532:{ZEROS}"],
    "NAME": [*"abcd", "zz", "x" * 32],
    "PATH": [*"abcd", "zz", "x" * 32],
    "FILTER": ["any", "only:9", "not:9", "only:", "not:", "only:251", "not:251,252"],
    "POSITION": ["0.0", "1.0", "1.1", "1.2", "9.1", "999.1"],
    "@N": ["@0", "@1", "@2", "@999"],
    "NODE": [],
    "LINK": [],
    "SESSION": ["1.1", "1.2", "2.1", "0.0", "4294967295.4294967295"],
    "DIRECTION": ["<", ">"],
    "VERDICT": ["deliver", "lose", "repeat", "swap1", "swap9"],
    "SENT": ["queued", "link", "dead"],
    "DETACHED": ["pending", "queued", "none"],
    "REASON": ["closed", "lost", "dead"],
    "REFUSAL": ["not-open", "is-open", "no-peer", "no-signal", "no-ref"],
}
KINDS = []


class Run(NamedTuple):
    """A legal run: its script, the shape of that, and its steps and its text."""

    script: str
    shape: laws.Shape
    steps: list
    text: str


class Kind(NamedTuple):
    """A kind of spoiling; why what it makes may be legal still, or None where it never is."""

    name: str
    why: str
    spoil: object


def kind(name, why=None):
    """Adds a function as a kind."""
    def add(spoil):
        KINDS.append(Kind(name, why, spoil))
        return spoil
    return add


# Parts of steps.

def copied(steps):
    """The steps, of which each may be altered."""
    return [Step(maker, list(head), [list(effect) for effect in effects])
            for maker, head, effects in steps]


def places(run, word):
    """Where the steps with this head stand, from 0."""
    return [at for at, step in enumerate(run.steps) if step.head[0] == word]


def effect_places(run, word):
    """The step and the place in it of each effect of this word, both from 0."""
    return [(at, place) for at, step in enumerate(run.steps)
            for place, effect in enumerate(step.effects) if effect[0] == word]


def history_before(run, at):
    """What the steps before this place leave."""
    history = laws.History(run.shape)
    for step in list(laws.told_of(run.steps))[:at]:
        history.add(step)
    return history


def renumbered(steps, befores):
    """The steps in another order, with the numbers of those that they name; `befores` has where
    each stood, from 1, or None for a new one. What names a step that is gone stays as it is."""
    now = {}
    for position, before in enumerate(befores, 1):
        now.setdefault(before, position)

    def moved(word):
        if word[:1] == "@":
            number = int(word[1:])
            return f"@{now.get(number, number)}"
        step, place = word.split(".")
        return f"{now.get(int(step), step)}.{place}"
    new = copied(steps)
    for step in new:
        if step.head[0] in ("take", "detach"):
            at = 2 if step.head[0] == "take" else 1
            step.head[at] = moved(step.head[at])
        for effect in step.effects:
            if effect[0] in ("found", "notified"):
                effect[5] = moved(effect[5])
    return new


def reordered(run, befores):
    """The steps that stood at these positions, from 1, in this order."""
    return renumbered([run.steps[before - 1] for before in befores], befores)


def with_step(run, at, step):
    """The steps with a new one at a place, from 0."""
    steps = [*run.steps[:at], step, *run.steps[at:]]
    return renumbered(steps, [*range(1, at + 1), None, *range(at + 1, len(run.steps) + 1)])


def values_of(run, field):
    """The words of a field in the run's steps."""
    found = []
    for step in run.steps:
        for words, rows in ((step.head, HEADS), *((effect, EFFECTS) for effect in step.effects)):
            row = next(row.split(" ") for row in rows if row.split(" ")[0] == words[0])
            found += [word for word, of in zip(words, row) if of == field]
    return found


def data_beside(word):
    """Data that are almost those of a word."""
    size, mark, digest = word.partition(":")
    if not mark:
        return ["ff" + word[2:], word[:-2] or "-", "00" * 32]
    beside = [f"{size}:{digest[:-1]}{(int(digest[-1], 16) + 1) % 16:x}"]
    return beside + [f"{more}:{digest}" for more in (int(size) - 1, int(size) + 1)
                     if 32 < more <= 65_532]


def peers_beside(chance, run, word):
    """Peers over a link that are almost the one that a word spells, or some of the links."""
    if not run.shape.links:
        return []
    peer = over_link(word) or Peer(chance.choice(run.shape.links).name, "1.1", word or "1.1")
    return [peer.word(), peer.inc,
            peer._replace(link=chance.choice(run.shape.links).name).word(),
            peer._replace(session=chance.choice(OTHERS["SESSION"])).word(),
            peer._replace(inc=chance.choice(values_of(run, "INC") or ["1.1"])).word()]


def other(chance, run, field, word):
    """Another word of a field."""
    links = [link.name for link in run.shape.links]
    choices = OTHERS[field] + values_of(run, field)
    if field == "NODE":
        choices += run.shape.nodes
    if field == "LINK":
        choices += links
    if field == "PATH" and links:
        name = chance.choice(values_of(run, "NAME") or ["a"])
        choices += [name, f"{chance.choice(links)}/{name}"]
    if field == "PEER" and chance.random() < 0.5:
        choices = peers_beside(chance, run, word) or choices
    if field == "DATA" and chance.random() < 0.5:
        choices = data_beside(word)
    if field in ("INC", "PEER"):
        choices = choices + values_of(run, "INC")
    choices = [choice for choice in choices if choice != word]
    return chance.choice(choices) if choices else None


def other_maker(chance, run, maker):
    """Another maker, most often one of the script."""
    count = len(run.shape.actors)
    others = [new for k in range(1, count + 1) if (new := f"A{k}") != maker]
    others += [f"P{k}" for k in range(1, len(run.shape.links) + 1) if f"P{k}" != maker]
    if others and chance.random() < 0.8:
        return chance.choice(others)
    return chance.choice(["A0", f"A{count + 1}", "P1", "P0"])


# Each field of each head and each effect.

FIELD_WHYS = {
    "open NAME": "nobody hunts for the one name or the other",
    "send PEER": "both are dead",
    "send NUMBER": "the peer is dead, and nobody gets the signal",
    "send DATA": "the peer is dead, and nobody gets the signal",
    "take FILTER": "this filter selects the same item first",
    "none FILTER": "this filter selects nothing either",
    "waits FILTER": "this filter selects nothing either",
    "hunt PATH": "nobody answers the hunt",
    "hunt NUMBER": "nobody answers the hunt",
    "hunt DATA": "nobody answers the hunt",
    "attach PEER": "both are alive, and nothing is told of them",
    "attach NUMBER": "the attach is told nothing",
    "attach DATA": "the attach is told nothing, or its long data stand for others as long",
    "detach @N": "neither attach is there, or both are owed or told alike",
    "restart NODE": "neither node has an open endpoint",
    "cut LINK": "no packet of either link comes before its next cut or mend",
    "mend LINK": "no packet of the one link comes before its next cut or mend, or neither was cut",
    "settle LINK": "no law looks at what is settled but for the link",
    "wire LINK": "the packet brings nothing",
    "wire DIRECTION": "the packet brings nothing",
    "wire VERDICT": "the packet brings nothing, or is handed over with both verdicts",
    "tick LINK": "the tick ends no session, and no tick behind leans on it",
    "tick DIRECTION": "the tick ends no session, and no tick behind leans on it",
    "up SESSION": "the other side had this session, too, and no packet behind leans on it",
    "refused REFUSAL": "the laws of a step leave open why an actor is refused",
    "notified DATA": "a digest tells nothing of its attach's data, but how many they are",
}


def add_field_kind(word, at, field, is_head):
    """The kind in which a field has another word."""
    name = f"{word} {field}"

    @kind(f"{name} is another", FIELD_WHYS.get(name))
    def spoil(chance, run):
        found = places(run, word) if is_head else effect_places(run, word)
        if not found:
            return None
        steps, place = copied(run.steps), chance.choice(found)
        words = steps[place].head if is_head else steps[place[0]].effects[place[1]]
        new = other(chance, run, field, words[at])
        if new is None:
            return None
        words[at] = new
        return steps


for rows, of_head in ((HEADS, True), (EFFECTS, False)):
    for row_words in map(str.split, rows):
        for column, column_field in enumerate(row_words[1:], 1):
            add_field_kind(row_words[0], column, column_field, of_head)


# Each head.

def add_head_kind(name, why, spoil_at):
    """A kind for each head, by a function of a place where it stands."""
    for word in HEAD_WORDS:
        def spoil(chance, run, word=word):
            found = places(run, word)
            return spoil_at(chance, run, chance.choice(found)) if found else None
        kind(f"{word} {name}", why)(spoil)


def dropped(_, run, at):
    """The step is gone."""
    return reordered(run, [k for k in range(1, len(run.steps) + 1) if k != at + 1])


def doubled(_, run, at):
    """The step stands twice."""
    return reordered(run, sorted([*range(1, len(run.steps) + 1), at + 1]))


def by_another(chance, run, at):
    """Another one makes the step."""
    steps = copied(run.steps)
    steps[at] = steps[at]._replace(maker=other_maker(chance, run, steps[at].maker))
    return steps


def exchanged(_, run, at):
    """The step and the next one change places."""
    befores = list(range(1, len(run.steps) + 1))
    if at + 1 == len(befores):
        return None
    befores[at], befores[at + 1] = befores[at + 1], befores[at]
    return reordered(run, befores)


def elsewhere(chance, run, at):
    """The step stands at another place."""
    befores = [k for k in range(1, len(run.steps) + 1) if k != at + 1]
    befores.insert(chance.randrange(len(befores) + 1), at + 1)
    return reordered(run, befores)


def one_more(chance, run, at):
    """Such a step stands at another place, too, made by anyone."""
    step = run.steps[at]
    if chance.random() < 0.7:
        step = step._replace(maker=other_maker(chance, run, ""))
    if chance.random() < 0.7:
        step = step._replace(effects=[])
    return with_step(run, chance.randrange(len(run.steps) + 1), step)


add_head_kind("is gone", "no step behind leans on the one that is gone", dropped)
add_head_kind("twice", "the second one is legal, and no step behind is another by it", doubled)
add_head_kind("by another", "another actor may do the same there", by_another)
add_head_kind("behind the next step", "neither of the two leans on the other", exchanged)
add_head_kind("at another place", "the step is legal there, too, and none between leans on it",
              elsewhere)
add_head_kind("more", "such a step is legal there, and no step behind is another by it", one_more)


# Each effect.

PACKETS = ("arrived", "met", "gone", "up", "down")
NO_PACKET = [word for word in EFFECT_WORDS if word not in PACKETS]


def add_effect_kind(name, spoil_at, effect_words=EFFECT_WORDS, why=None):
    """A kind for each of these effects, by a function of a place where it stands."""
    for word in effect_words:
        def spoil(chance, run, word=word):
            found = effect_places(run, word)
            if not found:
                return None
            steps = copied(run.steps)
            return steps if spoil_at(chance, run, steps, *chance.choice(found)) else None
        kind(f"effect {word} {name}", why)(spoil)


def drop_effect(_chance, _run, steps, at, place):
    """The effect is gone."""
    return [steps[at].effects.pop(place)]


def double_effect(chance, _run, steps, at, place):
    """The effect stands twice."""
    effects = steps[at].effects
    effects.insert(chance.randrange(len(effects) + 1), effects[place])
    return True


def move_effect(by):
    """The effect stands behind another step."""
    def move(_chance, _run, steps, at, place):
        if not 0 <= at + by < len(steps):
            return False
        effect = steps[at].effects.pop(place)
        to = steps[at + by].effects
        to.insert(0 if by > 0 else len(to), effect)
        return True
    return move


def exchange_effects(_chance, _run, steps, at, place):
    """Two effects of a step change places."""
    effects = steps[at].effects
    if len(effects) < 2:
        return False
    beside = place + 1 if place + 1 < len(effects) else place - 1
    effects[place], effects[beside] = effects[beside], effects[place]
    return effects[place] != effects[beside]


def borrow_effect(chance, _run, steps, at, place):
    """The effect stands behind any other step, too."""
    to = chance.choice([k for k in range(len(steps)) if k != at] or [at])
    steps[to].effects.insert(chance.randrange(len(steps[to].effects) + 1), steps[at].effects[place])
    return True


LEANT = "a packet brought it, and no step behind leans on it"
MOVED = "a packet brought it, and another one may bring it there"
add_effect_kind("is gone", drop_effect, NO_PACKET)
add_effect_kind("is gone", drop_effect, PACKETS, LEANT)
add_effect_kind("twice", double_effect)
add_effect_kind("of the step before", move_effect(-1), NO_PACKET)
add_effect_kind("of the step before", move_effect(-1), PACKETS, MOVED)
add_effect_kind("of the step behind", move_effect(1), NO_PACKET)
add_effect_kind("of the step behind", move_effect(1), PACKETS, MOVED)
add_effect_kind("in another order", exchange_effects,
                [word for word in EFFECT_WORDS if word not in ("arrived", "up")])
add_effect_kind("of another step, too", borrow_effect, NO_PACKET)
add_effect_kind("of another step, too", borrow_effect, PACKETS, MOVED)
