"""The report of the runs of some numbers, reckoned from their printed texts one by one.

It follows docs/use/orders.md and docs/use/text.md, and knows nothing of how the program does it.
"""
import collections

from texts import steps_of

LISTED = 16
SILENT = ("waits", "wire", "tick")
RARES = ("refused", "none", "dead", "closed", "lost", "down")


def openers_of(steps):
    """Who opened each incarnation: `A2.1` is the first of actor 2."""
    openers, counts = {}, collections.Counter()
    for step in steps:
        if step.maker[0] == "A" and step.effects and step.effects[0][0] == "opened":
            counts[step.maker] += 1
            openers.setdefault(step.effects[0][1], f"{step.maker}.{counts[step.maker]}")
    return openers


class Run:
    """A whole run: its steps, and what stands for endpoints and links."""

    def __init__(self, text, links):
        self.steps = steps_of(text.decode())
        self.openers = openers_of(self.steps)
        self.links = links

    def peer(self, word):
        """A peer by who opened it, behind its link if it is over one."""
        *link, inc = word.split(":")
        behind = f"P{self.links.index(link[0]) + 1}:" if link else ""
        return behind + self.openers.get(inc, "?")

    def item(self, position):
        """What was taken from a position: how it came, from whom, and the signal."""
        step, place = map(int, position.split("."))
        kind, _, peer, number, data, *more = self.steps[step - 1].effects[place - 1]
        reason = [more[1]] if kind == "notified" else []
        return " ".join([kind, self.peer(peer), number, data, *reason])

    def answer(self, head):
        """What a step of this head answers its actor."""
        if head[0] == "send":
            return f"send {self.peer(head[1])} {head[-1]}"
        if head[0] == "take":
            return f"took {self.item(head[-1])}"
        if head[0] == "attach":
            return f"attach {self.peer(head[1])}"
        if head[0] == "detach":
            return f"detach {head[-1]}"
        return " ".join(head) if head[0] == "refused" else head[0]

    def outcome(self, actors):
        """What each actor was told, in its order."""
        return tuple(tuple(self.answer(step.head) for step in self.steps
                           if step.maker == f"A{actor}" and step.head[0] not in SILENT)
                     for actor in range(1, actors + 1))

    def rares(self):
        """Which rare things it has."""
        found = set()
        for step in self.steps:
            if step.head[0] in ("refused", "none"):
                found.add(step.head[0])
            if step.head[0] == "send" and step.head[-1] == "dead":
                found.add("dead")
            found |= {effect[-1] for effect in step.effects if effect[0] == "notified"}
            found |= {"down" for effect in step.effects if effect[0] == "down"}
        return found


def times(seeds):
    """In how many runs something came, and in which first."""
    return f"{len(seeds)} seed {seeds[0]}" if seeds else "0"


def differences(one, other):
    """The first answer of each actor that is another in two outcomes."""
    for actor, (here, there) in enumerate(zip(one, other), 1):
        for place in range(max(len(here), len(there))):
            pair = [told[place] if place < len(told) else "-" for told in (here, there)]
            if here[place:place + 1] != there[place:place + 1]:
                yield f"- A{actor} {place + 1} {pair[0]} / {pair[1]}"
                break


def lines_of(runs, full, steps, came, rares):
    """The lines of a report."""
    yield f"runs {runs}"
    if full:
        yield f"full {times(full)}"
    if steps:
        yield f"steps {min(steps)} {max(steps)}"
    yield f"outcomes {len(came)}"
    listed = sorted(came, key=lambda outcome: -len(came[outcome]))[:LISTED]
    for place, outcome in enumerate(listed, 1):
        yield f"outcome {place} {times(came[outcome])}"
        yield from differences(outcome, listed[0])
    if len(came) > LISTED:
        yield f"others {len(came) - LISTED}"
    for rare in RARES:
        yield f"{rare} {times(rares[rare])}"


def report(script, ends):
    """The report of the ends of the runs of the numbers from 1 on: a status and a text each."""
    words = [line.split() for line in script.decode().splitlines()]
    actors = sum(line[:1] == ["actor"] for line in words)
    links = [line[1] for line in words if line[:1] == ["link"]]
    full, steps, came = [], [], {}
    rares = {rare: [] for rare in RARES}
    for seed, (status, text) in enumerate(ends, 1):
        if status == 5:
            full.append(seed)
            continue
        run = Run(text, links)
        steps.append(len(run.steps))
        came.setdefault(run.outcome(actors), []).append(seed)
        for rare in run.rares():
            rares[rare].append(seed)
    return "".join(line + "\n" for line in lines_of(len(ends), full, steps, came, rares)).encode()
