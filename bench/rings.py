#!/usr/bin/env python3
"""Runs random scripts with a worker for each actor and each link, over bench/model, and looks for a
ring that is missing.

The workers take turns as those of crates/workers do: each hears its bell, takes a turn, rings the
bells of those whom crates/workers/src/rings.rt calls, and sleeps where nothing came of its turn
and its bell wasn't rung since. What comes next is drawn by chance: also whether a ring is late,
until other turns have passed. After each turn, whoever sleeps unrung must have nothing to do; never
may all that aren't done sleep unrung; and at the end all is over, or the run was stopped: in one of
eight runs the memory of a turn is refused. It says how many runs ended so, and the first that
didn't. With --without WORD a step with that head, or an item that came by that effect, calls
nobody: then a missing ring must be found, but for the words attach, detach, tick and settle, whose
own calls no run needs.

    bench/try rings [COUNT [FIRST]] [--without WORD]     scripts of COUNT seeds, 200 if unsaid
"""
import pathlib
import random
import sys

sys.dont_write_bytecode = True

HERE = pathlib.Path(__file__).resolve().parent
sys.path.insert(0, str(HERE / "model"))

import arguments
import random_script
from journal import Journal
from runs import Run
from script import parse
from values import Refused, There

ITEMS = ("arrived", "found", "notified")
QUIET = ("take", "none", "refused")
OFTEN = ("open", "close", "hunt", "attach", "detach")


class Noted(Journal):
    """A journal that keeps the last step's head, and who got an item by it and how."""

    def __init__(self):
        super().__init__()
        self.head, self.receivers, self.coming = None, [], []

    def effect(self, *words):
        """Adds an effect to the step in the making."""
        super().effect(*words)
        if words[0] in ITEMS:
            self.coming.append(words[:2])

    def step(self, maker, *words):
        """Ends the step in the making."""
        super().step(maker, *words)
        self.head, self.receivers, self.coming = words, self.coming, []


class Workers:
    """The workers of a run, by number: of actors, and behind them of links."""

    def __init__(self, text, chance, without):
        self.chance, self.without = chance, without
        self.run = Run(parse(text))
        self.run.journal = Noted()
        for node in self.run.nodes:
            node.journal = self.run.journal
        self.makers = self.run.actors + self.run.links
        self.rung = [0] * len(self.makers)
        self.stopped = False
        self.refused_at = chance.randrange(400) if chance.random() < 1 / 8 else None
        self.turns = 0

    def first_running(self):
        """The place of the first actor that hasn't ended, or None."""
        places = range(len(self.run.actors))
        return next((place for place in places if not self.run.actors[place].has_ended), None)

    def first_at_rest(self):
        """The place of the first actor that hasn't ended, where it is at rest."""
        place = self.first_running()
        return [place] if place is not None and self.run.is_at_rest(self.makers[place]) else []

    def pumps(self, names):
        """The places of the links of these names that stir."""
        return [place for place, maker in enumerate(self.makers)
                if maker in self.run.links and maker.name in names and maker.stirs()]

    def owners(self):
        """The places of the actors that got items by the last step, and don't wait in vain."""
        receivers = self.run.journal.receivers
        got = [incarnation for word, incarnation in receivers if word != self.without]
        return [place for place, actor in enumerate(self.run.actors)
                if actor.has_endpoint() and actor.endpoint.incarnation in got
                and not actor.waits_in_vain()]

    def called(self, before):
        """The places of those whom the steps since then call."""
        steps = self.run.journal.steps - before
        if steps == 0:
            return []
        everybody = list(range(len(self.makers)))
        if steps > 1:
            return everybody
        head = self.run.journal.head
        if head[0] == self.without:
            return self.owners()
        if head[0] in ("restart", "settle") or head[0] == "ended" and self.first_running() is None:
            return everybody
        return self.owners() + self.called_by(head)

    def called_by(self, head):
        """The places of those whom such a head calls."""
        names = [link.name for link in self.run.links]
        if head[0] in QUIET:
            return []
        if head[0] == "waits":
            return self.first_at_rest()
        if head[0] == "send":
            return self.pumps([head[1].link] if isinstance(head[1], There) else [])
        if head[0] in ("cut", "mend"):
            return self.pumps([head[1]])
        if head[0] in ("wire", "tick"):
            return [] if self.run.link(head[1]).stirs() else self.first_at_rest()
        if head[0] in OFTEN:
            return self.pumps(names)
        if head[0] == "ended":
            return self.pumps(names) + self.first_at_rest()
        raise ValueError(head[0])

    def turn(self, place):
        """A turn of a maker: what came of it ("goes", "waits", "done"), and who is called."""
        before, maker = self.run.journal.steps, self.makers[place]
        self.turns += 1
        try:
            if self.stopped or self.turns == self.refused_at:
                raise Refused("out of memory")
            came = self.act(maker) if maker in self.run.actors else self.pump(maker)
        except Refused:
            self.stopped = True
            return "done", list(range(len(self.makers)))
        return came, self.called(before)

    def act(self, actor):
        """A turn of an actor."""
        actor.turn(self.run.journal)
        if actor.has_ended:
            return "done"
        return "waits" if actor.waits is not None else "goes"

    def pump(self, link):
        """A turn of a link."""
        stirs = link.stirs()
        link.pump(self.run.journal)
        if stirs:
            return "goes"
        return "done" if self.first_running() is None else "waits"

    def has_work(self, place):
        """Whether a turn of a maker would do more than to wait."""
        maker = self.makers[place]
        if maker in self.run.links:
            return maker.stirs() or self.first_running() is None
        return not maker.waits_in_vain() or self.run.is_at_rest(maker)

    def one(self, place):
        """What a worker does; it yields wherever others may come between, and says if it sleeps."""
        while True:
            heard = self.rung[place]
            yield False
            came, called = self.turn(place)
            self.late[place] = called
            yield False
            for other in called:
                self.rung[other] += 1
            self.late[place] = []
            if came == "done":
                return
            while came == "waits" and self.rung[place] == heard:
                yield True

    def check(self, asleep):
        """Whoever sleeps unrung and isn't to be rung has nothing to do, unless the run stopped."""
        due = {place for places in self.late for place in places}
        for place in asleep:
            if place not in due and (self.stopped or self.has_work(place)):
                raise ValueError(f"{self.makers[place].maker} sleeps unrung after step "
                                 f"{self.run.journal.steps}: {self.run.journal.head}")

    def play(self):
        """Plays on until all are done."""
        self.late = [[] for _ in self.makers]
        alive = {place: self.one(place) for place in range(len(self.makers))}
        awake = sorted(alive)
        asleep = {}
        while alive:
            asleep = {place: heard for place, heard in asleep.items() if self.rung[place] == heard}
            awake = [place for place in alive if place not in asleep]
            self.check(asleep)
            if not awake:
                raise ValueError("all sleep")
            place = self.chance.choice(awake)
            try:
                if next(alive[place]):
                    asleep[place] = self.rung[place]
            except StopIteration:
                del alive[place]
        if not self.stopped and not self.run.is_over():
            raise ValueError("all are done, and not all is over")


def main():
    """Plays the scripts of the seeds."""
    given = arguments.parser(__doc__)
    given.add_argument("count", type=int, nargs="?", default=200)
    given.add_argument("first", type=int, nargs="?", default=1)
    given.add_argument("--without")
    words = given.parse_args()
    ended, stopped, turns, wrong = 0, 0, 0, None
    for seed in range(words.first, words.first + words.count):
        script = random_script.Writer(seed).script()
        workers = Workers(script, random.Random(seed), words.without)
        try:
            workers.play()
            ended += 1
        except ValueError as error:
            wrong = wrong or f"seed {seed}: {error}"
        stopped += workers.stopped
        turns += workers.turns
    print(f"{ended} of {words.count} runs ended, {stopped} of them stopped, {turns} turns")
    if wrong:
        print(f"first that didn't: {wrong}")
        sys.exit(1)


if __name__ == "__main__":
    main()
