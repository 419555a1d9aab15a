"""The order of the turns, as docs/use/orders.md has it: who is ready, who comes first by the lines of
the script, and whom each of the three rules of a number names behind these."""
import itertools

MASK = 2**64 - 1
SPEEDS = (1, 4, 16, 64, 256, 1024)
FIRST_TURN = 2**32
MAKERS = 97


class Dice:
    """SplitMix64."""

    def __init__(self, state):
        self.state = state

    def next(self):
        """The next number of 64 bits."""
        self.state = (self.state + 0x9E3779B97F4A7C15) & MASK
        z = self.state
        z = ((z ^ (z >> 30)) * 0xBF58476D1CE4E5B9) & MASK
        z = ((z ^ (z >> 27)) * 0x94D049BB133111EB) & MASK
        return z ^ (z >> 31)

    def below(self, bound):
        """A number below this one."""
        return self.next() % bound

    def word(self):
        """A number of 32 bits."""
        return self.next() >> 32

    def words(self):
        """One for each maker that there may be."""
        return [self.word() for _ in range(MAKERS)]


class Rounds:
    """In a circle, by number, behind the one that it named last."""

    def __init__(self):
        self.last = 0

    def choose(self, ready):
        """The number of the maker that comes next."""
        self.last = next((maker for maker in ready if maker > self.last), ready[0])
        return self.last


class Walk:
    """Each of those that are ready, with one chance."""

    def __init__(self, dice, _depth, _span):
        self.dice = dice

    def choose(self, ready):
        """The number of the maker that comes next."""
        return ready[self.dice.below(len(ready))]


class Priorities:
    """The one of the lowest rank, which gets the highest one at a few turns."""

    def __init__(self, dice, depth, span):
        self.ranks = dice.words()
        self.changes = {FIRST_TURN + dice.below(span) for _ in range(depth)}
        self.turn = FIRST_TURN

    def choose(self, ready):
        """The number of the maker that comes next."""
        if self.turn in self.changes:
            self.ranks[min(ready, key=self.ranks.__getitem__)] = self.turn
        self.turn += 1
        return min(ready, key=self.ranks.__getitem__)


class Bursts:
    """By speeds, of which one is thrown anew before one turn of sixteen."""

    def __init__(self, dice, _depth, _span):
        self.dice, self.speeds = dice, dice.words()

    def choose(self, ready):
        """The number of the maker that comes next."""
        if self.dice.below(16) == 0:
            maker = ready[self.dice.below(len(ready))]
            self.speeds[maker] = self.dice.word()
        speeds = [SPEEDS[self.speeds[maker] % 6] for maker in ready]
        place = self.dice.below(sum(speeds))
        ends = itertools.accumulate(speeds)
        return next(maker for maker, end in zip(ready, ends) if place < end)


def is_ready(run, actor):
    """Whether a turn of the actor makes a step: it hasn't ended, and doesn't wait on."""
    return not actor.has_ended and (not actor.waits_in_vain() or run.is_at_rest(actor))


def named(front, rule, ready):
    """Whose turn it is: the first of the front that is ready, those before it being passed over, or
    else whom the rule chooses."""
    while front:
        maker = front.pop(0)
        if maker in ready:
            return maker
    return rule.choose(ready)


def play_by(run, rule):
    """Makes a run, its front first and then by a rule, until all is over; the text."""
    turns = [actor.turn for actor in run.actors] + [link.pump for link in run.links]
    numbers = {maker.maker: n for n, maker in enumerate(run.actors + run.links, 1)}
    front = [numbers[maker] for maker in run.front]
    while not run.is_over():
        ready = [n for n, actor in enumerate(run.actors, 1) if is_ready(run, actor)]
        ready += [n for n, link in enumerate(run.links, len(run.actors) + 1) if link.stirs()]
        turns[named(front, rule, ready) - 1](run.journal)
    return run.journal.text()


def play(run, seed):
    """Makes a run in the order of a number until all is over; the text."""
    commands = sum(len(actor.commands) for actor in run.actors)
    span = 1 + commands + len(run.actors) + 40 * len(run.links)
    return play_by(run, (Bursts, Walk, Priorities)[seed % 3](Dice(seed), seed // 3 % 6, span))


def play_fixed(run):
    """Makes a run in the fixed order, behind its front, until all is over; the text."""
    return play_by(run, Rounds()) if run.front else run.play()
