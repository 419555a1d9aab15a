"""Links: what is in flight, and the pump that makes one step of a link."""
from ends import End
from rlnh import RlnhEnd

WORDS = {"D": "deliver", "L": "lose", "R": "repeat"}


class Side:
    """One side of a link: its node, its ends, what it sent, and the plan for that."""

    def __init__(self, line, node, verdicts):
        self.link, self.node = line.name, node
        self.flight = []
        self.end = End(line.window, line.piece, self.flight)
        self.rlnh = RlnhEnd(self.end)
        self.verdicts = iter(verdicts)
        node.sides.append(self)


class Link:
    """A link with its two sides."""

    def __init__(self, number, line, nodes):
        self.maker, self.name = f"P{number}", line.name
        self.sides = [Side(line, node, plan) for node, plan in zip(nodes, line.plan)]
        self.is_cut, self.is_settled, self.ticks = False, False, 0

    def stirs(self):
        """Whether something is in flight, or a tick would do something."""
        if any(side.flight for side in self.sides):
            return True
        if self.is_cut:
            return any(side.end.is_up() for side in self.sides)
        return any(side.end.has_work() for side in self.sides)

    def pump(self, journal, maker=None):
        """Makes the link's next step: the first side's oldest packet, the other's, or a tick.

        The maker is the link itself, or the actor that settles it."""
        if not self.stirs():
            return
        journal.want_room()
        maker = maker or self.maker
        for place, side in enumerate(self.sides):
            if side.flight:
                word = self.meet_verdict(side, self.sides[1 - place])
                journal.step(maker, "wire", self.name, "><"[place], word)
                return
        place = self.ticking()
        side = self.sides[place]
        self.ticks += 1
        side.node.handed_up(side, side.end.tick())
        journal.step(maker, "tick", self.name, "><"[place])

    def settle(self, journal, maker):
        """Is settled: an actor makes the link's steps until it doesn't stir, unless it is cut."""
        while not self.is_cut and self.stirs():
            self.pump(journal, maker)

    def ticking(self):
        """The side that ticks: they take turns; of a cut link it is the first one that is up."""
        if self.is_cut:
            return 0 if self.sides[0].end.is_up() else 1
        return self.ticks % 2

    def verdict(self, side):
        """The next verdict for a side; a cut link loses all, the plans of a settled one ended."""
        if self.is_cut:
            return "L"
        return "D" if self.is_settled else next(side.verdicts, "D")

    def meet_verdict(self, side, other):
        """The oldest packet of a side meets its verdict; the word for it."""
        flight, verdict = side.flight, self.verdict(side)
        if verdict.startswith("S"):
            place = min(int(verdict[1:]), len(flight) - 1)
            flight[0], flight[place] = flight[place], flight[0]
            return "swap" + verdict[1:]
        packet = flight[0] if verdict == "R" else flight.pop(0)
        if verdict != "L":
            other.node.handed_up(other, other.end.hear(packet))
        return WORDS[verdict]
