"""The text: the journal of all steps, and the log of each incarnation."""
from values import Full, Signal

MOST_STEPS = 200_000
MOST_NOTED = 67_108_864


class Journal:
    """The steps so far, the step in the making, and the logs in order of opening."""

    def __init__(self):
        self.lines, self.logs = [], {}
        self.steps, self.noted = 0, 0
        self.effects = []

    def position(self):
        """The position of the step in the making."""
        return self.steps + 1

    def next_effect(self):
        """The step in the making, and the place in it that the next effect gets."""
        return self.position(), len(self.effects) + 1

    def want_room(self):
        """Refuses a turn where the journal is full."""
        if self.steps >= MOST_STEPS or self.noted >= MOST_NOTED:
            limit = (f"{MOST_STEPS} steps" if self.steps >= MOST_STEPS
                     else f"{MOST_NOTED} bytes of signals")
            raise Full(f"journal full after step {self.steps}, by the limit of {limit}")

    def line(self, words):
        """The words as a line; the signals among them are counted."""
        self.noted += sum(word.size() for word in words if isinstance(word, Signal))
        return " ".join(map(str, words))

    def effect(self, *words):
        """Adds an effect to the step in the making."""
        self.effects.append("+ " + self.line(words))

    def step(self, maker, *words):
        """Ends the step in the making: who made it, and its head."""
        self.steps += 1
        self.lines.append(f"{self.steps} {maker} {self.line(words)}")
        self.lines.extend(self.effects)
        self.effects = []

    def begin_log(self, incarnation, name, node):
        """Begins the log of an incarnation that opens."""
        self.logs[incarnation] = [f"log {incarnation} {name} {node}"]

    def log(self, incarnation, *words):
        """Adds a line to a log; that of a step's head is added before those of its effects."""
        self.logs[incarnation].append(" ".join(map(str, words)))

    def text(self):
        """The logs and the steps, or nothing where there are no steps."""
        if not self.steps:
            return ""
        lines = [line for log in self.logs.values() for line in log]
        lines.append(f"journal {self.steps}")
        return "\n".join(lines + self.lines) + "\n"
