"""Printed texts: their first bad line, and their steps, by the rules of docs/use/text.md."""
import re
from typing import NamedTuple

HALF = 2**32 - 1
WHOLE = 2**64 - 1
NAME = r"[A-Za-z0-9_.-]{1,32}"
DIGITS = r"(?:0|[1-9][0-9]*)"


def is_number(word, most):
    """Whether a word spells a number that is at most this one."""
    return re.fullmatch(DIGITS, word) is not None and int(word) <= most


def are_numbers(word, between, count, most):
    """Whether a word spells so many numbers, with a mark between each two."""
    parts = word.split(between)
    return len(parts) == count and all(is_number(part, most) for part in parts)


class Reader:
    """Reads a text by the rules of docs/use/text.md, with these names of nodes and links."""

    def __init__(self, nodes, links):
        self.nodes, self.links = nodes, links
        self.kinds = {
            "INC": lambda w: are_numbers(w, ".", 2, HALF),
            "SESSION": lambda w: are_numbers(w, ".", 2, HALF),
            "NODE": lambda w: w in self.nodes,
            "LINK": lambda w: w in self.links,
            "NAME": lambda w: re.fullmatch(NAME, w) is not None,
            "PEER": self.is_peer,
            "PATH": self.is_path,
            "NUMBER": lambda w: is_number(w, HALF),
            "DATA": self.is_data,
            "FILTER": self.is_filter,
            "POSITION": lambda w: are_numbers(w, ".", 2, WHOLE),
            "@N": lambda w: w.startswith("@") and is_number(w[1:], WHOLE),
            "DIRECTION": lambda w: w in ("<", ">"),
            "VERDICT": lambda w: re.fullmatch("deliver|lose|repeat|swap[1-9]", w) is not None,
            "REASON": lambda w: w in ("closed", "lost", "dead"),
            "SENT": lambda w: w in ("queued", "link", "dead"),
            "DETACHED": lambda w: w in ("pending", "queued", "none"),
            "REFUSAL": lambda w: w in ("not-open", "is-open", "no-peer", "no-signal", "no-ref"),
        }

    HEADS = ["open NAME", "close", "send PEER NUMBER DATA SENT", "take FILTER POSITION",
             "none FILTER", "waits FILTER", "hunt PATH NUMBER DATA", "attach PEER NUMBER DATA",
             "detach @N DETACHED", "cut LINK", "mend LINK", "settle LINK", "restart NODE",
             "wire LINK DIRECTION VERDICT", "tick LINK DIRECTION", "refused REFUSAL", "ended"]
    EFFECTS = ["opened INC", "closed INC", "arrived INC PEER NUMBER DATA",
               "found INC PEER NUMBER DATA @N", "notified INC PEER NUMBER DATA @N REASON",
               "met NODE PEER NAME", "gone NODE PEER", "up NODE LINK SESSION SESSION",
               "down NODE LINK SESSION"]

    def is_peer(self, word):
        """An incarnation, or LINK:SESSION:INC."""
        parts = word.split(":")
        if len(parts) == 1:
            return self.kinds["INC"](word)
        return len(parts) == 3 and parts[0] in self.links and all(map(self.kinds["INC"], parts[1:]))

    def is_path(self, word):
        """NAME, or LINK/NAME."""
        parts = word.split("/")
        return (len(parts) == 1 or (len(parts) == 2 and parts[0] in self.links)) and (
            self.kinds["NAME"](parts[-1]))

    @staticmethod
    def is_data(word):
        """`-`, 1 to 32 bytes in hexadecimal, or a number of bytes and a digest."""
        if word == "-" or re.fullmatch("(?:[0-9a-f]{2}){1,32}", word):
            return True
        size, _, digest = word.partition(":")
        return re.fullmatch("[0-9a-f]{64}", digest) is not None and (
            is_number(size, 65_532) and int(size) > 32)

    @staticmethod
    def is_filter(word):
        """`any`, or `only:` or `not:` and numbers."""
        if word == "any":
            return True
        kind, mark, listed = word.partition(":")
        return kind in ("only", "not") and mark == ":" and (
            listed == "" or all(is_number(part, HALF) for part in listed.split(",")))

    def is_row(self, words, rows):
        """Whether words are those of a row."""
        for row in rows:
            kinds = row.split(" ")
            if words[:1] == kinds[:1] and len(words) == len(kinds):
                return all(self.kinds[kind](word) for kind, word in zip(kinds[1:], words[1:]))
        return False

    def is_maker(self, word):
        """`A` or `P` and a number."""
        return word[:1] in ("A", "P") and is_number(word[1:], HALF)

    def first_bad(self, text):
        """The first bad line, from 1, and 0 where there is none."""
        *lines, rest = text.split("\n")
        count, steps = None, 0
        for number, line in enumerate(lines, 1):
            words = line.split(" ")
            if count is None:
                if line.startswith("journal "):
                    if not is_number(line[8:], WHOLE) or int(line[8:]) == 0:
                        return number
                    count = int(line[8:])
            elif words[0] == "+":
                if steps == 0 or not self.is_row(words[1:], self.EFFECTS):
                    return number
            else:
                steps += 1
                if steps > count or words[0] != str(steps) or len(words) < 3 or (
                        not self.is_maker(words[1]) or not self.is_row(words[2:], self.HEADS)):
                    return number
        whole = not lines if count is None else steps == count
        return 0 if whole and rest == "" else len(lines) + 1


class Step(NamedTuple):
    """A step of a text: its maker, the words of its head, and those of each of its effects."""

    maker: str
    head: list
    effects: list


def steps_of(text):
    """The steps of a text without a bad line."""
    lines, steps = text.split("\n")[:-1], []
    begin = next((at for at, line in enumerate(lines) if line.startswith("journal ")), len(lines))
    for line in lines[begin + 1:]:
        words = line.split(" ")
        if words[0] == "+":
            steps[-1].effects.append(words[1:])
        else:
            steps.append(Step(words[1], words[2:], []))
    return steps
