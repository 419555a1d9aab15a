"""Spoils the lines of printed texts of runs, and the scripts before them.

The kinds are those of spoiled_steps.py, but that their functions give a whole text, or a script and
a text, or None where the run has nothing to spoil so.
"""
import re

import laws
import read_back
import spoiled_calls
from spoiled_steps import EFFECTS, HEADS, KINDS, Kind, copied

LINE_KINDS, SCRIPT_KINDS = [], []
DIGEST = "ab" * 32
BAD_WORDS = {
    "INC": ["1", "1.1.1", "01.1", "1.01", "1.", ".1", "4294967296.1", "1.4294967296", "a.b",
            "-1.1"],
    "PEER": ["1", "l:1.1:1.1", "::1.1", "1.1:", "01.1", "1.4294967296"],
    "NUMBER": ["4294967296", "-1", "+1", "01", "00", "x", "1.0", "99999999999999999999999"],
    "DATA": ["0", "abc", "0G", "FF", "--", f"32:{DIGEST}", f"65533:{DIGEST}", f"33:{DIGEST[1:]}",
             f"33:{DIGEST}0", f"033:{DIGEST}", f"33:{DIGEST.upper()}", "ab" * 33,
             f"33:{DIGEST[2:]}"],
    "NAME": ["x" * 33, "a/b", "a:b", "\xfc", "a+"],
    "PATH": ["x" * 33, "l/a", "a/b/c", "/a", "a/", "\xfc"],
    "FILTER": ["all", "only", "only:1,", "only:,1", "only:01", "not:4294967296", "any:", "Only:1",
               "not 1", "only:1;2"],
    "POSITION": ["1", "1.01", "01.1", "18446744073709551616.1", "1.18446744073709551616", "1.1.1",
                 "@1.1", "1,1"],
    "@N": ["5", "@", "@01", "@18446744073709551616", "@-1", "@1.1", "#1"],
    "NODE": ["nobody", "?", "1", "N1"],
    "LINK": ["nolink", "?", "1", "L1"],
    "SESSION": ["1", "1.01", "01.1", "4294967296.1", "1.4294967296", "1.1.1", "1:1"],
    "DIRECTION": ["-", "<<", "to", "first"],
    "VERDICT": ["delivered", "swap0", "swap10", "swap", "Lose"],
    "SENT": ["pending", "Queued", "none", "sent"],
    "DETACHED": ["dead", "Pending", "queue"],
    "REASON": ["gone", "Closed", "0", "2"],
    "REFUSAL": ["no", "not_open", "open", "Is-open"],
}
MAKERS = ["B1", "A", "A01", "A4294967296", "1", "a1", "A1.1", "A-1", "P", "p1"]
LOG_WORDS = ["log", "sent", "took", "none", "hunt", "attach", "detach", "arrived", "found",
             "notified", "closed"]
LINK_HEADS = ["cut l", "mend l", "settle l", "wire l > deliver", "wire l < lose", "tick l >"]
LINK_EFFECTS = ["up NODE l 1.1 1.1", "down NODE l 1.1", "met NODE l:1.1:1.1 a",
                "gone NODE l:1.1:1.1", "arrived 1.1 l:1.1:1.1 5 -"]


def line_kind(name, why=None):
    """Adds a function as a kind that spoils lines."""
    def add(spoil):
        LINE_KINDS.append(Kind(name, why, spoil))
        return spoil
    return add


def script_kind(name, why=None):
    """Adds a function as a kind that spoils a script."""
    def add(spoil):
        SCRIPT_KINDS.append(Kind(name, why, spoil))
        return spoil
    return add


# What is no line of a printed text.

def cut(text):
    """The logs of a text, the line with the count, and the steps."""
    at = text.find("journal ")
    while at > 0 and text[at - 1] != "\n":
        at = text.find("journal ", at + 1)
    behind = text.find("\n", at) + 1
    return text[:at], text[at:behind], text[behind:]


def substituted(chance, text, pattern, new):
    """A text with something new in place of one of a pattern's matches, or None."""
    found = list(re.finditer(pattern, text, re.M))
    if not found:
        return None
    match = chance.choice(found)
    return text[:match.start()] + match.expand(new) + text[match.end():]


COUNT_ROWS = [
    ("a count with a zero in front", "^journal ", "journal 0"),
    ("a count of no steps", "[0-9]+$", "0"),
    ("a count without a number", "[0-9]+$", ""),
    ("a count with a word more", "[0-9]+$", r"\g<0> 1"),
    ("a count past 64 bits", "[0-9]+$", "18446744073709551616"),
    ("a count of 64 bits", "[0-9]+$", "18446744073709551615"),
    ("a count of more steps", "[0-9]+$", r"1\g<0>"),
    ("no count", "^journal [0-9]+\n", ""),
    ("two counts", "^journal [0-9]+\n", r"\g<0>\g<0>"),
    ("a count in other letters", "journal", "Journal"),
]
STEP_ROWS = [
    ("a position with a zero in front", r"^(?=[0-9]+ [AP])", "0"),
    ("a position of another step", r"^[0-9]+(?= [AP])", r"1\g<0>"),
    ("a step without its position", r"^[0-9]+ (?=[AP])", ""),
    ("a step without its head", r"^([0-9]+ [AP][0-9]+).*$", r"\1"),
    ("a step's line twice", r"^[0-9]+ [AP].*\n", r"\g<0>\g<0>"),
    ("a step's line gone", r"^[0-9]+ [AP].*\n", ""),
    ("two spaces", " ", "  "),
    ("a tab in place of a space", " ", "\t"),
    ("a word less", " [^ \n]+", ""),
    ("a word more", "(?<=[^\n])$", " more"),
    ("a space at the end", "(?<=[^\n])$", " "),
    ("a space in front", "^(?=.)", " "),
    ("a carriage return", "\n", "\r\n"),
    ("an empty line", "\n", "\n\n"),
    ("a line of a log", "\n", "\nclosed\n"),
    ("a comment", "\n", "\n# here\n"),
    ("no line feed at the end", r"\n\Z", ""),
    ("a line behind the end", r"\n\Z", "\nend\n"),
    ("a step behind the last one that is counted", r"\n\Z", "\n999999 A1 ended\n"),
    ("an effect without its mark", r"^\+ ", ""),
    ("an effect with two marks", r"^\+ ", "+ + "),
    ("an effect before the first step", r"\A", "+ opened 1.1\n"),
    ("a capital letter", "[a-z](?=[a-z]* )", "Q"),
    ("a zero byte", "(?<=[^\n])$", "\0"),
    ("a byte that is no letter", "[a-z]", "\xe9"),
    ("a first word that is none", r"(?<=[0-9] )[a-z]+", "sends"),
    ("an effect that is none", r"(?<=^\+ )[a-z]+", "happened"),
]


def add_row_kind(name, pattern, new, is_count):
    """A kind in which the count or the steps are spelled wrongly."""
    @line_kind(name)
    def spoil(chance, run):
        logs, count, steps = cut(run.text)
        if is_count:
            return logs + substituted(chance, count, pattern, new) + steps
        spoiled = substituted(chance, steps, pattern, new)
        return spoiled and logs + count + spoiled


for row in COUNT_ROWS:
    add_row_kind(*row, True)
for row in STEP_ROWS:
    add_row_kind(*row, False)


def fields_of(steps):
    """The list and the place in it of each word of the steps, by their fields."""
    for step in steps:
        for words, rows in ((step.head, HEADS), *((effect, EFFECTS) for effect in step.effects)):
            names = next(row.split(" ") for row in rows if row.split(" ")[0] == words[0])
            yield from ((words, at, field) for at, field in enumerate(names))


def add_bad_word_kind(field):
    """A kind in which a word of this field has no such spelling."""
    @line_kind(f"{field} spelled wrongly")
    def spoil(chance, run):
        steps = copied(run.steps)
        found = [(words, at) for words, at, of in fields_of(steps) if of == field]
        if not found:
            return None
        words, at = chance.choice(found)
        words[at] = chance.choice(BAD_WORDS[field])
        return cut(run.text)[0] + laws.steps_text(steps)


for named_field in BAD_WORDS:
    add_bad_word_kind(named_field)


@line_kind("a maker spelled wrongly")
def bad_maker(chance, run):
    """A maker that is none."""
    steps = copied(run.steps)
    at = chance.randrange(len(steps))
    steps[at] = steps[at]._replace(maker=chance.choice(MAKERS))
    return cut(run.text)[0] + laws.steps_text(steps)


@line_kind("a step of a link", "the script has this link, and the step brings nothing")
def link_step(chance, run):
    """A head that names a link."""
    steps = copied(run.steps)
    at = chance.randrange(len(steps))
    steps[at] = steps[at]._replace(head=chance.choice(LINK_HEADS).split(" "))
    return cut(run.text)[0] + laws.steps_text(steps)


def add_effect_kind(name, rows):
    """A kind in which an effect stands behind any step that no run without links has."""
    @line_kind(name)
    def spoil(chance, run):
        steps = copied(run.steps)
        row = chance.choice(rows).replace("NODE", chance.choice(run.shape.nodes))
        effects = chance.choice(steps).effects
        effects.insert(chance.randrange(len(effects) + 1), row.split(" "))
        return cut(run.text)[0] + laws.steps_text(steps)


add_effect_kind("an effect over a link", LINK_EFFECTS)
add_effect_kind("a peer on the own node is met", ["met NODE 1.1 a", "met NODE 2.7 zz"])
add_effect_kind("a peer on the own node is gone", ["gone NODE 1.1", "gone NODE 9.9"])


def add_altered_kind(name, times):
    """A kind in which lines are altered as read_back.py does."""
    @line_kind(name, "a word was altered that no law and no log looks at")
    def spoil(chance, run):
        maker = read_back.Maker(chance.getrandbits(32), [(run.shape.nodes, [link.name for link in run.shape.links], run.text)])
        lines = run.text.split("\n")[:-1]
        for _ in range(times):
            if lines:
                maker.spoil(lines)
        return "".join(line + "\n" for line in lines)


add_altered_kind("a line altered in any way", 1)
add_altered_kind("three lines altered in any way", 3)


@line_kind("no line at all", "a text without a byte has no steps")
def empty(_chance, _run):
    """The empty text."""
    return ""


@line_kind("a front of the text's lines", "all lines are gone, and so there are no steps")
def front_of_lines(chance, run):
    """The last lines are gone."""
    lines = run.text.split("\n")[:-1]
    return "".join(line + "\n" for line in lines[:chance.randrange(len(lines))])


@line_kind("a front of the text's bytes", "all bytes are gone, and so there are no steps")
def front_of_bytes(chance, run):
    """The last bytes are gone."""
    return run.text[:chance.randrange(len(run.text))]


# What is no line of the steps' logs.

def log_lines(run, word=None):
    """The lines of the logs, and where those with this first word stand."""
    lines = cut(run.text)[0].split("\n")[:-1]
    return lines, [at for at, line in enumerate(lines) if line.split(" ")[0] == word]


def with_logs(run, lines):
    """The text with other logs."""
    _, count, steps = cut(run.text)
    return "".join(line + "\n" for line in lines) + count + steps


def add_log_kinds(name, change):
    """A kind for each line of a log, by a function that changes the lines at a place."""
    for word in LOG_WORDS:
        def spoil(chance, run, word=word):
            lines, found = log_lines(run, word)
            if not found:
                return None
            change(chance, lines, chance.choice(found))
            return with_logs(run, lines)
        line_kind(f"log's line {word} {name}")(spoil)


def drop_line(_chance, lines, at):
    """The line is gone."""
    del lines[at]


def double_line(_chance, lines, at):
    """The line stands twice."""
    lines.insert(at, lines[at])


def alter_line(chance, lines, at):
    """A word of the line is another one."""
    words = lines[at].split(" ")
    known = [word for line in lines for word in line.split(" ")]
    k = chance.randrange(len(words))
    words[k] = chance.choice([word for word in [*known, "?", "-", "1.9", "00"] if word != words[k]])
    lines[at] = " ".join(words)


def exchange_line(_chance, lines, at):
    """The line and the next one change places."""
    if at + 1 < len(lines):
        lines[at], lines[at + 1] = lines[at + 1], lines[at]


def move_line(chance, lines, at):
    """The line stands at another place."""
    line = lines.pop(at)
    lines.insert(chance.randrange(len(lines) + 1), line)


def respell_line(chance, lines, at):
    """A byte of the line is another one."""
    k = chance.randrange(len(lines[at]) + 1)
    byte = chr(chance.choice([9, 13, 32, 48, 65, 200]))
    lines[at] = lines[at][:k] + byte + lines[at][k + 1:]


add_log_kinds("is gone", drop_line)
add_log_kinds("twice", double_line)
add_log_kinds("has another word", alter_line)
add_log_kinds("behind the next line", exchange_line)
add_log_kinds("at another place", move_line)
add_log_kinds("has another byte", respell_line)


def blocks_of(run):
    """The logs, each as its lines."""
    lines, titles = log_lines(run, "log")
    return [lines[at:behind] for at, behind in zip(titles, [*titles[1:], len(lines)])]


def add_block_kind(name, change):
    """A kind in which whole logs stand otherwise."""
    @line_kind(name)
    def spoil(chance, run):
        blocks = blocks_of(run)
        if len(blocks) < 2:
            return None
        change(blocks, chance.randrange(len(blocks) - 1))
        return with_logs(run, [line for block in blocks for line in block])


def exchange_blocks(blocks, at):
    """Two logs change places."""
    blocks[at], blocks[at + 1] = blocks[at + 1], blocks[at]


def exchange_titles(blocks, at):
    """Two logs have one another's titles."""
    one, next_one = blocks[at], blocks[at + 1]
    one[0], next_one[0] = next_one[0], one[0]


add_block_kind("a log is gone", lambda blocks, at: blocks.pop(at))
add_block_kind("a log twice", lambda blocks, at: blocks.insert(at, blocks[at]))
add_block_kind("two logs in another order", exchange_blocks)
add_block_kind("two logs with one another's titles", exchange_titles)
add_block_kind("a log of what was never opened",
               lambda blocks, at: blocks.insert(at, ["log 1.99 a n", "closed"]))


@line_kind("no log at all")
def no_logs(_, run):
    """The steps alone."""
    return with_logs(run, []) if cut(run.text)[0] else None


@line_kind("a line before the logs")
def line_before(_, run):
    """A line more in front."""
    return "a line\n" + run.text


@line_kind("a line between the logs and the count")
def line_between(_, run):
    """A line more behind the logs."""
    return with_logs(run, [*log_lines(run)[0], "closed"])


@line_kind("the steps altered, and not the logs",
           "what was altered is told by no log, and the steps are legal with it")
def logs_as_before(chance, run):
    """Steps of any kind of spoiling, behind the logs of the run."""
    steps = chance.choice(KINDS).spoil(chance, run)
    return steps and cut(run.text)[0] + laws.steps_text(steps)


@line_kind("the logs of another order of the steps")
def logs_of_another(chance, run):
    """The run's steps, behind the logs of the same steps in another order."""
    steps = spoiled_calls.shuffled(chance, run)
    return cut(laws.text_of(run.shape.nodes, steps))[0] + "".join(cut(run.text)[1:])


# What stands before the text.

def blocks_of_actors(script):
    """The lines of a script without those of its actors' commands, and each actor's lines."""
    lines, front, actors, depth = script.split("\n")[:-1], [], [], 0
    for line in lines:
        first = line.split()[:1]
        if depth == 0 and first != ["actor"]:
            front.append(line)
            continue
        if depth == 0:
            actors.append([])
        actors[-1].append(line)
        depth += (first in (["actor"], ["repeat"])) - (first == ["end"])
    return front, actors


def script_of(front, actors):
    """The script of such lines."""
    return "".join(line + "\n" for line in [*front, *(line for lines in actors for line in lines)])


def add_script_kind(name, why, change):
    """A kind in which a function changes the declarations and the actors, or answers False."""
    @script_kind(name, why)
    def spoil(chance, run):
        front, actors = blocks_of_actors(run.script)
        if change(chance, front, actors) is False:
            return None
        return script_of(front, actors), run.text


def actor_gone(chance, _front, actors):
    """An actor less."""
    actors.pop(chance.randrange(len(actors)))


def actor_more(_chance, front, actors):
    """An actor more, that never makes a step."""
    node = next(line.split()[1] for line in front if line.split()[:1] == ["node"])
    actors.append([f"actor another {node}", "end"])


def actor_elsewhere(chance, front, actors):
    """An actor on another node."""
    nodes = [line.split()[1] for line in front if line.split()[:1] == ["node"]]
    lines = chance.choice(actors)
    words = lines[0].split()
    others = [node for node in nodes if node != words[2]]
    if not others:
        return False
    lines[0] = f"actor {words[1]} {chance.choice(others)}"
    return True


def actors_in_another_order(chance, _front, actors):
    """Actors have other numbers."""
    chance.shuffle(actors)


def commands_gone(chance, _front, actors):
    """An actor with no command."""
    lines = chance.choice(actors)
    lines[1:] = ["end"]


def node_renamed(_chance, front, actors):
    """A node has another name."""
    front[:] = [re.sub(r"^node (\S+)", r"node \1x", line) for line in front]
    for lines in actors:
        lines[:] = [re.sub(r"^(actor \S+ \S+)|^( *restart \S+)", r"\1\2x", line)
                    if re.match(r"^(actor \S+ \S+)|^( *restart \S+)", line) else line
                    for line in lines]


def nodes_in_another_order(_chance, front, _actors):
    """Nodes have other numbers."""
    nodes = [line for line in front if line.split()[:1] == ["node"]]
    front[:] = [line for line in front if line.split()[:1] != ["node"]] + nodes[::-1]


def node_more(_chance, front, _actors):
    """A node more, behind the others."""
    front.append("node another")


def bad_line(chance, front, _actors):
    """A line that is none."""
    front.insert(chance.randrange(len(front) + 1), "nod n")


def bad_order(_chance, front, actors):
    """A line `order` with a maker that there isn't."""
    front.append(f"order A{len(actors) + 1}")


def good_order(_chance, front, _actors):
    """A line `order`."""
    front.append("order A1*3 A1")


def with_link(_chance, front, _actors):
    """A link to a node of its own."""
    node = next(line.split()[1] for line in front if line.split()[:1] == ["node"])
    front += ["node far", f"link more {node} far"]


add_script_kind("an actor less in the script", "it made no step", actor_gone)
add_script_kind("an actor more in the script", "nobody finds nothing at rest", actor_more)
add_script_kind("an actor on another node in the script", "it made no step of an endpoint",
                actor_elsewhere)
add_script_kind("actors in another order in the script", "they are on one node, so any of them may",
                actors_in_another_order)
add_script_kind("an actor without commands in the script", "what an actor is to do isn't looked at",
                commands_gone)
add_script_kind("nodes by other names in the script", "no name of a node stands in the text",
                node_renamed)
add_script_kind("nodes in another order in the script", "there is one node", nodes_in_another_order)
add_script_kind("a node more in the script", "nothing happens on it", node_more)
add_script_kind("a bad line in the script", None, bad_line)
add_script_kind("a bad line `order` in the script", None, bad_order)
add_script_kind("a line `order` in the script", "an order isn't looked at", good_order)
add_script_kind("a link more in the script", "no receive finds none, and nothing comes over it",
                with_link)
