"""Scripts of many shapes, each of any size, for `bench/try shapes`.

A shape is a function of a size and of a chance, which draws what the size leaves open: the same for
the same seed, whatever the size. It stands in SHAPES under its first line, with the size that the
search begins with; at four times that a run takes 0.1 to 1 s, and fits a script and a journal.
Twice the size is twice the work, but where the first line says otherwise.
"""
import random

import random_script
import speeds
from speeds import actor, repeat

SHAPES = {}
MOST = 9_900


def shape(start):
    """Notes a shape with the size that the search begins with."""
    def note(script):
        SHAPES[script.__doc__.rstrip(".")] = (script, start)
        return script
    return note


def parts(count, most=MOST):
    """A count as parts, each for an actor of its own."""
    return [min(most, count - first) for first in range(0, count, most)]


def chunks(things, most=MOST):
    """Things as parts, each for an actor of its own."""
    return [things[first:first + most] for first in range(0, len(things), most)]


def finding(name, path, *lines):
    """The lines of an actor that opens an endpoint, finds another one and calls it s."""
    return [f"open {name}", f"hunt {path}", "recv 251", "keep s", *lines]


def fillers(count, *sends, end="detach none"):
    """Actors that find the endpoint q, and send it signals by these lines, so often in all."""
    lines = []
    for k, part in enumerate(parts(count, MOST // len(sends))):
        lines += actor(f"f{k}", "n", *finding("a", "q", *repeat(part, *sends), end))
    return lines


def lot(chance):
    """A chance for as many draws as a size asks for: of the given one it takes a single draw."""
    return random.Random(chance.random())


def kinds(chance, count):
    """So many numbers of signals, no two alike."""
    return lot(chance).sample(range(10, 4_000_000_000), count)


def listed(numbers):
    """Numbers in a line."""
    return " ".join(map(str, numbers))


def names(chance, count):
    """So many names in any order, with a front in common of no, one or 27 letters."""
    front = "abcdefghijklmnopqrstuvwxyz_"[:chance.choice([0, 1, 27])]
    return [f"{front}{place}" for place in lot(chance).sample(range(count), count)]


def ordered(chance, things):
    """Things in their order, in reverse, or in any order."""
    return chance.choice([list(things), list(reversed(things)),
                          lot(chance).sample(things, len(things))])


def pair(*settings, links=1):
    """Two nodes, and links between them."""
    return ["node m", "node n"] + [" ".join([f"link l{k} m n", *settings]) for k in range(links)]


def plan(direction, verdicts, link="l0"):
    """Lines that plan these verdicts for a direction of a link."""
    return [f"plan {link} {direction} " + " ".join(some) for some in chunks(verdicts, 1000)]


def asking(data, count, more=()):
    """An actor that asks another one over a link, and gets answers, so often."""
    asks = repeat(count, f"send s 1{data}", "recv 2")
    return (actor("p", "m", *finding("a", "l0/b", *asks, *more))
            + actor("q", "n", "open b", *repeat(count, "recv 1", "send last 2")))


def telling(data, count, more=()):
    """An actor that sends to another one over a link so often, one way."""
    return (actor("p", "m", *finding("a", "l0/b", *repeat(count, f"send s 1{data}"), *more))
            + actor("q", "n", "open b", *repeat(count, "recv 1")))


def hunting(paths, node="m"):
    """Actors that hunt these paths, and wait."""
    lines = []
    for k, part in enumerate(chunks(paths)):
        lines += actor(f"h{k}", node, f"open h{k}", *[f"hunt {path}" for path in part], "recv 1")
    return lines


# Queues.

@shape(22_000)
def filled_and_taken(size, _chance):
    """Queues that are filled and then taken in order."""
    lines = ["node n"]
    for k, part in enumerate(parts(size)):
        lines += actor(f"p{k}", "n", "open a", *repeat(part, "send self 5"),
                       *repeat(part, "recv any"))
    return lines


@shape(19_000)
def two_numbers(size, chance):
    """Two numbers in turn in one queue, of which one is taken."""
    first, second = kinds(chance, 2)
    wanted = chance.choice([first, second, f"not {first}"])
    takes = repeat(size // 8, f"recv {wanted}")
    return (["node n", *actor("taker", "n", "open q", *repeat(20, "recv 251"), *takes)]
            + fillers(size, f"send s {first}", f"send s {second}"))


@shape(40_000)
def ten_senders(size, chance):
    """Ten senders with a number each into one queue, taken by one number after the other."""
    part = size // 10
    numbers = kinds(chance, 10)
    takes = [line for number in numbers for line in repeat(part // 10, f"recv {number}")]
    lines = ["node n", *actor("taker", "n", "open q", *repeat(10, "recv 4"), *takes)]
    for k, number in enumerate(numbers):
        lines += actor(f"f{k}", "n", *finding("a", "q", *repeat(part, f"send s {number}"),
                                              "send s 4"))
    return lines


@shape(6_000)
def other_numbers(size, chance):
    """As many numbers as signals, taken by their numbers in some order, or in order."""
    lines = ["node n"]
    for k, sent in enumerate(chunks(kinds(chance, size))):
        takes = [f"recv {number}" for number in ordered(chance, sent)]
        lines += actor(f"p{k}", "n", "open a", *[f"send self {number}" for number in sent],
                       *chance.choice([takes, ["recv any"] * len(takes)]))
    return lines


@shape(2_400)
def middle_by_number(size, chance):
    """The middle of a queue, taken by its number."""
    return speeds.middle(size, f"recv {chance.choice(['2', '2 7', '2 7 8 9'])}")


@shape(2_400)
def middle_by_others(size, chance):
    """The middle of a queue, taken by what it isn't."""
    return speeds.middle(size, f"recv not {chance.choice(['1 3', '1 3 7', '1 3 7 8 9'])}")


@shape(2_400)
def behind_others(size, _chance):
    """Signals behind ever so many others, taken by what they aren't."""
    return speeds.behind(size)


@shape(2_400)
def lower_numbers(size, _chance):
    """Signals, and then as many of a lower number."""
    return speeds.lower(size)


def takers(size, wanted, waiting):
    """Ten actors, each of which takes so what it sends itself, behind so many of these numbers."""
    fill = [f"send self {number}" for number in waiting]
    lines = ["node n"]
    for k in range(10):
        lines += actor(f"p{k}", "n", "open a", *repeat(size // 10 // len(waiting) + 1, *fill),
                       *repeat(size // 10, "send self 5", f"recv {wanted}"))
    return lines


@shape(15_000)
def not_of_many(size, chance):
    """Takes by what they aren't, one to 64 numbers, from behind ever so many of these."""
    numbers = kinds(chance, chance.choice([1, 8, 64, 64]))
    return takers(size, f"not {listed(numbers)}", numbers)


@shape(15_000)
def only_of_many(size, chance):
    """Takes by a filter of two to 64 numbers, from behind 64 others of ever so many signals."""
    numbers = kinds(chance, 127)
    return takers(size, listed(numbers[:chance.choice([1, 8, 63])] + [5]), numbers[63:])


@shape(30_000)
def other_filters(size, chance):
    """Takes by filters of a few of a hundred numbers, a new one each time."""
    lines = ["node n"]
    for k, part in enumerate(parts(size, 6000)):
        body = []
        for _ in range(30):
            some = chance.sample(range(10, 110), chance.randint(1, 8))
            word = "not " if chance.random() < 0.3 else ""
            body += [f"send self {chance.choice(some)}", f"send self {chance.randint(10, 109)}",
                     f"recv {word}{listed(some)}"]
        lines += actor(f"p{k}", "n", "open a", *repeat(part // 60, *body))
    return lines


@shape(45_000)
def in_vain(size, chance):
    """An actor that waits for none of the numbers that others send."""
    numbers = kinds(chance, chance.choice([1, 8, 63]))
    return (["node n", *actor("taker", "n", "open q", f"recv not 5 {listed(numbers)}")]
            + fillers(size, "send s 5", end="send s 6"))


@shape(30_000)
def waiters(size, chance):
    """Fifty actors with long filters that wait in vain, while others send to them."""
    numbers = kinds(chance, 63)
    lines = ["node n"]
    for k in range(50):
        lines += actor(f"w{k}", "n", f"open w{k}", f"recv not 5 {listed(numbers)}")
    for k, part in enumerate(parts(size)):
        lines += actor(f"f{k}", "n", *finding("a", f"w{chance.randint(0, 49)}",
                                              *repeat(part, "send s 5")))
    return lines


@shape(40_000)
def none_found(size, chance):
    """Receives that find none, each printed with 64 numbers."""
    lines = ["node n"]
    for k, part in enumerate(parts(size)):
        lines += actor(f"p{k}", "n", "open a", *repeat(part, f"recv {listed(kinds(chance, 64))}"))
    return lines


@shape(25_000)
def notices_among_signals(size, chance):
    """Notices that are detached from among 24 times as many signals."""
    notices = size // 25
    refs = [f"r{k}" for k in range(notices)]
    attaches = [f"attach s {ref}" for ref in refs]
    detaches = [f"detach {ref}" for ref in ordered(chance, refs)]
    return (["node n", *actor("d", "n", "open d", "recv 1"),
             *actor("h", "n", "open q", "hunt d", "recv 251", "keep s", "send s 1",
                    *repeat(5, "detach none"), *attaches, *repeat(size // 10, "detach none"),
                    *detaches)] + fillers(24 * notices, "send s 5"))


@shape(9_000)
def notices_of_dead(size, chance):
    """Attaches to a dead peer and some signals, and then the detaches of the queued notices."""
    mix = [f"send self {kind}" for kind in kinds(chance, chance.choice([0, 1, 4]))]
    lines = ["node n", *actor("d", "n", "open d", "recv 1")]
    for k, part in enumerate(parts(size // (2 + len(mix)), 19_000 // (2 + len(mix)))):
        refs = [f"r{j}" for j in range(part)]
        body = [line for ref in refs for line in (f"attach s {ref}", *mix)]
        lines += actor(f"p{k}", "n", *finding("a", "d", "send s 1", *repeat(3, "detach none")),
                       *body, *[f"detach {ref}" for ref in ordered(chance, refs)])
    return lines


@shape(40_000)
def short_data(size, chance):
    """Signals of up to 33 bytes of two kinds, which are alike at both ends, that stay queued."""
    middle = chance.choice([0, 15, 16, 17])
    sends = [f"send s {number} hex:{'ab' * 8}{f'{byte:02x}' * middle}{'cd' * 8}"
             for byte, number in enumerate(kinds(chance, 2))]
    lines = ["node n", *actor("q", "n", "open q", "recv 251")]
    for k in range(20):
        lines += actor(f"p{k}", "n", *finding(f"a{k}", "q", *["detach none"] * (k % 2),
                                              *repeat(size // 40, *sends), "recv 7"))
    return lines


# Hunts, names and attaches.

@shape(20_000)
def one_opening(size, chance):
    """Hunts for one name that one opening answers."""
    part = size // 10
    lines = ["node n"]
    for k in range(10):
        lines += actor(f"h{k}", "n", "open a", *repeat(part, "hunt s"),
                       *repeat(part, f"recv {chance.choice(['251', 'any'])}"))
    return lines + actor("o", "n", *repeat(part + 100, "detach none"), "open s", "recv 1")


@shape(6_000)
def unopened_names(size, chance):
    """Hunts for as many names that nobody opens."""
    return ["node n", *hunting(names(chance, size), "n")]


@shape(8_000)
def opened_names(size, chance):
    """Openings of as many names, after all of which somebody hunts."""
    lines = ["node n"]
    every = names(chance, size // 3)
    for k, part in enumerate(chunks(every, 6_000)):
        lines += actor(f"o{k}", "n", *repeat(6_000, "detach none"),
                       *[line for name in part for line in (f"open {name}", "close")])
    return lines + hunting(ordered(chance, every), "n")


@shape(200)
def hunters(size, _chance):
    """Sixty actors that hunt again and again for names that four open and close."""
    return speeds.hunters(size)


@shape(16_000)
def attached_and_detached(size, chance):
    """Attaches to one peer under names, which are detached in some order."""
    lines = ["node n", *actor("peer", "n", "open s", "recv 1")]
    for k, part in enumerate(parts(size // 2)):
        refs = [f"r{j}" for j in range(part)]
        lines += actor(f"p{k}", "n", *finding("a", "s", *[f"attach s {ref}" for ref in refs],
                                              *[f"detach {ref}" for ref in ordered(chance, refs)]))
    return lines


@shape(20_000)
def notified(size, chance):
    """Attaches to a peer that one closing notifies."""
    signal = chance.choice(["252", "7", f"7 hex:{'ab' * 31}", f"7 hex:{'ab' * 33}"])
    lines = ["node n", *actor("peer", "n", "open s", *repeat(size // 10 + 100, "detach none"))]
    for k in range(10):
        lines += actor(f"p{k}", "n", *finding("a", "s", *repeat(size // 10, f"attach s r {signal}"),
                                              *repeat(size // 10, "recv 252 7")))
    return lines


@shape(40_000)
def two_peers(size, _chance):
    """Two peers that are attached to by turns."""
    lines = ["node n"]
    for name in "st":
        lines += actor(name, "n", f"open {name}", "recv 1")
    for k, part in enumerate(parts(size // 2, 4_500)):
        lines += actor(f"p{k}", "n", *finding("a", "s", "hunt t", "recv 251", "keep t",
                                              *repeat(part, "attach s r", "attach t r"), "recv 1"))
    return lines


@shape(40_000)
def closing_hunters(size, chance):
    """Fifty actors that hunt and attach, close, and begin again."""
    each = chance.choice([2, 20, 60])
    lines = ["node n", *actor("peer", "n", "open s", "recv 1")]
    for k in range(50):
        body = [f"open h{k}", "hunt s", "recv 251", "keep s", *["hunt none"] * each,
                *["attach s r"] * each, "close"]
        lines += actor(f"p{k}", "n", *repeat(max(size // 50 // (2 * each + 5), 1), *body))
    return lines


@shape(45_000)
def openings(size, _chance):
    """Openings and closings by 64 actors."""
    lines = ["node n"]
    for k in range(64):
        lines += actor(f"p{k}", "n", *repeat(size // 128, f"open n{k}", "close"))
    return lines


@shape(4_500)
def names_kept(size, chance):
    """As many names as commands, of senders that are kept and of attaches."""
    lines = ["node n"]
    for k, part in enumerate(chunks(names(chance, size // 3), 6_000)):
        lines += actor(f"p{k}", "n", "open a", "send self 1", "recv 1",
                       *[f"keep v{name[-30:]}" for name in part],
                       *[line for name in ordered(chance, part)
                         for line in (f"attach v{name[-30:]} {name}", f"detach {name}")])
    return lines


# Links.

@shape(2_000)
def pings(size, chance):
    """Signals to and fro over a link."""
    return pair(f"window {chance.choice([1, 2, 32])}", "piece 64") + asking(
        f" fill:{chance.choice([0, 5, 300])}:11", size)


@shape(4_500)
def one_way(size, chance):
    """Signals over a link, one way."""
    return pair(f"window {chance.choice([1, 8, 256])}",
                f"piece {chance.choice([64, 8192])}") + telling("", size)


@shape(20)
def small_pieces(size, chance):
    """Signals of 65,532 bytes in pieces of 64."""
    return pair(f"window {chance.choice([1, 32, 256])}", "piece 64") + telling(
        " fill:65532:11", size)


@shape(2_400)
def bad_link(size, chance):
    """Signals to and fro over a link that loses, repeats and exchanges by a plan."""
    words, far = chance.choice(random_script.LOTS), chance.choice([1, 3, 9])
    draws = lot(chance)
    verdicts = [f"S{draws.randint(1, far)}" if word == "S" else word
                for word in draws.choices(words, k=min(2 * size, 10_000))]
    return (pair(f"window {chance.choice([1, 4, 32])}", f"piece {chance.choice([64, 1400])}")
            + plan(">", verdicts) + plan("<", verdicts[::-1]) + asking(" fill:500:11", size))


@shape(4_000)
def exchanged(size, chance):
    """Signals over a link that exchanges packets with far ones."""
    verdicts = [chance.choice(["D", "S9", f"S{chance.randint(1, 9)}"])
                for _ in range(min(size, 10_000))]
    return (pair("window 32", "piece 64") + plan(">", verdicts) + plan("<", verdicts[::-1])
            + telling(" fill:200:11", size))


@shape(1_200)
def cut_and_mended(size, chance):
    """A link that is cut and mended, its node restarted, and settled, again and again."""
    body = ["cut l0", "mend l0", "restart n", "settle l0"]
    chance.shuffle(body)
    return pair() + actor("p", "m", "open a", *repeat(size, *body))


@shape(50)
def many_settled(size, chance):
    """Settles of 32 links, each after a cut."""
    body = [line for k in range(32) for line in (f"cut l{k}", f"mend l{k}", f"settle l{k}")]
    return (pair(f"window {chance.choice([1, 32])}", links=32)
            + actor("p", "m", "open a", *repeat(size, *body)))


@shape(5_000)
def asked_each_session(size, chance):
    """Hunts pending over a link, whose other node restarts for each 200: four times the work."""
    return (pair(f"window {chance.choice([32, 256])}") + hunting(["l0/none"] * size)
            + actor("r", "m", *repeat(min(size, MOST), "detach none"),
                    *["restart n", *["detach none"] * 12] * (size // 200)))


@shape(6_000)
def hunts_over_cut(size, chance):
    """Hunts over a cut link, for one name or for many."""
    every = chance.choice([["x"] * size, names(chance, size)])
    return (pair() + actor("c", "m", "cut l0")
            + hunting([f"l0/{name}" for name in every]))


@shape(6_000)
def hunts_unanswered(size, chance):
    """Hunts over a link that nobody answers, for one name or for many."""
    every = chance.choice([["x"] * size, names(chance, size)])
    return pair() + hunting([f"l0/{name}" for name in every])


@shape(1_150)
def met_and_gone(size, chance):
    """Openings and closings that are hunted for over a link, again and again."""
    return (pair(f"window {chance.choice([1, 32])}")
            + actor("o", "n", *repeat(size, "open x", "close"))
            + actor("h", "m", "open a", *repeat(size, "hunt l0/x", "recv 251", "keep s",
                                                "attach s r")))


@shape(40_000)
def restarts(size, _chance):
    """Restarts of a node by 64 actors."""
    return speeds.restarts(size // 64)


@shape(40_000)
def restarts_with_cut_links(size, chance):
    """Restarts of a node with cut links, by 40 actors."""
    links = chance.choice([1, 4, 8])
    lines = pair(links=links) + actor("c", "m", *[f"cut l{k}" for k in range(links)])
    for k in range(40):
        lines += actor(f"p{k}", "n", *repeat(size // 40, "restart n"))
    return lines


@shape(500)
def many_sessions(size, chance):
    """A hunt, an attach and a signal in each session, and then a restart."""
    data = chance.choice(["", " fill:3000:11"])
    return (pair(f"window {chance.choice([1, 32])}")
            + actor("p", "m", "open a", *repeat(size, "hunt l0/b", "settle l0", "recv 251",
                                                "keep s", "attach s r", f"send s 1{data}",
                                                "settle l0", "restart n", "settle l0"))
            + actor("q", "n", *repeat(2 * size, "open b", "recv 1")))


@shape(2_400)
def asked_again(size, chance):
    """A packet that asks for 255 frames, delivered again and again, on one link or more."""
    links = chance.choice([1, 1, 4])
    lines = pair("window 256", "piece 64", links=links)
    for k in range(links):
        lines += plan("<", ["D"] * 5 + ["L"] * 255, f"l{k}")
        lines += plan(">", ["D"] * 8 + ["R"] * (size // links), f"l{k}")
        lines += actor(f"p{k}", "m", f"open b{k}", "recv 1")
        lines += actor(f"q{k}", "n", *finding("a", f"l{k}/b{k}", "send s 1 fill:65532:11",
                                              "recv 1"))
    return lines


@shape(4_500)
def sent_while_cut(size, chance):
    """Signals that are sent over a link while it is cut."""
    data = chance.choice(["", " fill:1000:11"])
    lines = pair(f"window {chance.choice([1, 256])}", f"piece {chance.choice([64, 1400])}")
    return (lines + actor("p", "m", *finding("a", "l0/b", "cut l0",
                                             *repeat(size, f"send s 1{data}"), "mend l0"))
            + actor("q", "n", "open b", *repeat(size, "recv 1")))


@shape(600)
def chain(size, chance):
    """Sixteen nodes in a chain, with signals that are sent on from one to the next."""
    lines = [f"node n{k}" for k in range(16)]
    lines += [f"link l{k} n{k} n{k + 1} window {chance.choice([1, 32])}" for k in range(15)]
    for k in range(15):
        body = ["recv 1", "forward s"] if k else ["send s 1 fill:100:11"]
        lines += actor(f"p{k}", f"n{k}", *finding(f"e{k}", f"l{k}/e{k + 1}", *repeat(size, *body)))
    return lines + actor("p15", "n15", "open e15", *repeat(size, "recv 1"))


@shape(150)
def crowd(size, chance):
    """64 actors on 16 nodes with 32 links, each with a peer of its own."""
    ends = [(k % 16, (k + 1 + k // 16) % 16) for k in range(32)]
    lines = [f"node n{k}" for k in range(16)]
    lines += [f"link l{k} n{one} n{other} window {chance.choice([1, 8])}"
              for k, (one, other) in enumerate(ends)]
    for k, (one, other) in enumerate(ends):
        lines += actor(f"p{k}", f"n{one}", *finding("a", f"l{k}/b{k}", *repeat(size, "send s 1",
                                                                              "recv 2")))
        lines += actor(f"q{k}", f"n{other}", f"open b{k}", *repeat(size, "recv 1", "send last 2"))
    return lines


@shape(300)
def attached_over_link(size, chance):
    """Attaches over a link whose other node restarts again and again."""
    each = chance.choice([1, 10])
    return (pair() + actor("p", "m", "open a", *repeat(size, "hunt l0/b", "settle l0", "recv 251",
                                                       "keep s", *["attach s r"] * each,
                                                       "restart n", "settle l0"))
            + actor("q", "n", *repeat(2 * size, "open b", "recv 1")))


@shape(100)
def load(size, _chance):
    """The generated load."""
    return speeds.load(size)


# Data, and long scripts.

@shape(20_000)
def long_data(size, chance):
    """Signals of 300 bytes of thirty kinds, and their text."""
    lines = ["node n"]
    for k, part in enumerate(parts(size)):
        some = [line for _ in range(30)
                for line in (f"send self {chance.randint(1, 9)} "
                             f"fill:{300 - k}:{chance.randint(0, 255):02x}", "recv any")]
        lines += actor(f"p{k}", "n", "open a", *repeat(part // 30, *some))
    return lines


@shape(120)
def unlike(size, _chance):
    """Signals of nearly 65,532 bytes, no two alike."""
    return speeds.unlike(size)


@shape(12_000)
def forwarded(size, chance):
    """A signal that is taken and sent on in a ring."""
    count = chance.choice([10, 30])
    lines = ["node n"]
    for k in range(count):
        first = ["send s 1 fill:200:11"] if k == 0 else []
        lines += actor(f"p{k}", "n", *finding(f"e{k}", f"e{(k + 1) % count}", *first,
                                              *repeat(size // count, "recv 1", "forward s")))
    return lines


@shape(8)
def long_data_over_link(size, chance):
    """Long data of eight kinds over a link, sent on and back."""
    sends = [line for place in range(8)
             for line in (f"send s 1 fill:{chance.randint(50_000, 65_532)}:{place:02x}", "recv 1")]
    return (pair(f"window {chance.choice([4, 64])}", f"piece {chance.choice([1400, 8192])}")
            + actor("p", "m", *finding("a", "l0/b", *repeat(size, *sends)))
            + actor("q", "n", "open b", *repeat(8 * size, "recv 1", "forward last")))


@shape(240_000)
def long_script(size, chance):
    """A script of so many bytes, nearly all of them commands that are run."""
    command = chance.choice(["send self 1 hex:0102", "recv 1 2 3", "hunt a", "attach self r"])
    lines = ["node n"]
    for k, part in enumerate(parts(size // (len(command) + 1))):
        lines += actor(f"p{k}", "n", "open a", *[command] * part)
    return lines


@shape(2_000)
def many_blocks(size, chance):
    """Short repeated blocks."""
    command = chance.choice(["send self 1", f"recv {listed(kinds(chance, 5))}"])
    block = repeat(chance.choice([1, 2, 9]), command)
    lines = ["node n"]
    for k, part in enumerate(parts(size, 2_000)):
        lines += actor(f"p{k}", "n", "open a", *(block * part))
    return lines


@shape(48_000)
def repeated(size, chance):
    """Repeated blocks of commands, of which half is run before the journal is full."""
    command = chance.choice(["detach none", "send s 1 fill:9:00", "hunt none"])
    lines = ["node n"]
    for k, part in enumerate(parts(size)):
        lines += actor(f"p{k}", "n", *repeat(part, command))
    return lines


@shape(100_000)
def long_plans(size, chance):
    """Plans that are longer than their runs."""
    words = chance.choice(["DDDDDLR", "D", "DR"])
    lines = pair(links=32)
    for k, part in enumerate(parts(size, 10_000)):
        verdicts = lot(chance).choices(words, k=part)
        lines += plan(">" if k % 2 else "<", verdicts, f"l{k // 2}")
    return lines + actor("p", "m", "open a")


@shape(12_000)
def ring(size, _chance):
    """64 actors in a ring, each of which waits for the one before it."""
    return speeds.ring(size // 64)


def again_and_again(seed, times):
    """A random script, whose actors each do all their commands so often."""
    lines = []
    for line in random_script.Writer(seed).script().split("\n")[:-1]:
        words = line.split()
        if line == "end":
            lines += ["end", "end"]
        elif words[0] == "actor":
            lines += [line, f"repeat {times}"]
        elif words[0] != "repeat" and line != "  end":
            lines.append(line)
    return lines
