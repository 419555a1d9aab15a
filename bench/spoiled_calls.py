"""Spoils the steps of printed texts of runs by what a call asks of several of them.

The kinds are those of spoiled_steps.py.
"""
import laws
from spoiled_steps import (EFFECTS, HEADS, KINDS, copied, effect_places, history_before, kind,
                           other, places, renumbered, reordered, values_of, with_step)
from texts import Step


# Receives.

def taken_instead(chance, run, choices):
    """A take of another position, of those that a function of its history and its head gives."""
    found = places(run, "take")
    if not found:
        return None
    at = chance.choice(found)
    history, step = history_before(run, at), run.steps[at]
    positions = [position for position in choices(history, history.endpoints[step.maker], step.head)
                 if position != step.head[2]]
    if not positions:
        return None
    steps = copied(run.steps)
    steps[at].head[2] = chance.choice(positions)
    return steps


@kind("take of a later item that is selected")
def take_later(chance, run):
    """An item that is selected, and stands behind the first one."""
    return taken_instead(chance, run, lambda history, me, head: [
        item.position for item in history.queues[me] if laws.selects(head[1], item.number)])


@kind("take of an item that isn't selected")
def take_unselected(chance, run):
    """An item in the queue that the filter passes over."""
    return taken_instead(chance, run, lambda history, me, head: [
        item.position for item in history.queues[me] if not laws.selects(head[1], item.number)])


@kind("take of another endpoint's item")
def take_foreign(chance, run):
    """An item of another queue."""
    return taken_instead(chance, run, lambda history, me, head: [
        item.position for inc, items in history.queues.items() if inc != me for item in items])


@kind("take of an item that was taken")
def take_again(chance, run):
    """The item of an earlier take."""
    return taken_instead(chance, run, lambda history, me, head: [
        step.head[2] for step in run.steps[:history.count] if step.head[0] == "take"])


@kind("take of what comes later")
def take_future(chance, run):
    """The item of a later take."""
    return taken_instead(chance, run, lambda history, me, head: [
        step.head[2] for step in run.steps[history.count:] if step.head[0] == "take"])


def receive_instead(name, before, after, why=None):
    """A kind in which a receive ends otherwise."""
    @kind(name, why)
    def spoil(chance, run):
        found = places(run, before)
        if not found:
            return None
        steps, at = copied(run.steps), chance.choice(found)
        head = [after, steps[at].head[1]]
        if after == "take":
            head.append(other(chance, run, "POSITION", ""))
        steps[at] = steps[at]._replace(head=head)
        return steps


receive_instead("none in place of a take", "take", "none")
receive_instead("waits in place of a take", "take", "waits")
receive_instead("none in place of a wait", "waits", "none",
                "its maker is at rest there, and every link is still")
receive_instead("waits in place of a none", "none", "waits",
                "its maker finds nothing, and doesn't wait already")
receive_instead("take in place of a none", "none", "take")
receive_instead("take in place of a wait", "waits", "take")


def receive_before(name, why, word, filters):
    """A kind in which an actor with an endpoint makes a receive more before a step of its own."""
    @kind(name, why)
    def spoil(chance, run):
        at = chance.randrange(len(run.steps))
        maker = run.steps[at].maker
        history = history_before(run, at)
        if maker not in history.endpoints:
            return None
        selected = filters(history.queues[history.endpoints[maker]])
        if not selected:
            return None
        return with_step(run, at, Step(maker, [word, chance.choice(selected)], []))


receive_before("a none too early", "its maker is at rest there", "none",
               lambda queue: ["only:77", "only:"])
receive_before("a none where an item is queued", None, "none",
               lambda queue: ["any", "not:77"] if queue else [])
receive_before("a wait where nothing is selected",
               "an actor may wait before any step, where its last one didn't wait", "waits",
               lambda queue: ["only:77", "only:"])
receive_before("a wait where an item is queued", None, "waits",
               lambda queue: [f"only:{queue[0].number}", "any", "not:77"] if queue else [])


@kind("a wait behind a wait of the same actor")
def wait_again(chance, run):
    """A second wait, with steps of others between."""
    found = places(run, "waits")
    if not found:
        return None
    at = chance.choice(found)
    maker = run.steps[at].maker
    behind = next((k for k in range(at + 1, len(run.steps)) if run.steps[k].maker == maker),
                  len(run.steps))
    place = chance.randint(at + 1, behind)
    return with_step(run, place, Step(maker, list(run.steps[at].head), []))


# Ends and fronts.

def ending(run, at, maker):
    """The end of an actor at a place, with its effects there."""
    history = history_before(run, at)
    if maker[0] == "P":
        return Step(maker, ["ended"], [])
    judged = laws.Judged(run.shape, history, Step(maker, ("ended",), []))
    effects = laws.effects_by(history, judged.node(), judged.me, ("ended",))
    return Step(maker, ["ended"], [printed(effect) for effect in effects])


def printed(effect):
    """The words of an effect."""
    words = []
    for word in effect:
        if isinstance(word, laws.Note):
            data = word.data
            shown = data.hex() or "-"
            if len(data) > 32:
                shown = f"{len(data)}:{laws.shown_of(data)[:32].hex()}"
            words += [word.number, shown]
        else:
            words.append(word)
    return words


@kind("an early end, and steps behind it")
def end_early(chance, run):
    """An actor ends, and goes on."""
    at = chance.randrange(len(run.steps))
    step = ending(run, at, run.steps[at].maker)
    return with_step(run, at, step)


@kind("an early end, and no step behind it", "no other actor's step leans on those that are gone")
def end_and_stop(chance, run):
    """An actor ends, and its later steps are gone."""
    at = chance.randrange(len(run.steps))
    maker = run.steps[at].maker
    kept = [k for k in range(1, len(run.steps) + 1)
            if k <= at or run.steps[k - 1].maker != maker]
    befores = [*kept[:at], None, *kept[at:]]
    last = ending(run, at, maker)
    return renumbered([last if k is None else run.steps[k - 1] for k in befores], befores)


@kind("a step behind its maker's end")
def step_behind_end(chance, run):
    """A step of an actor that ended."""
    ends = places(run, "ended")
    if not ends:
        return None
    at = chance.choice(ends)
    step = chance.choice(run.steps)._replace(maker=run.steps[at].maker)
    return with_step(run, chance.randint(at + 1, len(run.steps)), step)


@kind("no step ended", "that all actors end isn't a law of a step")
def no_ends(_, run):
    """All ends are gone."""
    return reordered(run, [k for k in range(1, len(run.steps) + 1)
                           if run.steps[k - 1].head[0] != "ended"])


@kind("a front of the steps", "the steps before any step of a legal run are legal")
def front(chance, run):
    """The last steps are gone."""
    count = chance.randrange(1, len(run.steps)) if len(run.steps) > 1 else 0
    return copied(run.steps[:count]) if count else None


@kind("the steps without the first ones", "no step behind leans on those that are gone")
def back(chance, run):
    """The first steps are gone."""
    if len(run.steps) < 2:
        return None
    return reordered(run, range(1 + chance.randrange(1, len(run.steps)), len(run.steps) + 1))


@kind("the steps of one actor are gone", "no other actor's step leans on them")
def one_actor_less(chance, run):
    """All steps of an actor are gone."""
    maker = chance.choice(run.steps).maker
    befores = [k for k in range(1, len(run.steps) + 1) if run.steps[k - 1].maker != maker]
    return reordered(run, befores) if befores else None


@kind("the steps in another order", "no step leans on one that stands behind it now")
def shuffled(chance, run):
    """Some steps in a row in another order."""
    count = len(run.steps)
    at = chance.randrange(count)
    befores = list(range(1, count + 1))
    few = befores[at:at + 4]
    chance.shuffle(few)
    return reordered(run, [*befores[:at], *few, *befores[at + 4:]])


# What the laws ask of several lines at once.

def replaced(run, change):
    """The steps with each word changed by a function of its field and itself."""
    steps = copied(run.steps)
    for step in steps:
        for words, rows in ((step.head, HEADS), *((effect, EFFECTS) for effect in step.effects)):
            row = next(row.split(" ") for row in rows if row.split(" ")[0] == words[0])
            words[:] = [change(field, word) for field, word in zip(row, words)]
    return steps


def everywhere(name, fields, why):
    """A kind in which a word of some fields is another one wherever it stands."""
    @kind(name, why)
    def spoil(chance, run):
        found = [word for field in fields for word in values_of(run, field)]
        if not found:
            return None
        old = chance.choice(found)
        new = other(chance, run, fields[0], old)
        return replaced(run, lambda field, word: new if (
            field in fields and word == old) else word)


everywhere("a name is another everywhere", ("NAME", "PATH"),
           "names may be any, where the same ones are found")
everywhere("a number is another everywhere", ("NUMBER",),
           "numbers may be any, where filters select the same items")
everywhere("data are others everywhere", ("DATA",),
           "data may be any, where no attach tells of them")
everywhere("an incarnation is another everywhere", ("INC", "PEER"),
           "it is the peer of nobody: one that was never opened")
everywhere("a filter is another everywhere", ("FILTER",), "it selects the same items")


@kind("two actors exchanged everywhere", "actors of one node may do one another's steps")
def actors_exchanged(chance, run):
    """Two actors make one another's steps."""
    count = len(run.shape.actors)
    if count < 2:
        return None
    one, another = (f"A{k}" for k in chance.sample(range(1, count + 1), 2))
    new = {one: another, another: one}
    return [step._replace(maker=new.get(step.maker, step.maker)) for step in copied(run.steps)]


@kind("a send to the living is answered dead, without its arrival")
def send_as_dead(chance, run):
    """As if the peer were dead."""
    found = [at for at in places(run, "send") if run.steps[at].head[-1] == "queued"]
    if not found:
        return None
    steps, at = copied(run.steps), chance.choice(found)
    steps[at].head[-1] = "dead"
    steps[at].effects.clear()
    return steps


@kind("a send to the dead is answered queued, with an arrival")
def send_as_living(chance, run):
    """As if the peer were alive."""
    found = [at for at in places(run, "send") if run.steps[at].head[-1] == "dead"]
    if not found:
        return None
    steps, at = copied(run.steps), chance.choice(found)
    _, peer, number, data, _ = steps[at].head
    me = history_before(run, at).endpoints[steps[at].maker]
    steps[at].head[-1] = "queued"
    steps[at].effects.append(["arrived", peer, me, number, data])
    return steps


@kind("a hunt is told nothing, and finds nothing")
def hunt_unanswered(chance, run):
    """The answer to a hunt that found at once is gone, with the steps that take it."""
    found = [at for at in places(run, "hunt") if run.steps[at].effects]
    if not found:
        return None
    steps, at = copied(run.steps), chance.choice(found)
    steps[at].effects.clear()
    return steps


@kind("an attach with 65,532 bytes")
def attach_too_long(chance, run):
    """The notification would have a byte too many."""
    found = places(run, "attach")
    if not found:
        return None
    steps, at = copied(run.steps), chance.choice(found)
    steps[at].head[3] = f"65532:{chance.getrandbits(256):064x}"
    return steps


def attach_data(name, why, change):
    """A kind in which the data of an attach are others, and those of its notifications."""
    @kind(name, why)
    def spoil(chance, run):
        found = places(run, "attach")
        if not found:
            return None
        at = chance.choice(found)
        data, told = change(chance)
        steps = copied(run.steps)
        steps[at].head[3] = data
        for step in steps:
            for effect in step.effects:
                if effect[0] == "notified" and effect[5] == f"@{at + 1}":
                    effect[4] = told(laws.REASONS.index(effect[6]))
        return steps


def sized(chance, size):
    """A word for so many data, of which nothing is known."""
    return f"{size}:{chance.getrandbits(256):064x}"


def notice_of_32(_):
    """32 bytes, and the digest of them and the byte of a reason."""
    def told(byte):
        return f"33:{laws.shown_of(b'Z' * 32 + bytes([byte]))[:32].hex()}"
    return "5a" * 32, told


attach_data("an attach and its notifications have other short data",
            "an attach may have any data, and is told with them",
            lambda chance: ("0102", lambda byte: f"0102{byte:02x}"))
attach_data("an attach has 32 bytes, and its notifications their digest",
            "the digest of 33 bytes is reckoned from the 32 that are known", notice_of_32)
attach_data("an attach has 32 bytes, and its notifications another digest",
            "the attach is told nothing",
            lambda chance: ("5a" * 32, lambda byte: sized(chance, 33)))
attach_data("an attach has 33 bytes, and its notifications any digest of 34",
            "a digest tells nothing of its attach's data, but how many they are",
            lambda chance: (sized(chance, 33), lambda byte: sized(chance, 34)))
attach_data("an attach has 33 bytes, and its notifications 35", "the attach is told nothing",
            lambda chance: (sized(chance, 33), lambda byte: sized(chance, 35)))
attach_data("an attach has 65,531 bytes, and its notifications 65,532",
            "so many an attach may have",
            lambda chance: (sized(chance, 65_531), lambda byte: sized(chance, 65_532)))


@kind("two effects of a step that ends an endpoint change places")
def closing_exchanged(chance, run):
    """Another order of what an end brings."""
    found = [at for at, step in enumerate(run.steps)
             if step.head[0] in ("close", "ended", "restart") and len(step.effects) > 1]
    if not found:
        return None
    steps = copied(run.steps)
    effects = steps[chance.choice(found)].effects
    chance.shuffle(effects)
    return steps


@kind("a restart notifies")
def restart_notifies(chance, run):
    """An effect behind a restart that only a closing has."""
    found, told = places(run, "restart"), effect_places(run, "notified")
    if not found or not told:
        return None
    steps, (at, place) = copied(run.steps), chance.choice(told)
    steps[chance.choice(found)].effects.append(list(run.steps[at].effects[place]))
    return steps


@kind("an open of an actor that has an endpoint")
def open_twice(chance, run):
    """A second endpoint, with its effect."""
    at = chance.randrange(len(run.steps))
    history = history_before(run, at)
    maker = run.steps[at].maker
    if maker not in history.endpoints:
        return None
    node = laws.node_of(history.endpoints[maker])
    inc = f"{node}.{history.opened[node] + 1}"
    return with_step(run, at, Step(maker, ["open", "second"], [["opened", inc]]))


@kind("a step of an endpoint of an actor that has none")
def step_without_endpoint(chance, run):
    """A step before the opening."""
    opens = places(run, "open")
    found = [step for step in run.steps if step.head[0] in laws.OF_ENDPOINT]
    if not opens or not found:
        return None
    at = chance.choice(opens)
    step = chance.choice(found)._replace(maker=run.steps[at].maker)
    return with_step(run, at, step._replace(effects=[]))


# Rest.

def standing_to(history, maker, other):
    """How another actor stands, as far as one asks that is to be at rest."""
    selected, inc = history.waits.get(other), history.endpoints.get(other)
    if other in history.ended:
        return "ended"
    if selected is None:
        return "busy"
    if inc is None:
        return "closed"
    if history.first_selected(selected, inc) is not None:
        return "served"
    return "idle" if int(maker[1:]) < int(other[1:]) else "first"


def finds_none(name, why, standing):
    """A kind in which an actor finds nothing where each other one has ended or is idle, but for
    those that stand so, of which there is one."""
    @kind(name, why)
    def spoil(chance, run):
        history, found = laws.History(run.shape), []
        for at, step in enumerate(laws.told_of(run.steps), 1):
            history.add(step)
            for maker in history.endpoints:
                others = {standing_to(history, maker, f"A{k}")
                          for k in range(1, len(run.shape.actors) + 1) if maker != f"A{k}"}
                if standing in others and others <= {"ended", "idle", standing}:
                    found.append((at, maker))
        if not found:
            return None
        at, maker = chance.choice(found)
        return with_step(run, at, Step(maker, ["none", "only:77"], []))


AT_REST = "it is at rest there, and no step behind leans on its waiting"
finds_none("nothing is found where all others ended", AT_REST, "ended")
finds_none("nothing is found where another waits in vain", AT_REST, "idle")
finds_none("nothing is found where an earlier actor waits in vain", None, "first")
finds_none("nothing is found where another has what it waits for", None, "served")
finds_none("nothing is found where another's endpoint closed while it waited", None, "closed")
finds_none("nothing is found where another one goes on", None, "busy")


@kind("a waiting actor finds nothing", "it is at rest there")
def waiting_finds_none(chance, run):
    """A none of an actor whose last step waits."""
    at = chance.randrange(len(run.steps) + 1)
    history = history_before(run, at)
    found = [(maker, selected) for maker, selected in history.waits.items() if selected]
    if not found:
        return None
    maker, selected = chance.choice(found)
    return with_step(run, at, Step(maker, ["none", selected], []))


# What was settled before.

def one_effect_more(chance, run, heads, choices):
    """An effect more behind a step with one of these heads, of those that a function of the steps
    and the place gives."""
    found = [at for at, step in enumerate(run.steps) if step.head[0] in heads and step.effects]
    chance.shuffle(found)
    for at in found:
        has = run.steps[at].effects
        effects = [effect for effect in choices(run.steps, at) if effect not in has]
        if effects:
            steps = copied(run.steps)
            steps[at].effects.append(chance.choice(effects))
            return steps
    return None


def asked_before(steps, at, word):
    """Each step before a place with this head, and the endpoint of its maker then."""
    opened = {}
    for position, (maker, head, effects) in enumerate(steps[:at], 1):
        opened.update((maker, inc) for inc in laws.incs_in("opened", effects))
        if head[0] == word and maker in opened:
            yield position, opened[maker], head


@kind("an opening answers a hunt more")
def found_more(chance, run):
    """The hunt was answered, its asker closed, or it is on another node."""
    return one_effect_more(chance, run, ["open"], lambda steps, at: [
        ["found", inc, steps[at].effects[0][1], *head[2:4], f"@{position}"]
        for position, inc, head in asked_before(steps, at, "hunt") if head[1] == steps[at].head[1]])


@kind("a closing tells an attach more")
def told_more(chance, run):
    """The attach was told, taken back, or closed."""
    def notices(steps, at):
        ended = laws.incs_in("closed", steps[at].effects)
        for position, inc, head in asked_before(steps, at, "attach"):
            if head[1] in ended:
                data = "00" if head[3] == "-" else f"{head[3]}00"
                if len(data) > 64:
                    data = f"{len(data) // 2}:{'0' * 64}"
                yield ["notified", inc, head[1], head[2], data, f"@{position}", "closed"]
    return one_effect_more(chance, run, ["close", "ended", "restart"], notices)


def detach_more(name, why, choices, answer):
    """A kind in which a detach is made more, by whom a function of the history gives."""
    @kind(name, why)
    def spoil(chance, run):
        at = chance.randrange(len(run.steps))
        found = list(choices(history_before(run, at)))
        if not found:
            return None
        maker, reference = chance.choice(found)
        return with_step(run, at, Step(maker, ["detach", reference, answer], []))


def holders_of_owed(history):
    """Each actor with the reference of an attach that is owed."""
    return [(maker, attach.reference) for maker, inc in history.endpoints.items()
            for attach in history.attaches if attach.at == inc]


def others_of_owed(history):
    """Each actor with the reference of another one's attach that is owed."""
    return [(maker, attach.reference) for maker, inc in history.endpoints.items()
            for attach in history.attaches if attach.at != inc]


def holders_of_notices(history):
    """Each actor with the reference of a notification in its queue."""
    return [(maker, item.notice_of) for maker, inc in history.endpoints.items()
            for item in history.queues[inc] if item.notice_of]


BEHIND = "no step behind leans on the notification"
detach_more("a detach of what is owed", BEHIND, holders_of_owed, "pending")
detach_more("a detach of what is owed, answered queued", None, holders_of_owed, "queued")
detach_more("a detach of what is owed, answered none", None, holders_of_owed, "none")
detach_more("a detach of what is queued", BEHIND, holders_of_notices, "queued")
detach_more("a detach of what is queued, answered pending", None, holders_of_notices, "pending")
detach_more("a detach of what is queued, answered none", None, holders_of_notices, "none")
detach_more("a detach of another one's attach", "it isn't one of its own", others_of_owed, "none")
detach_more("a detach of another one's attach, answered pending", None, others_of_owed, "pending")


# Another node, and another endpoint of the same name.

def across(name, why, words, effect=None):
    """A kind in which an actor's step names an open endpoint of another node, with an effect or
    without one; in both OWN, PEER, NAME and REF stand for its endpoint, the other one, the name of
    that and the step."""
    @kind(name, why)
    def spoil(chance, run):
        at = chance.randrange(len(run.steps))
        history = history_before(run, at)
        found = [(maker, inc, peer) for maker, inc in history.endpoints.items()
                 for peer in history.open if laws.node_of(inc) != laws.node_of(peer)]
        if not found:
            return None
        maker, inc, peer = chance.choice(found)
        new = {"OWN": inc, "PEER": peer, "NAME": history.names[peer], "REF": f"@{at + 1}"}
        head, *effects = ([new.get(word, word) for word in row.split(" ")]
                          for row in (words, effect) if row)
        return with_step(run, at, Step(maker, head, effects))


across("a send to another node", "who is open on another node is dead on the own one",
       "send PEER 5 - dead")
across("a send to another node, answered queued", None, "send PEER 5 - queued",
       "arrived PEER OWN 5 -")
across("a send to another node, with its arrival", None, "send PEER 5 - dead",
       "arrived PEER OWN 5 -")
across("an attach to another node", None, "attach PEER 252 -")
across("an attach to another node, told dead", "who is open on another node is dead on the own one",
       "attach PEER 252 -", "notified OWN PEER 252 02 REF dead")
across("a hunt of a name of another node", "nobody on the own node has the name or opens it later",
       "hunt NAME 251 -")
across("a hunt of a name of another node, found", None, "hunt NAME 251 -",
       "found OWN PEER 251 - REF")


@kind("a hunt finds the later of two")
def later_of_two(chance, run):
    """Another open endpoint of the name."""
    found = [at for at in places(run, "hunt") if run.steps[at].effects]
    chance.shuffle(found)
    for at in found:
        history, (maker, head, effects) = history_before(run, at), run.steps[at]
        node = laws.node_of(history.endpoints[maker])
        named = [inc for inc in history.open_endpoints(node) if history.names[inc] == head[1]]
        if len(named) > 1:
            steps = copied(run.steps)
            steps[at].effects[0][2] = chance.choice(named[1:])
            return steps
    return None


@kind("an opening counts anew")
def counts_anew(chance, run):
    """An incarnation that the node had before."""
    found = [(at, step.effects[0][1]) for at, step in enumerate(run.steps)
             if step.head[0] == "open" and step.effects[0][1].split(".")[1] != "1"]
    if not found:
        return None
    at, inc = chance.choice(found)
    node, count = inc.split(".")
    steps = copied(run.steps)
    steps[at].effects[0][1] = f"{node}.{chance.randrange(1, int(count))}"
    return steps


@kind("two spoilings, one behind the other", "each is legal, and so are both")
def two_spoilings(chance, run):
    """The steps of one kind of spoiling up to some place, and from there on those of another."""
    one, another = (chance.choice(KINDS_OF_ONE_STEP).spoil(chance, run) for _ in "12")
    if one is None or another is None:
        return None
    at = chance.randrange(len(run.steps))
    return [*one[:at], *another[at:]]


KINDS_OF_ONE_STEP = [one for one in KINDS if one.name.endswith("is another")]
