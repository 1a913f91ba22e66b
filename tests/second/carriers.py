"""What the operator and the workers of centres ask, and what a link brings.

Each step and each round is a generator: it yields a centre and an ask, and gets the answer back.
"""
from collections import deque

import objects
from script import on_tap
from words import vector_text

MOST_SENT = 1024
MOST_MAILED = 64
ROUNDS_BETWEEN_PRUNES = 8
MISSED = {"down": "down", "pruned": "pruned", "lacks": "refused", "misfit": "refused"}  # how a feed ends by an answer


def others(n, centre):
    return [other for other in range(1, n + 1) if other != centre]


# ---- the operator


def delivery_end(to, record, say):
    """How a delivery ended, as a line says it."""
    word = say[0]
    if word == "applied":
        return f"{'applied' if say[1] else 'alias'} {record.stamp[1]}"
    if word == "waits":
        return f"waits {say[1]}:{say[2]} has {say[3]}"
    if word == "orphan":
        return f"orphan {say[1]} has {say[2]}"
    return stopped_end(to, say) if word in ("down", "misfit") else f"{word} {say[1]}"


def stopped_end(centre, say):
    return f"down {centre}" if say[0] == "down" else "misfit"


def supply(source, to, ask, end):
    """Asks a centre for records and delivers them, until one is not there. The end, and whether one was news."""
    say = yield source, ask
    if say[0] == "trimmed":
        return f"trimmed {say[1]}", False
    if say[0] != "records":
        return stopped_end(source, say), False
    news = False
    for record, hops in say[1]:
        say = yield to, ("deliver", record, hops)
        end = delivery_end(to, record, say)
        news = news or say[0] == "applied"
        if say[0] not in ("applied", "old"):
            break
    return end, news


def carry(source, origin, to):
    """Delivers what a centre lacks of an origin's records."""
    say = yield to, ("report",)
    if say[0] != "vector":
        return stopped_end(to, say), False
    after = say[1][origin - 1]
    ask = ("send", after, MOST_SENT) if source == origin else ("relay", origin, after, MOST_SENT)
    return (yield from supply(source, to, ask, None))


def inform(source, to):
    """Tells a centre what another one has. The centre that does not answer, and whether it was news."""
    say = yield source, ("report",)
    if say[0] != "vector":
        return stopped_end(source, say), False
    say = yield to, ("learn", source, say[1])
    if say[0] != "learned":
        return stopped_end(to, say), False
    return None, say[1]


def opening(script, centre):
    """What the tap of a centre shows before any feed: a vector, and the state of each object."""
    return (0,) * script.n, {thing: objects.empty(thing) for thing in on_tap(script, centre)}


class Operator:
    def __init__(self, script, tell, set_link, shows):
        self.script, self.n, self.tell, self.set_link, self.shows = script, script.n, tell, set_link, shows

    def say(self, text):
        self.tell(0, text)

    def step(self, word, said):
        return getattr(self, "do_" + word)(*said)

    def do_down(self, centre):
        yield centre, ("stop",)

    def do_up(self, centre):
        yield centre, ("start",)

    def do_link(self, source, to, fault, every=0):
        self.set_link(source, to, fault, every)
        yield from ()

    def do_ship(self, source, to, seq=None):
        if seq is None:
            end, _ = yield from carry(source, source, to)
        else:
            end, _ = yield from supply(source, to, ("send", seq - 1, 1), f"none {seq}")
        if end is not None:
            self.say(f"{to} from {source} {end}")

    def do_relay(self, source, origin, to):
        end, _ = yield from carry(source, origin, to)
        if end is not None:
            self.say(f"{to} from {source} of {origin} {end}")

    def do_tell(self, source, to):
        end, _ = yield from inform(source, to)
        if end is not None:
            self.say(f"{to} told {source} {end}")

    def do_prune(self, centre):
        say = yield centre, ("prune",)
        if say[0] == "base":
            self.say(f"{centre} base {vector_text(say[1])} folded {say[2]} trimmed {say[3]}")
        else:
            self.say(f"{centre} base down")

    def do_feed(self, centre):
        say = yield centre, ("prune",)
        if say[0] == "base":
            vector, states = say[1], {}
            for thing in on_tap(self.script, centre):
                say = yield centre, ("fetch", thing, vector)
                if say[0] != "object":
                    break
                states[thing] = say[1]
            else:
                self.shows[centre].append((vector, states))
                return self.say(f"{centre} fed {vector_text(vector)}")
        self.say(f"{centre} feed {MISSED[say[0]]}")

    def do_settle(self):
        news = True
        while news:
            news = False
            for part in self.parts():
                _, fresh = yield from part
                news = news or fresh

    def parts(self):
        """A pass: ships over all pairs, relays for each three centres, and tells over all pairs."""
        centres = range(1, self.n + 1)
        pairs = [(one, two) for one in centres for two in centres if one != two]
        for source, to in pairs:
            yield carry(source, source, to)
        for source, origin in pairs:
            for to in centres:
                if to not in (source, origin):
                    yield carry(source, origin, to)
        for source, to in pairs:
            yield inform(source, to)


# ---- workers


def sender_round(n, centre, put):
    """Asks each other centre what it has, and puts what it lacks on the link to it."""
    for to in others(n, centre):
        say = yield to, ("report",)
        if say[0] == "vector":
            say = yield centre, ("send", say[1][centre - 1], MOST_MAILED)
            if say[0] == "records":
                put(centre, to, say[1])


def reporter_round(n, centre):
    for to in others(n, centre):
        yield from inform(centre, to)


def pruner_round(centre, number):
    if number % ROUNDS_BETWEEN_PRUNES == 0:
        yield centre, ("prune",)


# ---- links


class Link:
    """The end of a link at which records are taken: its fault, how many were taken since it was set, what is held, and how many
    were no records, since their bytes were spoilt."""

    def __init__(self):
        self.fault, self.every, self.count = "clean", 0, 0
        self.held, self.spoilt = [], 0
        self.waits = deque()

    def set(self, fault, every):
        self.fault, self.every, self.count = fault, every, 0

    def take(self, item):
        """What is delivered as the next record is taken."""
        self.count += 1
        if self.fault == "clean" or self.count % self.every:
            out, held = [item], []
        else:
            out = [item, item] if self.fault == "twice" else []
            held = [item] if self.fault == "hold" else []
            self.spoilt += self.fault in ("cut", "bend")
        out, self.held = out + self.held, held
        return out

    def close(self):
        """What is delivered where no record comes any more."""
        out, self.held = self.held, []
        return out
