"""A client: its session, and what each of its steps asks and prints.

Each step is a generator. It yields a centre and an ask, gets the answer back, and tells the lines that are printed. What
the look at causality needs of the client is written down as events: its commits, the snapshots that it heard, and its reads.
"""
import objects
from script import holders_of
from words import Tx, vector_text, lack_text, value_text

MOST_UPDATES = 256
MOST_TAGS = 4096
MOST_PENDING = 1024
MOST_NUMBER = 1 << 62
LOST = ("lost",)
MISSES = {"down": "unreachable", "misfit": "misfit", "lost": "lost"}


def end_text(say):
    """What a push says behind its number."""
    word = say[0]
    if word in MISSES:
        return MISSES[word]
    if word == "stamped":
        return f"stamp {say[1]}:{say[2]}"
    return lack_text("lacks", say) if word == "lacks" else f"{word} {say[1]}"


class Client:
    def __init__(self, number, script, tell, places, shows):
        self.number, self.capacity, self.holders = number, script.cache, holders_of(script)
        self.vector = (0,) * script.n
        self.own = self.mine = self.clock = 0
        self.pending, self.draft, self.cache = [], None, []
        self.link = None  # the centre, and the commits that it is known to have
        self.armed = None
        self.sent = {}  # the commits that were sent, by number
        self.tell, self.places, self.shows = tell, places, shows
        self.events = []
        self.moves = 0

    def say(self, text):
        self.tell(self.number, f"c{self.number} {text}")

    # ---- asks

    def ask(self, centre, ask):
        """An ask under the fault that is armed: what became of it, and whether the session took that."""
        fault, self.armed = self.armed, None
        if ask[0] == "commit":
            self.sent.setdefault(ask[1].dot[1], ask[1])
        if fault == "lose ask":
            return LOST, False
        say = yield centre, ask
        if fault == "lose reply":
            return LOST, False
        took = self.hear(centre, ask, say)
        if fault == "twice":
            yield centre, ask
        return say, took

    def hear(self, centre, ask, say):
        """Takes an answer, where it can be taken."""
        if say[0] == "welcome":
            self.moves += self.link is not None and self.link[0] != centre
            self.link = (centre, min(say[1], self.own))
        elif say[0] == "snap":
            return self.hear_snap(centre, *say[1:])
        elif say[0] == "object":
            self.keep(ask[1], ask[-1], say[1])
        elif say[0] == "changes":
            [state] = [state for of, vector, state in self.cache if (of, vector) == ask[1:3]]
            self.keep(ask[1], ask[-1], objects.fold(ask[1], state, say[1]))
        elif say[0] == "pruned" and ask[0] == "delta":
            self.forget(ask[1])
        elif say[0] in ("stamped", "known"):
            through = ask[1].dot[1] if say[0] == "stamped" else say[1]
            self.link = (centre, min(max(self.link[1], through), self.own))
        else:
            return False
        return True

    def forget(self, thing):
        """Takes what the cache has of an object out of it."""
        self.cache = [entry for entry in self.cache if entry[0] != thing]

    def keep(self, thing, vector, state):
        """Puts the state of an object at a vector in front of the cache."""
        self.forget(thing)
        self.cache = ([(thing, vector, state)] + self.cache)[:self.capacity]

    def hear_snap(self, centre, vector, mine, top):
        self.events.append(("snap", centre, len(self.places[centre])))
        covers = all(new >= old for new, old in zip(vector, self.vector))
        if not (covers and self.mine <= mine <= self.own and top <= MOST_NUMBER):
            return False
        self.pending = self.pending[mine - self.mine:]
        self.vector, self.mine, self.clock = vector, mine, max(self.clock, top)
        return True

    # ---- steps

    def step(self, word, said):
        return getattr(self, "do_" + word, self.do_change)(word, *said)

    def do_lose(self, word, what):
        self.armed = f"lose {what}"
        yield from ()

    def do_twice(self, word):
        self.armed = "twice"
        yield from ()

    def do_connect(self, word, centre):
        say, _ = yield from self.ask(centre, ("hello", self.number, self.vector))
        if say[0] == "welcome":
            self.say(f"at {centre}")
        elif say[0] == "lacks":
            self.say(f"refused {centre} {lack_text('lacks', say)}")
        else:
            self.say(f"connect {centre} {MISSES[say[0]]}")

    def do_begin(self, word):
        if self.draft is not None:
            self.say("begin open")
        elif self.clock >= MOST_NUMBER:
            self.say("begin clock")
        else:
            self.draft = []
        yield from ()

    def do_commit(self, word):
        if self.draft is None:
            self.say("commit closed")
        elif not self.draft:
            self.draft = None
            self.say("commit none")
        elif len(self.pending) >= MOST_PENDING:
            self.say("commit pending 1024")
        else:
            self.own, self.clock = self.own + 1, self.clock + 1
            tx = Tx((self.number, self.own), self.clock, self.vector, tuple(self.draft))
            self.pending.append(tx)
            self.events.append(("commit", tx))
            self.draft = None
            self.say(f"commit {self.own}")
        yield from ()

    def do_abort(self, word):
        if self.draft is None:
            self.say("abort closed")
        self.draft = None
        yield from ()

    def do_refresh(self, word):
        if self.link is None:
            return self.say("refresh unconnected")
        if self.draft is not None:
            return self.say("refresh open")
        say, took = yield from self.ask(self.link[0], ("refresh", self.number, self.vector))
        if say[0] == "snap":
            self.say(f"sees {vector_text(say[1])} own {say[2]}" if took else "refresh ignored")
        elif say[0] == "lacks":
            self.say(f"refresh {lack_text('lacks', say)}")
        else:
            self.say(f"refresh {MISSES[say[0]]}")

    def do_again(self, word, centre, number):
        if number not in self.sent:
            return self.say(f"again {centre} {number} none")
        say = yield centre, ("commit", self.sent[number])
        self.say(f"again {centre} {number} {end_text(say)}")

    # ---- pushes

    def next_commit(self):
        """The first commit that the connected centre is not known to have, if there is one."""
        place = max(self.link[1], self.mine) - self.mine
        return self.pending[place] if place < len(self.pending) else None

    def do_push(self, word):
        if self.link is None:
            return self.say("push unconnected")
        tx = self.next_commit()
        if tx is None:
            return self.say("push none")
        say, _ = yield from self.ask(self.link[0], ("commit", tx))
        self.say(f"push {tx.dot[1]} {end_text(say)}")

    def do_flush(self, word):
        if self.link is None:
            return self.say("push unconnected")
        while True:
            tx = self.next_commit()
            if tx is None:
                return self.say(f"flushed {self.own}")
            say, _ = yield from self.ask(self.link[0], ("commit", tx))
            if say[0] not in ("stamped", "known"):
                return self.say(f"push {tx.dot[1]} {end_text(say)}")

    # ---- objects

    def view(self, thing):
        """What the client has of an object, or None where it has to be fetched. It is the last one used now."""
        for place, (of, vector, state) in enumerate(self.cache):
            if of == thing and vector == self.vector:
                self.cache.insert(0, self.cache.pop(place))
                ops = [op for tx in self.pending for op in objects.marked(tx.updates, tx.rank, tx.dot, thing)]
                ops += objects.marked(self.draft or (), self.clock + 1, (self.number, self.own + 1), thing)
                return (objects.fold(thing, state, ops),)
        return None

    def ask_for(self, thing):
        """The ask for an object: for what came to it, where the cache has it at an earlier snapshot, and else for its state."""
        for of, vector, _ in self.cache:
            if of == thing and vector != self.vector and all(new >= old for new, old in zip(self.vector, vector)):
                return ("delta", thing, vector, self.vector)
        return ("fetch", thing, self.vector)

    def fetch(self, word, thing, shown=None):
        """What the client has of an object, which is fetched where it has to be, or None and a line that says why not.

        Where what came to it is pruned the state is asked for."""
        seen = self.view(thing)
        if seen is not None:
            return seen
        start = f"{word} {shown or thing}"
        if self.link is None:
            return self.say(f"{start} unconnected")
        say, took = yield from self.ask(self.link[0], self.ask_for(thing))
        if took and say[0] == "pruned":
            say, took = yield from self.ask(self.link[0], self.ask_for(thing))
        if took:
            return self.view(thing)
        if say[0] == "pruned":
            return self.say(f"{start} pruned {say[1]}:{say[2]} at {say[3]}")
        if say[0] == "lacks":
            return self.say(f"{start} {lack_text('lacks', say)}")
        return self.say(f"{start} {MISSES[say[0]]}")

    def do_read(self, word, thing):
        seen = yield from self.fetch("read", thing)
        if seen is not None:
            value = value_text(thing[0], objects.value_of(thing, seen[0]))
            line = self.tell(self.number, f"c{self.number} read {thing} {value}")
            self.events.append(("read", thing, self.own, self.vector, self.clock, tuple(self.draft or ()), line))

    def do_tap(self, word, centre, thing):
        """Looks at the last show. A phase with threads puts another one of its shows there, and how far the trail came by then."""
        line = self.tell(self.number, self.seen(centre, thing, self.shows[centre][-1]))
        self.events.append(["look", centre, thing, len(self.places[centre]), len(self.places[centre]), line])
        yield from ()

    def seen(self, centre, thing, show):
        """The line of a look that sees this show."""
        vector, states = show
        value = value_text(thing[0], objects.value_of(thing, states[thing]))
        return f"c{self.number} tap {centre} {thing} at {vector_text(vector)} {value}"

    def do_change(self, word, thing, *said):
        if self.draft is None:
            return self.say(f"{word} {thing} closed")
        if len(self.draft) >= MOST_UPDATES:
            return self.say(f"{word} {thing} many 256")
        op = (word, *said)
        if objects.named(op) is not None:
            seen = yield from self.fetch(word, thing)
            if seen is None:
                return
            tags = objects.tags_of(thing, seen[0], said[0])
            if len(tags) > MOST_TAGS:
                return self.say(f"{word} {thing} tags {len(tags)}")
            op += (tuple(tags),)
        self.draft.append((thing, op))

    # ---- bounded counters

    def rights(self, word, shown):
        """The client's rights by the cells, read one after another, or None where one cannot be had."""
        gains, losses = objects.cells_of(shown, self.number, self.holders)
        values = []
        for cell in gains + losses:
            seen = yield from self.fetch(word, cell, shown)
            if seen is None:
                return None
            values.append(seen[0])
        return sum(values[:len(gains)]) - sum(values[len(gains):])

    def tell_rights(self, word, shown, number):
        """Tells the client's rights, and writes down by what they are to be judged."""
        line = self.tell(self.number, f"c{self.number} {word} {number}")
        self.events.append(("rights", shown, number, tuple(self.draft or ()), line))

    def add_to(self, word, shown, to, amount):
        """Adds to a cell of the client's share."""
        if self.draft is None:
            self.say(f"{word} {shown} closed")
        elif len(self.draft) >= MOST_UPDATES:
            self.say(f"{word} {shown} many 256")
        else:
            self.draft.append((objects.cell_of(shown, self.number, to), ("inc", amount)))

    def add_owned(self, word, shown, to, amount):
        """Adds to a cell of the client's share no more than its rights are."""
        rights = yield from self.rights(word, shown)
        if rights is None:
            return
        if amount > rights:
            self.tell_rights(f"{word} {shown} short", shown, rights)
        else:
            self.add_to(word, shown, to, amount)

    def do_grant(self, word, shown, amount):
        self.add_to(word, shown, self.number, amount)
        yield from ()

    def do_give(self, word, shown, to, amount):
        yield from self.add_owned(word, shown, to, amount)

    def do_take(self, word, shown, amount):
        yield from self.add_owned(word, shown, 0, amount)

    def do_rights(self, word, shown):
        rights = yield from self.rights(word, shown)
        if rights is not None:
            self.tell_rights(f"rights {shown}", shown, rights)
