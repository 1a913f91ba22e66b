"""A data centre: what it has, and what it answers.

It keeps all records that it ever applied. What a prune folds and lets go shows in its answers alone.
"""
import objects
from words import Record

MOST_HOPS = 7
MOST_CHANGES = 64
MOST_RECORDS = 1000000


def join(one, other):
    return tuple(map(max, one, other))


def lack(refusal, have, need):
    """The refusal that names the least centre of which records are missing, if there is one."""
    for place, (has, needs) in enumerate(zip(have, need)):
        if has < needs:
            return (refusal, place + 1, needs, has)
    return None


class Centre:
    def __init__(self, me, script):
        self.me, self.n, self.k, self.limit = me, script.n, script.k, script.limit
        zeros = (0,) * self.n
        self.have = zeros
        self.told = [zeros] * self.n
        self.base = self.mark = self.trimmed = zeros
        self.lists = [[] for _ in range(self.n)]  # the records of each origin, each with its hops
        self.stamps = {}  # the stamps of each dot, in the order in which they came
        self.through = {}  # the greatest number of each client
        self.acts = {}  # of each object the dots that change it, with their operations, in the order in which they came
        self.top = 0
        self.stopped = False

    # ---- what it has

    def inside(self, dot, vector):
        """Whether a stamp of the dot is within the vector."""
        return any(seq <= vector[centre - 1] for centre, seq in self.stamps[dot])

    def mine(self, client, vector):
        """The greatest number of a client's transactions within the vector."""
        for number in range(self.through.get(client, 0), 0, -1):
            if (client, number) in self.stamps and self.inside((client, number), vector):
                return number
        return 0

    def state_at(self, thing, vector):
        """The state of an object over the transactions within the vector, each once."""
        ops = []
        for dot, some in self.acts.get(thing, ()):
            if self.inside(dot, vector):
                ops += some
        return objects.fold(thing, objects.empty(thing), ops)

    def ops_since(self, thing, before, vector):
        """The operations on an object of the transactions within the vector, and not within the one before."""
        ops = []
        for dot, some in self.acts.get(thing, ()):
            if self.inside(dot, vector) and not self.inside(dot, before):
                ops += some
        return ops

    def rows(self):
        return [self.have if place + 1 == self.me else row for place, row in enumerate(self.told)]

    def stable(self):
        """What K centres are known to have, and this one has."""
        kth = (sorted(column, reverse=True)[self.k - 1] for column in zip(*self.rows()))
        return tuple(map(min, kth, self.have))

    def take(self, record, hops):
        """Applies a record."""
        origin, tx = record.stamp[0] - 1, record.tx
        self.lists[origin].append((record, hops))
        self.have = self.have[:origin] + (self.have[origin] + 1,) + self.have[origin + 1:]
        self.through[tx.dot[0]] = max(self.through.get(tx.dot[0], 0), tx.dot[1])
        self.top = max(self.top, tx.rank)
        if tx.dot not in self.stamps:
            self.stamps[tx.dot] = []
            for thing in dict.fromkeys(of for of, _ in tx.updates):
                self.acts.setdefault(thing, []).append((tx.dot, objects.marked(tx.updates, tx.rank, tx.dot, thing)))
        self.stamps[tx.dot].append(record.stamp)

    # ---- what it answers

    def answer(self, ask):
        word = ask[0]
        if word == "deliver" and (ask[2] > MOST_HOPS or ask[1].stamp[1] > MOST_RECORDS):
            return ("misfit",)
        if self.stopped and word not in ("stop", "start"):
            return ("down",)
        return getattr(self, "on_" + word)(*ask[1:])

    def on_hello(self, client, need):
        return lack("lacks", self.have, need) or ("welcome", self.through.get(client, 0))

    def on_refresh(self, client, here):
        vector = join(here, self.stable())
        return lack("lacks", self.have, here) or ("snap", vector, self.mine(client, vector), self.top)

    def on_fetch(self, thing, here):
        refusal = lack("lacks", self.have, here) or lack("pruned", here, self.base)
        return refusal or ("object", self.state_at(thing, here))

    def on_delta(self, thing, before, here):
        refusal = lack("lacks", self.have, here) or lack("pruned", before, self.base)
        if refusal:
            return refusal
        ops = self.ops_since(thing, before, here)
        return ("changes", ops) if len(ops) <= MOST_CHANGES else ("object", self.state_at(thing, here))

    def on_commit(self, tx):
        through = self.through.get(tx.dot[0], 0)
        if tx.dot[1] <= through:
            return ("known", through)
        if tx.dot[1] > through + 1:
            return ("order", through)
        refusal = lack("lacks", self.have, tx.snap)
        if refusal:
            return refusal
        if self.have[self.me - 1] >= self.limit:
            return ("full", self.limit)
        stamp = (self.me, self.have[self.me - 1] + 1)
        self.take(Record(stamp, self.deps_of(tx), tx), 0)
        return ("stamped", *stamp)

    def deps_of(self, tx):
        """The vector that a new record needs: its snapshot, and its client's commit before it as this centre has it."""
        if tx.dot[1] < 2:
            return tx.snap
        centre, seq = self.stamps[(tx.dot[0], tx.dot[1] - 1)][0]
        return tuple(max(entry, seq) if place + 1 == centre else entry for place, entry in enumerate(tx.snap))

    def on_send(self, after, most):
        return self.on_relay(self.me, after, most)

    def on_relay(self, origin, after, most):
        if after < self.trimmed[origin - 1]:
            return ("trimmed", self.trimmed[origin - 1])
        return ("records", self.lists[origin - 1][after:after + most])

    def on_deliver(self, record, hops):
        centre, seq = record.stamp
        have, through = self.have[centre - 1], self.through.get(record.tx.dot[0], 0)
        if seq <= have:
            return ("old", have)
        if seq > have + 1 or centre == self.me:
            return ("gap", have)
        refusal = lack("waits", self.have, record.deps)
        if refusal:
            return refusal
        if record.tx.dot[1] > through + 1:
            return ("orphan", record.tx.dot[1], through)
        self.take(record, hops + 1)
        return ("applied", record.tx.dot[1] == through + 1)

    def on_report(self):
        return ("vector", self.have)

    def on_learn(self, centre, vector):
        row = join(self.told[centre - 1], vector)
        fresh = centre != self.me and row != self.told[centre - 1]
        self.told[centre - 1] = row
        return ("learned", fresh)

    def on_prune(self):
        known = tuple(min(column) for column in zip(*self.rows()))
        self.base, self.mark = self.mark, self.stable()
        self.trimmed = join(self.trimmed, known)
        folded = sum(self.inside(dot, self.base) for dot in self.stamps)
        return ("base", self.base, folded, self.trimmed[self.me - 1])

    def on_stop(self):
        self.stopped = True
        return ("stopped",)

    def on_start(self):
        self.stopped = False
        return ("started",)
