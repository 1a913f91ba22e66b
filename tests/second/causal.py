"""Looks at each read by itself: is it causal, and is its value that of what it stands on? And is that of a tap one of its centre?

What a read stands on is taken of the `basis` line, its value of the line of the read. The rest is counted anew from what
happened: the entries of the trails, and the events of each client. No state that the model of a centre or of a session keeps is
used here, and no identifiers that an operation is over: an update sees what its transaction depends on, and what stands
before it in its own transaction.
"""
import re

from objects import cells_of
from script import holders_of, on_tap
from words import value_text, vector_text


class Fault(Exception):
    """A read that is not causal: the line, by its kind and place, and the reason."""


class Graph:
    """The transactions of a play, with what each depends on and when each centre had it."""

    def __init__(self, world):
        self.n, self.k = world.script.n, world.script.k
        self.trails = world.trails
        self.stamped = [[] for _ in range(self.n + 1)]  # the dots that each centre stamped, in order
        self.stamp_moments = [[] for _ in range(self.n + 1)]
        self.had = [{} for _ in range(self.n + 1)]  # when each centre had a dot first
        for centre in range(1, self.n + 1):
            for caller, ask, say, moment in self.trails[centre]:
                self.note(centre, ask, say, moment)
        self.fed = [shows_in(self.n, self.trails[centre], on_tap(world.script, centre)) if centre else None for centre in range(self.n + 1)]
        self.nodes = {}
        self.deps = {}
        for client in world.clients[1:]:
            self.add_commits(client.number, client.events)

    def note(self, centre, ask, say, moment):
        if ask[0] == "commit" and say[0] == "stamped":
            self.stamped[centre].append(ask[1].dot)
            self.stamp_moments[centre].append(moment)
            self.had[centre].setdefault(ask[1].dot, moment)
        elif ask[0] == "deliver" and say[0] == "applied":
            self.had[centre].setdefault(ask[1].tx.dot, moment)

    def cover(self, vector):
        """The dots that a vector covers."""
        return {dot for place, count in enumerate(vector) for dot in self.stamped[place + 1][:count]}

    def snap(self, event):
        """The answer that a client heard: its vector, and the moment of the centre."""
        _, ask, say, moment = self.trails[event[1]][event[2] - 1]
        for place, count in enumerate(say[1]):
            if count > sum(one <= moment for one in self.stamp_moments[place + 1]):
                raise Fault(None, f"a snapshot has {count} records of centre {place + 1}, which had not stamped as many")
        return say[1], moment

    def add_commits(self, client, events):
        """The transactions of a client: each depends on the snapshot that was heard last, and on the ones before."""
        vector, own = (0,) * self.n, []
        for event in events:
            if event[0] == "snap":
                vector = self.snap(event)[0]
            elif event[0] == "commit":
                tx = event[1]
                if tx.dot in self.nodes or tx.dot != (client, len(own) + 1):
                    raise Fault(None, f"the commit {tx.dot} is not the next one of client {client}")
                self.nodes[tx.dot] = tx
                self.deps[tx.dot] = frozenset(self.cover(vector)) | frozenset(own)
                own.append(tx.dot)

    def check_made(self):
        """Each dependency set is closed, and ranks grow along it."""
        for dot, deps in self.deps.items():
            for other in deps:
                if other not in self.nodes or not self.deps[other] <= deps:
                    raise Fault(None, f"what {dot} depends on is not closed: {other}")
                if self.nodes[other].rank >= self.nodes[dot].rank:
                    raise Fault(None, f"{dot} depends on {other}, and has no greater rank")

    # ---- what K centres have

    def moments(self, events):
        """Of each centre the places of its trail at which snapshots were given."""
        places = {}
        for event in events:
            if event[0] == "snap":
                places.setdefault(event[1], set()).add(event[2])
        return places

    def rows_at(self, centre, places):
        """What the centre knows each centre to have, before the entry of each of these places."""
        rows = {other: [0] * self.n for other in range(1, self.n + 1)}
        found = {}
        for place, (caller, ask, say, _) in enumerate(self.trails[centre], 1):
            if place in places:
                found[place] = [list(rows[other]) for other in sorted(rows)]
            if ask[0] == "commit" and say[0] == "stamped":
                rows[centre][centre - 1] += 1
            elif ask[0] == "deliver" and say[0] == "applied":
                rows[centre][ask[1].stamp[0] - 1] += 1
            elif ask[0] == "learn" and say[0] == "learned":
                rows[ask[1]] = list(map(max, rows[ask[1]], ask[2]))
        return found

    def known_by(self, rows):
        """The dots of the stamps that K of these rows cover."""
        kth = [sorted(column, reverse=True)[self.k - 1] for column in zip(*rows)]
        return self.cover(kth)

    def holders(self, dot, moment):
        """How many centres had the dot by then."""
        return sum(1 for had in self.had[1:] if had.get(dot, moment + 1) <= moment)


def shows_in(n, trail, things):
    """The vectors that a tap of these objects shows, each with how many entries of its centre's trail stand before it.

    The operator fetches for taps alone, so a prune of its own with all fetches at the base behind it was a feed."""
    shows, base, left = [(0, (0,) * n)], None, []
    for place, (caller, ask, say, _) in enumerate(trail, 1):
        if caller != 1:
            continue
        if ask[0] == "prune":
            base, left = (say[1] if say[0] == "base" else None), list(things)
        elif ask[0] == "fetch" and say[0] == "object" and left[:1] == [ask[1]] and ask[2] == base:
            left.pop(0)
            if not left:
                shows.append((place, base))
    return shows


# ---- values, by which update sees which


class Act:
    def __init__(self, mark, deps, op):
        self.mark, self.deps, self.op = mark, deps, op

    def sees(self, other):
        dot = other.mark[1:3]
        return dot in self.deps or (dot == self.mark[1:3] and other.mark[3] < self.mark[3])


def acts_of(thing, rank, dot, deps, updates):
    return [Act((rank, *dot, place), deps, op) for place, (of, op) in enumerate(updates) if of == thing]


def unseen(acts, give, take):
    """The acts that give something under a name, where no act that takes the name out sees them."""
    takes = [act for act in acts if act.op[0] == take]
    for act in acts:
        if act.op[0] == give and not any(other.op[1] == act.op[1] and other.sees(act) for other in takes):
            yield act


def value_of(kind, acts):
    """The value of an object with these acts."""
    if kind == "c":
        return sum(act.op[1] for act in acts)
    if kind == "r":
        return max(acts, key=lambda act: act.mark).op[1] if acts else None
    if kind == "s":
        return sorted({act.op[1] for act in unseen(acts, "add", "del")})
    words = {}
    for act in sorted(unseen(acts, "put", "drop"), key=lambda act: act.mark):
        words[act.op[1]] = act.op[2]
    return sorted(words.items())


# ---- bounded counters


def rights_of(cells, updates):
    """The rights of a holder with these cells for it and against it, by updates."""
    worth = {**dict.fromkeys(cells[0], 1), **dict.fromkeys(cells[1], -1)}
    return sum(worth[of] * op[1] for of, op in updates if of in worth)


def counters_in(graph):
    """The bounded counters that the transactions tell of."""
    cells = {of for tx in graph.nodes.values() for of, _ in tx.updates if of.startswith("c.bc_")}
    return sorted({f"b.{cell[len('c.bc_'):-len('_1_1')]}" for cell in cells})


def check_rights(graph, holders, sets):
    """Over each of these closed sets no holder has less than nothing."""
    for shown in counters_in(graph):
        for holder in range(1, holders + 1):
            cells = cells_of(shown, holder, holders)
            worth = {dot: rights_of(cells, tx.updates) for dot, tx in graph.nodes.items()}
            counted = {dot for dot in worth if worth[dot]}
            for dots in sets:
                rights = sum(worth[dot] for dot in counted & dots)
                if rights < 0:
                    raise Fault(None, f"holder {holder} of {shown} has {rights} over the closed set {sorted(dots)}")


# ---- reads


class Session:
    """A client's reads, looked at in their order."""

    def __init__(self, graph, client, lines, bases, rows, holders):
        self.graph, self.client, self.lines, self.bases, self.rows = graph, client, lines, bases, rows
        self.holders = holders
        self.known, self.own, self.last, self.reads = {}, [], set(), 0
        self.seen = {}  # the place of the last show that was seen of each centre
        self.vector = (0,) * graph.n

    def look(self, events):
        for event in events:
            if event[0] == "commit":
                self.own.append(event[1].dot)
            elif event[0] == "snap":
                self.hear(event)
            elif event[0] == "rights":
                self.count(event)
            elif event[0] == "look":
                self.look_through(event)
            else:
                self.reads += 1
                self.read(event)
        if self.reads != len(self.bases):
            at = ("basis", self.client, min(self.reads, len(self.bases)) + 1)
            raise Fault(at, "there are not as many basis lines as reads with a value")

    def hear(self, event):
        self.vector, moment = self.graph.snap(event)
        for dot in self.graph.known_by(self.rows[event[1]][event[2]]):
            self.known.setdefault(dot, moment)

    def read(self, event):
        _, thing, _, _, clock, draft, line = event
        at = ("basis", self.client, self.reads)
        if self.reads > len(self.bases):
            raise Fault(at, "a read has no basis line")
        dots = self.bases[self.reads - 1]
        basis = set(dots)
        if any(one >= two for one, two in zip(dots, dots[1:])):
            raise Fault(at, "the basis does not ascend, or has a transaction twice")
        self.check_basis(at, basis)
        acts = [act for dot in dots for act in self.acts(thing, dot)]
        acts += acts_of(thing, clock + 1, (self.client, len(self.own) + 1), basis, draft)
        want = f"c{self.client} read {thing} {value_text(thing[0], value_of(thing[0], acts))}"
        if line >= len(self.lines) or self.lines[line] != want:
            got = self.lines[line] if line < len(self.lines) else "nothing"
            raise Fault(("line", self.client, line), f"'{got}', but over its basis the read gives '{want}'")
        self.last = basis

    def count(self, event):
        """Looks at a line with rights: they are those over what the client stands on, and its open updates."""
        _, shown, number, draft, line = event
        dots = self.graph.cover(self.vector) | set(self.own)
        updates = [update for dot in dots for update in self.graph.nodes[dot].updates] + list(draft)
        rights = rights_of(cells_of(shown, self.client, self.holders), updates)
        got = self.lines[line] if line < len(self.lines) else "nothing"
        if rights < 0 or rights != number or not got.endswith(f" {rights}"):
            raise Fault(("line", self.client, line), f"'{got}', but over its basis the client has {rights}")

    def look_through(self, event):
        """Looks at a line of a tap: it has a show of its centre, and the value over what the show's vector covers.

        Outside of phases with threads that is the last show by then. In one it is the last one before the phase, or one of
        the phase, and none that is before the one that the client saw last."""
        _, centre, thing, since, until, line = event
        first = max(self.seen.get(centre, 0), self.last_show(centre, since))
        got = self.lines[line] if line < len(self.lines) else "nothing"
        for place in range(first, self.last_show(centre, until) + 1):
            want = self.seen_at(centre, thing, self.graph.fed[centre][place][1])
            if got == want:
                self.seen[centre] = place
                return
        raise Fault(("line", self.client, line), f"'{got}', but the tap shows '{want}'")

    def last_show(self, centre, place):
        """The place of the last show that stands in front of a place of its centre's trail."""
        return sum(before <= place for before, _ in self.graph.fed[centre]) - 1

    def seen_at(self, centre, thing, vector):
        """The line of a look at a show with this vector."""
        acts = [act for dot in sorted(self.graph.cover(vector)) for act in self.acts(thing, dot)]
        value = value_text(thing[0], value_of(thing[0], acts))
        return f"c{self.client} tap {centre} {thing} at {vector_text(vector)} {value}"

    def acts(self, thing, dot):
        tx = self.graph.nodes[dot]
        return acts_of(thing, tx.rank, dot, self.graph.deps[dot], tx.updates)

    def check_basis(self, at, basis):
        for dot in sorted(basis):
            if dot not in self.graph.nodes:
                raise Fault(at, f"the basis has {dot}, which nobody committed")
            if not self.graph.deps[dot] <= basis:
                raise Fault(at, f"the basis has {dot}, and not all that it depends on: {sorted(self.graph.deps[dot] - basis)[0]}")
            if dot[0] != self.client:
                self.check_known(at, dot)
            elif dot not in self.own:
                raise Fault(at, f"the basis has {dot}, which the session had not committed")
        for what, dots in (("a commit of the session", self.own), ("what an earlier read stands on", self.last)):
            missing = [dot for dot in dots if dot not in basis]
            if missing:
                raise Fault(at, f"the basis lacks {missing[0]}, {what}")

    def check_known(self, at, dot):
        if dot not in self.known:
            raise Fault(at, f"the basis has {dot}, which was not known to K centres at any snapshot that was heard")
        if self.graph.holders(dot, self.known[dot]) < self.graph.k:
            raise Fault(at, f"the basis has {dot}, which K centres did not have")


def bases_in(got, clients):
    """The dots of the basis lines of each client."""
    found = {client: [] for client in range(1, clients + 1)}
    for line in got:
        named = re.fullmatch(r"basis c(\d+) (\d+)((?: \d+\.\d+)*)", line)
        if named and int(named[1]) in found:
            found[int(named[1])].append([tuple(map(int, dot.split("."))) for dot in named[3].split()])
    return found


def closed_sets(graph):
    """Closed sets of transactions: each with what it depends on, two of these together, and all."""
    sets = [deps | {dot} for dot, deps in graph.deps.items()]
    return sets + [one | other for one, other in zip(sets, sets[1:])] + [set(graph.nodes)]


def place_of(got, at):
    """The number of the line of a fault."""
    if at is None:
        return len(got)
    start = f"basis c{at[1]} " if at[0] == "basis" else f"c{at[1]} "
    numbers = [number for number, line in enumerate(got, 1) if line.startswith(start)]
    place = at[2] - 1 if at[0] == "basis" else at[2]
    return numbers[place] if place < len(numbers) else len(got) + 1


def fault_in(world, got):
    """What is wrong first with the reads in these lines, by what happened in the world."""
    try:
        graph = Graph(world)
        graph.check_made()
        places = graph.moments([event for client in world.clients[1:] for event in client.events])
        rows = {centre: graph.rows_at(centre, places[centre]) for centre in places}
        bases = bases_in(got, world.script.clients)
        holders = holders_of(world.script)
        for client in world.clients[1:]:
            lines = [line for line in got if line.startswith(f"c{client.number} ")]
            Session(graph, client.number, lines, bases[client.number], rows, holders).look(client.events)
        check_rights(graph, holders, closed_sets(graph))
    except Fault as fault:
        return place_of(got, fault.args[0]), f"causality: {fault.args[1]}"
    return None
