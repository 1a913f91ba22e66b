"""Plays a script by the rules, on one thread, and keeps the book: what is printed, the trails, and the events of clients."""
from centre import Centre
from client import Client
from carriers import Link, Operator, MOST_MAILED, opening, others, sender_round, reporter_round, pruner_round
from words import ask_text, say_text, basis_text

SENDER, RECEIVER, REPORTER, PRUNER = 1, 2, 3, 4


class World:
    """The centres, the clients, the operator and the links of a script."""

    def __init__(self, script):
        self.script = script
        self.centres = [None] + [Centre(me, script) for me in range(1, script.n + 1)]
        self.trails = [None] + [[] for _ in range(script.n)]  # each entry: the caller, the ask, the answer, and the moment
        self.shows = {centre: [opening(script, centre)] for centre in range(1, script.n + 1)}  # the shows of each tap
        self.clients = [None] + [Client(number, script, self.tell, self.trails, self.shows) for number in range(1, script.clients + 1)]
        self.operator = Operator(script, self.tell, self.set_link, self.shows)
        self.links = {(one, two): Link() for one in range(1, script.n + 1) for two in others(script.n, one)}
        self.lines = []
        self.fresh = {}  # the lines of this section, by client, the operator's under 0
        self.told = [0] * (script.clients + 1)
        self.moment = 0
        self.doubled = self.held = 0  # how many records links doubled, and held to the end
        self.inside = 0  # how many looks in phases with threads saw a show of the phase

    def tell(self, client, text):
        """Tells a line. Its number among the lines of the client is returned."""
        self.fresh.setdefault(client, []).append(text)
        self.told[client] += 1
        return self.told[client] - 1

    def end_section(self):
        """Puts the lines of a section in order: by clients, the operator's last."""
        for client in sorted(self.fresh, key=lambda client: (client == 0, client)):
            self.lines += self.fresh[client]
        self.fresh = {}

    def set_link(self, source, to, fault, every):
        self.links[source, to].set(fault, every)

    def worker(self, centre, role):
        """The number of a worker as a caller."""
        return self.script.clients + 1 + 4 * (centre - 1) + role

    def answer(self, caller, centre, ask):
        """The answer of a centre, which is an entry of its trail."""
        say = self.centres[centre].answer(ask)
        self.moment += 1
        self.trails[centre].append((caller, ask, say, self.moment))
        return say

    def begin(self, step):
        """The caller that a step is of, and the step."""
        if step[0]:
            return step[0] + 1, self.clients[step[0]].step(step[1], step[2:])
        return 1, self.operator.step(step[1], step[2:])

    # ---- the text

    def basis(self, client, own, vector):
        """What a client stands on: what its vector covers, and its own commits."""
        dots = {(client, number) for number in range(1, own + 1)}
        for place, count in enumerate(vector):
            dots.update(record.tx.dot for record, _ in self.centres[place + 1].lists[place][:count])
        return sorted(dots)

    def text(self):
        """All lines that are written: those of the steps, the trails and the bases."""
        out = list(self.lines)
        for centre in range(1, self.script.n + 1):
            for place, (caller, ask, say, _) in enumerate(self.trails[centre], 1):
                out.append(f"trail {centre} {place} by {caller} {ask_text(ask)} {say_text(say)}")
        for client in self.clients[1:]:
            reads = [event for event in client.events if event[0] == "read"]
            for number, event in enumerate(reads, 1):
                out.append(basis_text(client.number, number, self.basis(client.number, event[2], event[3])))
        return out


class Serial(World):
    """A play on one thread, in which all is determined."""

    def run(self, caller, gen):
        try:
            centre, ask = next(gen)
            while True:
                centre, ask = gen.send(self.answer(caller, centre, ask))
        except StopIteration:
            pass

    def play(self):
        for section in self.script.sections:
            if section.phase:
                self.phase(section.steps)
            else:
                self.run(*self.begin(section.steps[0]))
            self.end_section()
        return self

    def phase(self, steps):
        rounds, n = self.script.rounds, self.script.n
        rows = [[step for step in steps if step[0] == client] for client in list(range(1, self.script.clients + 1)) + [0]]
        for turn in range(1, max(max(map(len, rows)), rounds + 1) + 1):
            for row in rows:
                if turn <= len(row):
                    self.run(*self.begin(row[turn - 1]))
            for centre in range(1, n + 1):
                if turn <= rounds:
                    self.round(centre, turn)
                elif turn == rounds + 1:
                    self.run(self.worker(centre, RECEIVER), self.close(centre))

    def round(self, centre, number):
        n = self.script.n
        self.run(self.worker(centre, SENDER), sender_round(n, centre, self.put))
        self.run(self.worker(centre, RECEIVER), self.receive(centre))
        self.run(self.worker(centre, REPORTER), reporter_round(n, centre))
        self.run(self.worker(centre, PRUNER), pruner_round(centre, number))

    def put(self, source, to, items):
        self.links[source, to].waits.extend(items)

    def receive(self, centre):
        for source in others(self.script.n, centre):
            link = self.links[source, centre]
            for _ in range(min(len(link.waits), MOST_MAILED)):
                yield from self.bring(centre, link, link.take(link.waits.popleft()))

    def bring(self, centre, link, items):
        self.doubled += link.fault == "twice" and len(items) == 2
        for record, hops in items:
            yield centre, ("deliver", record, hops)

    def close(self, centre):
        for source in others(self.script.n, centre):
            link = self.links[source, centre]
            while link.waits:
                yield from self.bring(centre, link, link.take(link.waits.popleft()))
            self.held += len(link.held)
            yield from self.bring(centre, link, link.close())
