"""Follows a run whose phases were played with threads: the trails say in which order each centre answered.

Each actor makes its steps or rounds in their order, and what it asks depends on the answers before alone. So in a phase
each entry of a trail is the next ask of its caller, or waits for one of another centre, and it does not matter which of several
entries that can be followed is followed first. Receivers are not determined so: what a link brings in all of a phase
is, and not what is taken in which round.

Two things are looked at from one side alone. A receiver's rounds are counted as few as they can be, and these may not be more
than it makes: that a record was put before the take of its round, and not only before its delivery, is not seen. And of the
closing round it is seen that a record that is held to the end comes behind all that others do in the phase.

What a look sees in a phase is not determined either. It may be the last show before the phase or any show of the phase, and the
looks of a client at one centre see shows in their order. So each look takes the first such show that its line has.
"""
import re

from carriers import MOST_MAILED, others, sender_round, reporter_round, pruner_round
from play import World, SENDER, RECEIVER, REPORTER, PRUNER
from words import ask_text, say_text

ENTRY = re.compile(r"trail ([1-9]\d*) ([1-9]\d*) by ([1-9]\d*) (.*)")


class Fault(Exception):
    """The number of the line that is wrong, and the reason."""


class Entries:
    """The entries of a centre's trail, as they are written, and how many were followed."""

    def __init__(self):
        self.rows, self.next = [], 0

    def head(self):
        return self.rows[self.next] if self.next < len(self.rows) else None


def entries_of(got, n):
    """The trails that lines tell, and the number of the line behind them."""
    trails = [None] + [Entries() for _ in range(n)]
    last, behind = 1, len(got) + 1
    for number, line in enumerate(got, 1):
        if line.startswith("basis "):
            behind = min(behind, number)
        found = ENTRY.fullmatch(line)
        if not found:
            continue
        centre, place = int(found[1]), int(found[2])
        if number > behind or not last <= centre <= n or place != len(trails[centre].rows) + 1:
            raise Fault(number, f"'{line}' is not the next entry of a trail")
        trails[centre].rows.append((number, int(found[3]), found[4]))
        last = centre
    return trails, behind


class Actor:
    """One who asks: the ask that is made next, if there is one."""

    def __init__(self, gen):
        self.gen, self.pending = gen, None
        self.go(None)

    def go(self, say):
        try:
            self.pending = self.gen.send(say)
        except StopIteration:
            self.pending = None


class Receiver:
    """What a receiver may deliver, by the links, and in which round it is at the least."""

    def __init__(self, centre, rounds):
        self.centre, self.rounds = centre, rounds
        self.due = {}  # of each origin what is due: the record, which record of the link it came with, and whether at the close
        self.taken = {}
        self.round, self.source, self.first = 1, 0, 0
        self.last = None
        self.doubled = 0

    def put(self, source, link, items):
        due = self.due.setdefault(source, [])
        for item in items:
            self.taken[source] = self.taken.get(source, 0) + 1
            taken = link.take(item)
            self.doubled += link.fault == "twice" and len(taken) == 2
            due += [(one, self.taken[source], False) for one in taken]

    def close(self, source, link):
        self.due.setdefault(source, []).extend((one, self.taken.get(source, 0) + 1, True) for one in link.close())

    def count(self, source, number, closing):
        """Goes to the earliest round in which this can be delivered. Whether there is one."""
        if self.last and self.last[0] != source and self.last[2]:
            return False
        if closing and self.round <= self.rounds:
            self.round, self.source = self.rounds + 1, 0 if self.source > source else self.source
        fits = self.round > self.rounds or number - self.first < MOST_MAILED
        if source < self.source or (source == self.source and not fits):
            self.round, self.source = self.round + 1, 0
        if source > self.source:
            self.source, self.first = source, number
        return self.round <= self.rounds + 1

    def deliver(self, source):
        """Takes what is due first of an origin. Whether it may come now."""
        (record, hops), number, closing = self.due[source].pop(0)
        fits = self.count(source, number, closing)
        more = bool(self.due[source]) and self.due[source][0][1] == number and not self.due[source][0][2]
        self.last = (source, number, more)
        return fits


class Replay(World):
    """A run that follows the trails that were written."""

    def __init__(self, script, got):
        super().__init__(script)
        self.got = got
        self.written, self.behind = entries_of(got, script.n)
        self.receivers = {}

    def play(self):
        for section in self.script.sections:
            if section.phase:
                self.phase(section.steps)
            else:
                self.alone(*self.begin(section.steps[0]))
            self.end_section()
        for written in self.written[1:]:
            if written.head():
                raise Fault(written.head()[0], "an entry that no step and no round makes")
        return self

    # ---- entries

    def follow(self, centre, ask):
        """Follows the next entry of a centre, which has this ask, and compares its words."""
        number, caller, text = self.written[centre].head()
        say = self.answer(caller, centre, ask)
        want = f"{ask_text(ask)} {say_text(say)}"
        if text != want:
            raise Fault(number, f"caller {caller} has '{text}' where '{want}' was expected")
        self.written[centre].next += 1
        return say

    def nothing_at(self, centre):
        """The line at which a centre's next entry would stand, where it has none."""
        rows = [row for written in self.written[1:centre + 1] for row in written.rows]
        return rows[-1][0] + 1 if rows else self.behind

    def alone(self, caller, gen):
        """A step outside of phases."""
        actor = Actor(gen)
        while actor.pending:
            centre, ask = actor.pending
            head = self.written[centre].head()
            if head is None or head[1] != caller:
                number = head[0] if head else self.nothing_at(centre)
                raise Fault(number, f"an entry by {caller} was expected: {ask_text(ask)}")
            actor.go(self.follow(centre, ask))

    # ---- phases

    def phase(self, steps):
        n, rounds = self.script.n, range(1, self.script.rounds + 1)
        shows = {centre: (len(self.shows[centre]) - 1, len(self.trails[centre])) for centre in range(1, n + 1)}
        clients = [(client, len(client.events), self.told[client.number]) for client in self.clients[1:]]
        self.receivers = {centre: Receiver(centre, len(rounds)) for centre in range(1, n + 1)}
        self.actors = {}
        for caller in range(1, self.script.clients + 2):
            mine = [step for step in steps if step[0] == caller - 1]
            self.actors[caller] = Actor(self.steps(mine))
        for centre in range(1, n + 1):
            self.actors[self.worker(centre, SENDER)] = Actor(self.rounds(lambda number, c=centre: sender_round(n, c, self.put)))
            self.actors[self.worker(centre, REPORTER)] = Actor(self.rounds(lambda number, c=centre: reporter_round(n, c)))
            self.actors[self.worker(centre, PRUNER)] = Actor(self.rounds(lambda number, c=centre: pruner_round(c, number)))
        self.go_on()
        if any(actor.pending for actor in self.actors.values()):
            self.stuck()
        for (source, to), link in self.links.items():
            self.held += len(link.held)
            self.receivers[to].close(source, link)
        self.go_on()
        if any(due for receiver in self.receivers.values() for due in receiver.due.values()):
            self.stuck()
        self.doubled += sum(receiver.doubled for receiver in self.receivers.values())
        self.before_phase = {centre: last for centre, (last, _) in shows.items()}
        self.put_looks(shows, clients)

    def put_looks(self, shows, clients):
        """Has each look of the phase see the show that its line has, by the last show and the trail of each centre before it,
        and by how many events and lines each client had then."""
        place = len(self.lines)
        for client, events, told in clients:
            fresh, first = self.fresh.get(client.number, []), {centre: last for centre, (last, _) in shows.items()}
            for event in client.events[events:]:
                if event[0] == "look":
                    number = event[5] - told
                    fresh[number] = self.found_look(client, event, first, place + number)
                    event[3:5] = shows[event[1]][1], len(self.trails[event[1]])
            place += len(fresh)

    def found_look(self, client, event, first, place):
        """The line of a look, as it is written where that is one that it may have. The show that it sees is the first for later ones."""
        centre, seen = event[1], []
        for number in range(first[centre], len(self.shows[centre])):
            seen.append(client.seen(centre, event[2], self.shows[centre][number]))
            if self.got[place:place + 1] == seen[-1:]:
                self.inside += number > self.before_phase[centre]
                first[centre] = number
                return seen[-1]
        return seen[0]

    def steps(self, steps):
        for step in steps:
            yield from self.begin(step)[1]

    def rounds(self, round_of):
        for number in range(1, self.script.rounds + 1):
            yield from round_of(number)

    def put(self, source, to, items):
        self.receivers[to].put(source, self.links[source, to], items)

    def go_on(self):
        """Follows entries until none can be followed."""
        moved = True
        while moved:
            moved = False
            for centre in range(1, self.script.n + 1):
                while self.follow_head(centre):
                    moved = True

    def follow_head(self, centre):
        """Follows the next entry of a centre, where it is one that can be made now."""
        head = self.written[centre].head()
        if head is None:
            return False
        number, caller, text = head
        if caller == self.worker(centre, RECEIVER):
            return self.follow_delivery(centre, number, text)
        actor = self.actors.get(caller)
        if actor is None or actor.pending is None or actor.pending[0] != centre:
            return False
        actor.go(self.follow(centre, actor.pending[1]))
        return True

    def follow_delivery(self, centre, number, text):
        found = re.match(r"deliver (\d+):(\d+) ", text)
        if not found:
            raise Fault(number, f"a receiver delivers, and does not '{text}'")
        source, receiver = int(found[1]), self.receivers[centre]
        due = receiver.due.get(source)
        if not due:
            return False
        record, hops = due[0][0]
        if not receiver.deliver(source):
            raise Fault(number, f"'{text}' comes in no round of this receiver")
        self.follow(centre, ("deliver", record, hops))
        return True

    def stuck(self):
        """Names an entry that cannot be followed, or one that is not there."""
        heads = [written.head() for written in self.written[1:] if written.head()]
        asks = [(caller, *actor.pending) for caller, actor in self.actors.items() if actor.pending]
        wants = [f"{ask_text(ask)} by {caller} at {centre}" for caller, centre, ask in asks]
        for receiver in self.receivers.values():
            for due in receiver.due.values():
                wants += [f"deliver {one[0].stamp[0]}:{one[0].stamp[1]} at {receiver.centre}" for one, _, _ in due[:1]]
        number = min((head[0] for head in heads), default=self.behind)
        raise Fault(number, f"no entry that can come next; these were expected: {', '.join(wants)}")
