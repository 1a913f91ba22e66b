"""Makes scripts that look random, the same for each seed.

There are two to five centres and one to four clients, lines before, between and behind two phases, links with faults, and a
`settle` with reads and rights at the end, and feeds of taps and looks in phases and outside of them. Where there are three centres
and more, one is lost for good behind the phases, and its records go on past it.
"""
import random

OBJECTS = ["c.a", "c.b", "r.a", "r.b", "s.a", "s.b", "m.a", "c.bc_a_1_1"]
WORDS = ["x", "y", "z"]
KEYS = ["k", "l"]


class Maker:
    def __init__(self, seed):
        self.pick = random.Random(seed)
        self.taps_pick = random.Random(-1 - seed)
        self.n = 2 + seed % 4
        self.m = self.pick.randint(1, 4)
        self.lines = []
        self.commits = [0] * (self.m + 1)  # about how many commits each client has made
        self.tapped = []  # the objects on taps, each with its centre

    def chance(self, sides):
        return self.pick.randrange(sides) == 0

    def add(self, *lines):
        self.lines += lines

    def centre(self):
        return self.pick.randint(1, self.n)

    def route(self, count):
        """So many different centres."""
        return " ".join(map(str, self.pick.sample(range(1, self.n + 1), count)))

    # ---- clients

    def change(self, client):
        word, key = self.pick.choice(WORDS), self.pick.choice(KEYS)
        name = self.pick.choice("ab")
        self.add(f"c{client} " + self.pick.choice([
            f"inc c.{name} {self.pick.randint(-9, 99)}", f"inc c.{name} {self.pick.randint(1, 9)}", f"set r.{name} {word}",
            f"add s.{name} {word}", f"add s.{name} {word}", f"del s.{name} {word}", f"put m.a {key} {word}",
            f"put m.a {key} {word}", f"drop m.a {key}",
        ]))

    def read(self, client):
        self.add(f"c{client} read {self.pick.choice(OBJECTS)}")

    def fault(self, client):
        self.add(f"c{client} " + self.pick.choice(["lose ask", "lose reply", "twice"]))

    def transaction(self, client):
        if not self.chance(12):
            self.add(f"c{client} begin")
        for _ in range(self.pick.randint(1, 3)):
            self.change(client)
        if self.chance(3):
            self.read(client)
        if self.pick.randrange(12):
            self.end(client)
        if self.chance(4):
            self.fault(client)
        self.add(f"c{client} " + self.pick.choice(["push", "push", "flush", "refresh", "push"]))

    def end(self, client):
        if self.chance(8):
            self.add(f"c{client} abort")
        else:
            self.add(f"c{client} commit")
            self.commits[client] += 1

    def again(self, client):
        """A late copy, mostly of one of the last commits."""
        last = max(1, self.commits[client] - self.pick.randrange(3))
        self.add(f"c{client} again {self.centre()} {self.pick.choice([last, last, 1, 2])}")

    def sent_around(self, client):
        """A commit that is pushed once more after its answer was lost, and copied to all centres."""
        self.add(f"c{client} abort", f"c{client} refresh", f"c{client} begin")
        self.change(client)
        self.add(f"c{client} commit", f"c{client} lose {self.pick.choice(['ask', 'reply'])}")
        self.add(f"c{client} push", f"c{client} push")
        self.commits[client] += 1
        for centre in self.pick.sample(range(1, self.n + 1), self.pick.randint(1, self.n)):
            self.add(f"c{client} again {centre} {self.commits[client]}")

    def hurry(self, client):
        """A client sees what its centre alone has, and goes on to others."""
        self.add(f"c{client} begin")
        self.change(client)
        self.add(f"c{client} commit", f"c{client} flush", f"c{client} refresh")
        self.commits[client] += 1
        self.add(f"c{client} connect {self.centre()}", f"c{client} connect {self.centre()}")

    def follow(self, client):
        """A client commits behind what another one sent to the same centre, and its commit is copied to all others."""
        centre, other = self.centre(), client % self.m + 1
        for one in (other, client):
            self.add(f"c{one} abort", f"c{one} connect {centre}", f"c{one} refresh", f"c{one} begin")
            self.change(one)
            self.add(f"c{one} commit", f"c{one} flush")
            self.commits[one] += 1
        for one in range(1, self.n + 1):
            self.add(f"c{client} again {one} {self.commits[client]}")

    def look(self, client):
        kind = self.pick.randrange(8)
        if kind == 0:
            self.add(*[f"c{client} refresh"] * self.pick.randrange(2), f"c{client} connect {self.centre()}")
        elif kind == 1:
            self.again(client)
        elif kind == 2:
            self.fault(client)
            asks = ["refresh", f"connect {self.centre()}", f"read {self.pick.choice(OBJECTS)}"]
            self.add(f"c{client} {self.pick.choice(asks)}")
        elif kind == 3:
            self.sent_around(client)
        elif kind < 7:
            self.add(f"c{client} refresh")
        for _ in range(self.pick.randint(1, 3)):
            self.read(client)

    def bulk(self, client):
        """More commits than go over a link in a round."""
        self.add(f"c{client} abort")
        for number in range(self.pick.randint(65, 75)):
            self.add(f"c{client} begin", f"c{client} inc c.b {number}", f"c{client} commit")
            self.commits[client] += 1
        self.add(f"c{client} flush")

    # ---- bounded counters

    def share(self, client):
        """A step of a holder: grants are rare, and amounts such that some takings fit and some do not."""
        shown, amount = self.pick.choice(["b.a", "b.a", "b.b"]), self.pick.randint(1, 9)
        others = [one for one in range(1, self.m + 1) if one != client]
        kind = self.pick.randrange(8)
        if kind < 2:
            self.add(f"c{client} grant {shown} {self.pick.randint(1, 12)}")
        elif kind < 4 and others:
            self.add(f"c{client} give {shown} {self.pick.choice(others)} {amount}")
        elif kind < 7:
            self.add(f"c{client} take {shown} {amount}")
        else:
            self.add(f"c{client} rights {shown}")

    def shares(self, client):
        """A transaction of such steps, on its way to others."""
        if not self.chance(12):
            self.add(f"c{client} begin")
        for _ in range(self.pick.randint(1, 4)):
            self.share(client)
        if self.pick.randrange(12):
            self.end(client)
        if self.chance(4):
            self.fault(client)
        self.add(f"c{client} " + self.pick.choice(["push", "flush", "flush", "refresh"]))
        if self.chance(2):
            self.add(f"c{client} refresh")

    # ---- the operator

    def order(self, client):
        kind = self.pick.randrange(8 if self.n == 2 else 12)
        if kind < 2:
            self.add(f"ship {self.route(2)}")
        elif kind == 2:
            self.add(f"ship {self.route(2)} {self.pick.randint(1, 4)}")
        elif kind == 3:
            self.add(f"tell {self.route(2)}")
        elif kind == 4:
            centre = self.centre()
            self.add(f"down {centre}", f"c{client} " + self.pick.choice(["push", "refresh"]), f"up {centre}")
        elif kind < 8:
            self.add(f"prune {self.centre()}")
        else:
            self.relay(client)

    def relay(self, client):
        """Records of a centre go on over another one, while one of the three is stopped, or none is."""
        source, origin, to = self.route(3).split()
        if self.pick.randrange(4):
            self.add(f"ship {origin} {source}")
        relay = f"relay {source} {origin} {to}"
        down = self.pick.choice([None, None, origin, origin, source, to])
        if down is None:
            self.add(relay)
        else:
            self.add(f"down {down}", relay, f"c{client} refresh", f"up {down}")

    def links(self):
        for _ in range(self.pick.randint(1, 4)):
            self.add(f"link {self.route(2)} {self.pick.choice(['drop', 'twice', 'hold', 'hold'])} {self.pick.randint(1, 3)}")
        if self.chance(2):
            self.add(f"link {self.route(2)} {self.pick.choice(['cut', 'bend'])} {self.pick.randint(1, 3)}")
        if self.chance(4):
            self.add(f"link {self.route(2)} clean")

    def loss(self):
        """A centre is lost, mostly with a commit that came last. Its records go on from each centre to the one behind."""
        lost = self.centre()
        chain = [(lost + step) % self.n + 1 for step in range(self.n - 1)]
        if self.pick.randrange(4):
            self.add("c1 abort", f"c1 connect {lost}", "c1 begin", "c1 inc c.a 7", "c1 commit", "c1 flush")
        self.add(f"ship {lost} {chain[0]}", f"down {lost}")
        for source, to in zip(chain, chain[1:]):
            if self.pick.randrange(8):
                self.add(f"relay {source} {lost} {to}")
        self.add("settle")
        for client in range(1, self.m + 1):
            self.add(f"c{client} connect {self.pick.choice(chain[:2])}")

    # ---- taps

    def taps(self):
        """The header's lines of taps, of which two scripts of three have some."""
        if self.taps_pick.randrange(3) == 0:
            return
        for place in range(self.taps_pick.randint(1, 6)):
            one = (self.taps_pick.randint(1, self.n), "c.a" if place == 0 else self.taps_pick.choice(OBJECTS))
            if one not in self.tapped:
                self.tapped.append(one)
                self.add(f"tap {one[0]} {one[1]}")

    def feed_and_look(self):
        """Some feeds and looks, in which a centre may be stopped or was pruned before."""
        for _ in range(self.taps_pick.randint(0, 4) if self.tapped else 0):
            centre, thing = self.taps_pick.choice(self.tapped)
            look = f"c{self.taps_pick.randint(1, self.m)} tap {centre} {thing}"
            self.add(*self.taps_pick.choice([
                [look], [f"feed {centre}"], [f"feed {centre}", look], [f"feed {centre}", f"feed {centre}", look],
                [f"down {centre}", f"feed {centre}", f"up {centre}", look],
            ]))

    def one_more(self):
        """A commit of a client, and all that it has not sent yet goes out."""
        client = self.taps_pick.randint(1, self.m)
        self.commits[client] += 1
        return [f"c{client} {word}" for word in ("abort", "begin", "inc c.a 1", "commit", "flush")]

    def feeds_and_looks(self):
        """Feeds in a phase, and looks of each client beside them."""
        if not self.tapped or self.taps_pick.randrange(3) == 0:
            return
        centre, thing = self.taps_pick.choice(self.tapped)
        for _ in range(self.taps_pick.randint(2, 4)):
            self.add(*self.one_more(), f"feed {centre}", f"feed {centre}")
            self.add(*(f"c{client} tap {centre} {thing}" for client in range(1, self.m + 1)))

    # ---- the whole

    def block(self):
        client = self.pick.randint(1, self.m)
        kind = self.pick.randrange(20)
        if kind > 16:
            self.shares(client)
        elif kind == 16:
            self.hurry(client)
        elif kind < 8:
            self.transaction(client)
        elif kind < 13:
            self.look(client)
        else:
            self.order(client)

    def head(self):
        self.add(f"centres {self.n} k {min(self.centre(), self.centre())}", f"clients {self.m}")
        self.add(f"cache {self.pick.randint(1, 3)}", f"threads {self.pick.randint(1, 4)}")
        self.add(f"rounds {self.pick.choice([0, 1, 1, 2, 2, 3, 4, 8, 9, 16])}")
        self.taps()
        if self.chance(6):
            self.add("limit 3")
        for client in range(1, self.m + 1):
            if self.pick.randrange(10):
                self.add(f"c{client} connect {self.centre()}")

    def phase(self):
        self.add("phase")
        for _ in range(self.pick.randint(5, 14)):
            self.block()
            if self.taps_pick.randrange(4) == 0:
                self.feed_and_look()
        self.feeds_and_looks()
        if self.chance(40):
            self.bulk(self.pick.randint(1, self.m))
        self.add("end")

    def let_go(self):
        """All is settled and pruned, and a record that was let go is asked for."""
        self.add("settle", *(f"prune {centre}" for centre in self.pick.sample(range(1, self.n + 1), self.n)))
        self.add(f"ship {self.route(2)} 1", f"ship {self.route(2)} 2")
        self.block()

    def ending(self):
        self.add("settle")
        self.add(*(f"feed {centre}" for centre in dict.fromkeys(centre for centre, _ in self.tapped) for _ in range(2)))
        for client in range(1, self.m + 1):
            self.add(f"c{client} abort", f"c{client} refresh", *(f"c{client} read {thing}" for thing in OBJECTS))
            self.add(f"c{client} rights b.a", f"c{client} rights b.b")
            self.add(*(f"c{client} tap {centre} {thing}" for centre, thing in self.tapped))

    def script(self):
        self.head()
        if self.m > 1 and self.chance(3):
            self.follow(self.pick.randint(1, self.m))
        for _ in range(2):
            for _ in range(self.pick.randint(1, 4)):
                self.block()
                self.feed_and_look()
            self.links()
            self.phase()
            self.feed_and_look()
            if self.chance(4):
                self.let_go()
        if self.n > 2:
            self.loss()
        self.ending()
        return "\n".join(self.lines) + "\n"


def script_of(seed):
    """The script of a seed."""
    return Maker(seed).script()
