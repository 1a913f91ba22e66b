"""Texts of runs in which one thing is changed: each has to be refused.

A kind is a function: of a generator, the lines and the script it gives other lines, or None where the lines have nothing of
the sort.
"""
import re

ENTRY = re.compile(r"trail (\d+) (\d+) by (\d+) (.*)")
KINDS = {}


def kind(name):
    def put(function):
        KINDS[name] = function
        return function
    return put


# ---- parts


def places(lines, form):
    """The places of the lines that have this form."""
    compiled = re.compile(form)
    return [place for place, line in enumerate(lines) if compiled.fullmatch(line)]


def renumbered(lines):
    """The lines with the entries of each trail counted anew."""
    counts, out = {}, []
    for line in lines:
        found = ENTRY.fullmatch(line)
        if found:
            counts[found[1]] = counts.get(found[1], 0) + 1
            line = f"trail {found[1]} {counts[found[1]]} by {found[3]} {found[4]}"
        out.append(line)
    return out


def changed(form, change):
    """A kind that changes one line of this form."""
    def spoil(pick, lines, script):
        found = places(lines, form)
        if not found:
            return None
        place = pick.choice(found)
        line = change(pick, re.fullmatch(form, lines[place]))
        return None if line is None else lines[:place] + [line] + lines[place + 1:]
    return spoil


def add_changed(name, form, change):
    KINDS[name] = changed(form, change)


def without(lines, place):
    return renumbered(lines[:place] + lines[place + 1:])


def exchanged(lines, one, other):
    """The lines with what two entries, or two other lines, say exchanged."""
    out = list(lines)
    out[one], out[other] = lines[other], lines[one]
    return renumbered(out)


def printed(lines):
    return [place for place, line in enumerate(lines) if not line.startswith(("trail ", "basis "))]


def entries(lines):
    """The entries: the place, the centre, the caller, and the words."""
    found = ((place, ENTRY.fullmatch(line)) for place, line in enumerate(lines))
    return [(place, int(entry[1]), int(entry[3]), entry[4]) for place, entry in found if entry]


def receiver(script, centre):
    return script.clients + 1 + 4 * (centre - 1) + 2


def deliveries(lines, script):
    """The deliveries of receivers."""
    return [entry for entry in entries(lines) if entry[2] == receiver(script, entry[1])]


def links(script):
    """The steps that set a link."""
    return [step for section in script.sections for step in section.steps if step[1] == "link"]


def brought(lines, script):
    """What each receiver delivers, where the script has one phase: the places, and the places of each origin."""
    found = {}
    if sum(section.phase for section in script.sections) == 1:
        for place, centre, caller, words in deliveries(lines, script):
            places, origins = found.setdefault(centre, ([], {}))
            places.append(place)
            origins.setdefault(int(words.split()[1].split(":")[0]), []).append(place)
    return list(found.values())


def regrouped(lines, places, order):
    """The lines with those of one order at these places."""
    out = list(lines)
    for place, other in zip(places, order):
        out[place] = lines[other]
    return renumbered(out)


def one_of(pick, found):
    return pick.choice(found) if found else None


def other_vector(pick, text):
    """A vector with one entry changed."""
    vector = list(map(int, text.split(",")))
    place = pick.randrange(len(vector))
    vector[place] += 1 if vector[place] == 0 else pick.choice([-1, 1])
    return ",".join(map(str, vector))


def another(pick, one, choices):
    return pick.choice([choice for choice in choices if choice != one])


def more(text):
    return str(int(text) + 1)


# ---- printed lines

add_changed("a changed value of a counter", r"(c\d+ read c\.\w+ )(-?\d+)",
            lambda pick, line: line[1] + str(int(line[2]) + pick.choice([-1, 1, 7])))
add_changed("a changed word of a register", r"(c\d+ read r\.\w+ )([xyz-])",
            lambda pick, line: line[1] + another(pick, line[2], "xyz-"))
add_changed("a word more or less in a set", r"(c\d+ read s\.\w+ )(\{.*\})",
            lambda pick, line: line[1] + another(pick, line[2], ["{}", "{x}", "{x y}", "{y z}", "{x y z}"]))
add_changed("another word in a map", r"(c\d+ read m\.\w+ )(\{.*\})",
            lambda pick, line: line[1] + another(pick, line[2], ["{}", "{k=x}", "{k=y l=z}", "{l=x}"]))
add_changed("other rights", r"(c\d+ rights \S+ )(\d+)", lambda pick, line: line[1] + more(line[2]))
add_changed("a taking refused with other rights", r"(c\d+ (?:take|give) \S+ short )(\d+)", lambda pick, line: line[1] + more(line[2]))
add_changed("a taking told as closed", r"(c\d+ (?:take|give) \S+ )short \d+", lambda pick, line: f"{line[1]}closed")
add_changed("a changed vector of a `sees` line", r"(c\d+ sees )([\d,]+)( own \d+)",
            lambda pick, line: line[1] + other_vector(pick, line[2]) + line[3])
add_changed("a changed own of a `sees` line", r"(c\d+ sees [\d,]+ own )(\d+)",
            lambda pick, line: line[1] + more(line[2]))
add_changed("a push known for stamped", r"(c\d+ push (\d+)) stamp \d+:\d+",
            lambda pick, line: f"{line[1]} known {line[2]}")
add_changed("a push stamped for known", r"(c\d+ push (\d+)) known \d+",
            lambda pick, line: f"{line[1]} stamp 1:{line[2]}")
add_changed("a push with another stamp", r"(c\d+ push \d+ stamp \d+:)(\d+)", lambda pick, line: line[1] + more(line[2]))
add_changed("a lost push told as heard", r"(c\d+ push (\d+)) lost", lambda pick, line: f"{line[1]} known {line[2]}")
add_changed("a lost refresh told as heard", r"(c\d+) refresh lost", lambda pick, line: f"{line[1]} sees 0,0 own 0")
add_changed("a lost connect told as heard", r"(c\d+) connect (\d+) lost", lambda pick, line: f"{line[1]} at {line[2]}")
add_changed("a refused move told as made", r"(c\d+) refused (\d+) lacks .*",
            lambda pick, line: f"{line[1]} at {line[2]}")
add_changed("another number of a commit", r"(c\d+ commit )(\d+)", lambda pick, line: line[1] + more(line[2]))
add_changed("a printed base with another number folded", r"(\d+ base [\d,]+ folded )(\d+)( trimmed \d+)",
            lambda pick, line: line[1] + more(line[2]) + line[3])
add_changed("a printed base with another number trimmed", r"(\d+ base [\d,]+ folded \d+ trimmed )(\d+)",
            lambda pick, line: line[1] + more(line[2]))
add_changed("a printed shipment applied for alias, or alias for applied", r"(\d+ from \d+ (?:of \d+ )?)(applied|alias)( \d+)",
            lambda pick, line: line[1] + ("alias" if line[2] == "applied" else "applied") + line[3])
add_changed("a look with another number", r"(c\d+ tap \d+ c\.\w+ at [\d,]+ )(-?\d+)", lambda pick, line: line[1] + more(line[2]))
add_changed("a look with another word", r"(c\d+ tap \d+ r\.\w+ at [\d,]+ )([xyz-])",
            lambda pick, line: line[1] + another(pick, line[2], "xyz-"))
add_changed("a look through the tap of another centre", r"(c\d+ tap )(\d+)( .*)", lambda pick, line: line[1] + more(line[2]) + line[3])
add_changed("a feed with another vector", r"(\d+ fed )([\d,]+)", lambda pick, line: line[1] + other_vector(pick, line[2]))
add_changed("a feed that found a show told as down", r"(\d+) fed [\d,]+", lambda pick, line: f"{line[1]} feed down")
add_changed("another number in a refused delivery", r"(\d+ from \d+ .*(?:old|gap|waits .* has|trimmed) )(\d+)",
            lambda pick, line: line[1] + more(line[2]))


@kind("a value of another moment")
def another_moment(pick, lines, script):
    found = places(lines, r"c\d+ read [crsm]\.\w+ (-?\d+|[xyz-]|\{.*\})")
    words = {place: (lines[place].split()[2], lines[place].split()[3:]) for place in found}
    pairs = [(one, other) for one in found for other in found if words[one][0] == words[other][0] and words[one] != words[other]]
    pair = one_of(pick, pairs)
    if not pair:
        return None
    line = " ".join(lines[pair[0]].split()[:3] + lines[pair[1]].split()[3:])
    return lines[:pair[0]] + [line] + lines[pair[0] + 1:]


@kind("a printed line left out")
def line_left_out(pick, lines, script):
    place = one_of(pick, printed(lines))
    return None if place is None else lines[:place] + lines[place + 1:]


@kind("a printed line doubled")
def line_doubled(pick, lines, script):
    place = one_of(pick, printed(lines))
    return None if place is None else lines[:place] + lines[place:place + 1] + lines[place:]


@kind("two printed lines exchanged")
def lines_exchanged(pick, lines, script):
    found = printed(lines)
    place = one_of(pick, found[1:])
    return None if place is None else exchanged(lines, place - 1, place)


# ---- looks


class Look:
    """A line of a look: its place, the number of its section, what it says, and whether its tap is fed beside it in a phase."""

    def __init__(self, place, number, section, line):
        self.place, self.number = place, number
        self.client, self.centre, self.thing, self.seen = re.fullmatch(r"c(\d+) tap (\d+) (\S+) at (.*)", line).groups()
        self.vector = self.seen.split(" ")[0]
        self.is_open = section.phase and (0, "feed", int(self.centre)) in section.steps


def looks_in(lines, script):
    """The lines of looks. Those of a client stand in the order of its steps, and each step has one."""
    looks = []
    for client in range(1, script.clients + 1):
        steps = [(number, section) for number, section in enumerate(script.sections)
                 for step in section.steps if step[:2] == (client, "tap")]
        found = places(lines, rf"c{client} tap \d+ \S+ at .*")
        looks += [Look(place, *step, lines[place]) for place, step in zip(found, steps)]
    return looks


def seeing(lines, look, seen):
    """The lines with another show in that of a look."""
    return lines[:look.place] + [f"c{look.client} tap {look.centre} {look.thing} at {seen}"] + lines[look.place + 1:]


@kind("a look with another vector")
def look_with_other_vector(pick, lines, script):
    """One that no feed found: beside feeds a look may see the show of each of them."""
    look = one_of(pick, looks_in(lines, script))
    if not look:
        return None
    vector = other_vector(pick, look.vector)
    known = f"{look.centre} fed {vector}" in lines or not re.search("[1-9]", vector)
    return None if known else seeing(lines, look, look.seen.replace(look.vector, vector, 1))


@kind("a look at an older show")
def older_show(pick, lines, script):
    """What an earlier look of any client saw of the same object through the same tap, with another vector."""
    looks = looks_in(lines, script)
    pairs = [(one, other) for one in looks for other in looks if not one.is_open and other.place < one.place
             and (one.centre, one.thing) == (other.centre, other.thing) and one.seen != other.seen]
    pair = one_of(pick, pairs)
    return seeing(lines, pair[0], pair[1].seen) if pair else None


@kind("a look beside feeds at an older show")
def older_show_beside_feeds(pick, lines, script):
    """What a look in an earlier section saw, where one in a section between the two saw a later show."""
    looks, pairs = looks_in(lines, script), []
    for one in looks:
        before = [other for other in looks if one.is_open and other.number < one.number and other.centre == one.centre]
        pairs += [(one, other) for other in before if other.thing == one.thing and other.seen != one.seen
                  and any(last.number > other.number and last.vector != other.vector for last in before)]
    pair = one_of(pick, pairs)
    return seeing(lines, pair[0], pair[1].seen) if pair else None


@kind("two looks of a client beside feeds exchanged")
def looks_exchanged(pick, lines, script):
    looks = [look for look in looks_in(lines, script) if look.is_open]
    pairs = [(one.place, other.place) for one in looks for other in looks if one.place < other.place and one.seen != other.seen
             and (one.client, one.number, one.centre, one.thing) == (other.client, other.number, other.centre, other.thing)]
    pair = one_of(pick, pairs)
    return exchanged(lines, *pair) if pair else None


@kind("a look at the opening")
def look_at_opening(pick, lines, script):
    found = [look.place for look in looks_in(lines, script) if not look.is_open and look.thing.startswith("c.") and re.search("[1-9]", look.seen)]
    place = one_of(pick, found)
    if place is None:
        return None
    line = " ".join(lines[place].split()[:5] + [",".join(["0"] * script.n), "0"])
    return lines[:place] + [line] + lines[place + 1:]


@kind("a fetch of a feed told as one of another object's")
def feed_fetches_other(pick, lines, script):
    """The entries of two fetches of one feed exchanged."""
    pairs = [(place, place + 1) for place, centre, caller, words in entries(lines)[:-1]
             if caller == 1 and words.startswith("fetch ") and re.fullmatch(rf"trail {centre} \d+ by 1 fetch .*", lines[place + 1])
             and lines[place + 1].split(" ", 4)[4] != lines[place].split(" ", 4)[4]]
    pair = one_of(pick, pairs)
    return exchanged(lines, *pair) if pair else None


# ---- bases


@kind("a basis that lacks a transaction")
def basis_lacks(pick, lines, script):
    place = one_of(pick, places(lines, r"basis c\d+ \d+( \d+\.\d+)+"))
    if place is None:
        return None
    words = lines[place].split()
    del words[pick.randrange(3, len(words))]
    return lines[:place] + [" ".join(words)] + lines[place + 1:]


@kind("a basis with a transaction too many")
def basis_has_more(pick, lines, script):
    place = one_of(pick, places(lines, r"basis .*"))
    if place is None:
        return None
    dots = {tuple(map(int, dot.split("."))) for dot in lines[place].split()[3:]}
    client = pick.randint(1, script.clients)
    dots.add((client, 1 + max((number for of, number in dots if of == client), default=0)))
    line = " ".join(lines[place].split()[:3] + [f"{of}.{number}" for of, number in sorted(dots)])
    return lines[:place] + [line] + lines[place + 1:]


@kind("a basis that counts a transaction twice")
def basis_doubles(pick, lines, script):
    place = one_of(pick, places(lines, r"basis c\d+ \d+( \d+\.\d+)+"))
    if place is None:
        return None
    words = lines[place].split()
    at = pick.randrange(3, len(words))
    return lines[:place] + [" ".join(words[:at] + [words[at]] + words[at:])] + lines[place + 1:]


@kind("a basis line left out")
def basis_left_out(pick, lines, script):
    place = one_of(pick, places(lines, r"basis .*"))
    return None if place is None else lines[:place] + lines[place + 1:]


@kind("the bases of two reads exchanged")
def bases_exchanged(pick, lines, script):
    found = places(lines, r"basis .*")
    pairs = [(one, other) for one in found for other in found if lines[one].split()[3:] != lines[other].split()[3:]]
    pair = one_of(pick, pairs)
    if not pair:
        return None
    out, one, other = list(lines), lines[pair[0]].split(), lines[pair[1]].split()
    out[pair[0]], out[pair[1]] = " ".join(one[:3] + other[3:]), " ".join(other[:3] + one[3:])
    return out


# ---- entries

ANY = r"(trail \d+ \d+ by \d+ )"
add_changed("an entry with another stamp of a commit", ANY + r"(commit \d+\.\d+ stamped \d+:)(\d+)",
            lambda pick, line: line[1] + line[2] + more(line[3]))
add_changed("an entry with another commit", ANY + r"(commit \d+\.)(\d+)( .*)",
            lambda pick, line: line[1] + line[2] + more(line[3]) + line[4])
add_changed("a commit known for stamped in its entry", ANY + r"(commit \d+\.(\d+)) stamped .*",
            lambda pick, line: f"{line[1]}{line[2]} known {line[3]}")
add_changed("another number of a commit that is known", ANY + r"(commit \d+\.\d+ known )(\d+)",
            lambda pick, line: line[1] + line[2] + more(line[3]))
add_changed("a delivery with another stamp", ANY + r"(deliver \d+:)(\d+)( .*)",
            lambda pick, line: line[1] + line[2] + more(line[3]) + line[4])
add_changed("a delivery of another origin", ANY + r"deliver (\d+)(:.*)",
            lambda pick, line: f"{line[1]}deliver {int(line[2]) + 1}{line[3]}")
add_changed("a delivery applied for alias, or alias for applied", ANY + r"(deliver \d+:\d+) (applied|alias)",
            lambda pick, line: f"{line[1]}{line[2]} " + ("alias" if line[3] == "applied" else "applied"))
add_changed("another number in an entry's refusal", ANY + r"(.* (?:old|gap|order|full|trimmed|has) )(\d+)",
            lambda pick, line: line[1] + line[2] + more(line[3]))
add_changed("another vector of a report", ANY + r"(report vector )(.*)",
            lambda pick, line: line[1] + line[2] + other_vector(pick, line[3]))
add_changed("another vector of a snapshot", ANY + r"(refresh snap )([\d,]+)( .*)",
            lambda pick, line: line[1] + line[2] + other_vector(pick, line[3]) + line[4])
add_changed("another own of a snapshot", ANY + r"(refresh snap [\d,]+ own )(\d+)( .*)",
            lambda pick, line: line[1] + line[2] + more(line[3]) + line[4])
add_changed("another top of a snapshot", ANY + r"(refresh snap .* top )(\d+)",
            lambda pick, line: line[1] + line[2] + more(line[3]))
add_changed("another count of records", ANY + r"(.* records )(\d+)",
            lambda pick, line: line[1] + line[2] + more(line[3]))
add_changed("a send behind another number", ANY + r"(send |relay \d+ )(\d+)( .*)",
            lambda pick, line: line[1] + line[2] + more(line[3]) + line[4])
add_changed("a learned yes for no, or no for yes", ANY + r"(learn \d+ learned )(yes|no)",
            lambda pick, line: line[1] + line[2] + ("no" if line[3] == "yes" else "yes"))
add_changed("a vector that is learned of another centre", ANY + r"learn (\d+)( .*)",
            lambda pick, line: f"{line[1]}learn {int(line[2]) + 1}{line[3]}")
add_changed("a base with another number folded", ANY + r"(prune base [\d,]+ folded )(\d+)( .*)",
            lambda pick, line: line[1] + line[2] + more(line[3]) + line[4])
add_changed("a base with another number trimmed", ANY + r"(prune base .* trimmed )(\d+)",
            lambda pick, line: line[1] + line[2] + more(line[3]))
add_changed("a base with another vector", ANY + r"(prune base )([\d,]+)( .*)",
            lambda pick, line: line[1] + line[2] + other_vector(pick, line[3]) + line[4])
add_changed("another number of a welcome", ANY + r"(hello welcome )(\d+)",
            lambda pick, line: line[1] + line[2] + more(line[3]))
add_changed("a fetch of another object", ANY + r"(fetch [crsm]\.)(\w)( .*)",
            lambda pick, line: line[1] + line[2] + ("b" if line[3] == "a" else "a") + line[4])
add_changed("a delta of another object", ANY + r"(delta [crsm]\.)(\w)( .*)",
            lambda pick, line: line[1] + line[2] + ("b" if line[3] == "a" else "a") + line[4])
add_changed("another number of changes", ANY + r"(delta \S+ changes )(\d+)",
            lambda pick, line: line[1] + line[2] + more(line[3]))
add_changed("an answer of a stopped centre told as one of a running one", ANY + r"report down",
            lambda pick, line: f"{line[1]}report vector 0,0")
add_changed("another number of an entry", r"(trail \d+ )(\d+)( .*)",
            lambda pick, line: line[1] + more(line[2]) + line[3])


@kind("a changed caller")
def caller_changed(pick, lines, script):
    entry = one_of(pick, entries(lines))
    if not entry:
        return None
    place, centre, caller, words = entry
    other = pick.choice([one for one in range(1, script.clients + 2 + 4 * script.n) if one != caller])
    return renumbered(lines[:place] + [f"trail {centre} 0 by {other} {words}"] + lines[place + 1:])


@kind("an entry left out")
def entry_left_out(pick, lines, script):
    entry = one_of(pick, entries(lines))
    return without(lines, entry[0]) if entry else None


@kind("the last entry of a trail left out")
def last_left_out(pick, lines, script):
    centre = pick.randint(1, script.n)
    found = [entry for entry in entries(lines) if entry[1] == centre]
    return without(lines, found[-1][0]) if found else None


@kind("an entry doubled")
def entry_doubled(pick, lines, script):
    entry = one_of(pick, entries(lines))
    return renumbered(lines[:entry[0]] + lines[entry[0]:entry[0] + 1] + lines[entry[0]:]) if entry else None


@kind("an entry that nobody made")
def entry_more(pick, lines, script):
    entry = one_of(pick, entries(lines))
    if not entry:
        return None
    caller = pick.randrange(1, script.clients + 2 + 4 * script.n)
    line = f"trail {entry[1]} 0 by {caller} report vector {','.join('0' * script.n)}"
    return renumbered(lines[:entry[0]] + [line] + lines[entry[0]:])


@kind("two entries of one caller exchanged")
def entries_exchanged(pick, lines, script):
    last, pairs = {}, []
    for place, centre, caller, words in entries(lines):
        before = last.get((centre, caller))
        if caller != receiver(script, centre) and before and before[1] != words:
            pairs.append((before[0], place))
        last[centre, caller] = (place, words)
    pair = one_of(pick, pairs)
    return exchanged(lines, *pair) if pair else None


@kind("two entries of two steps exchanged")
def steps_exchanged(pick, lines, script):
    """Those of the connects at the beginning, which stand outside of all phases."""
    order, at = [], {}
    for section in script.sections:
        if section.phase or section.steps[0][1] != "connect":
            break
        at.setdefault(section.steps[0][2], []).append(section.steps[0][0])
    for place, centre, caller, words in entries(lines):
        if at.get(centre) and at[centre][0] == caller - 1:
            order.append((centre, place))
            at[centre].pop(0)
        else:
            at.pop(centre, None)
    pairs = [(one[1], other[1]) for one, other in zip(order, order[1:]) if one[0] == other[0]]
    pair = one_of(pick, pairs)
    return exchanged(lines, *pair) if pair else None


@kind("an entry of a step behind a phase put into it")
def into_phase(pick, lines, script):
    """Of a script that ends with a refresh of a client behind a phase: of a step that asks nothing there is no entry."""
    last = script.sections[-2:]
    if len(last) < 2 or not last[0].phase or last[1].phase or last[1].steps[0][1] != "refresh":
        return None
    found = [entry for entry in entries(lines) if entry[2] == last[1].steps[0][0] + 1]
    place = found[-1][0] if found else None
    before = [entry for entry in entries(lines) if entry[0] + 1 == place and entry[1] == found[-1][1]]
    return exchanged(lines, place - 1, place) if before and before[0][2] != found[-1][2] else None


@kind("the trails of two centres exchanged")
def trails_exchanged(pick, lines, script):
    one, other = pick.sample(range(1, script.n + 1), 2)
    rows = {centre: [] for centre in range(1, script.n + 1)}
    for line in lines:
        if line.startswith("trail "):
            rows[int(line.split()[1])].append(line.split(" ", 3)[3])
    rows[one], rows[other] = rows[other], rows[one]
    trails = [f"trail {centre} 0 {row}" for centre in rows for row in rows[centre]]
    heads = [line for line in lines if not line.startswith(("trail ", "basis "))]
    return renumbered(heads + trails + [line for line in lines if line.startswith("basis ")])


# ---- what links bring


@kind("a delivery left out")
def delivery_left_out(pick, lines, script):
    entry = one_of(pick, deliveries(lines, script))
    return without(lines, entry[0]) if entry else None


@kind("a delivery doubled")
def delivery_doubled(pick, lines, script):
    entry = one_of(pick, deliveries(lines, script))
    return renumbered(lines[:entry[0]] + lines[entry[0]:entry[0] + 1] + lines[entry[0]:]) if entry else None


@kind("the last delivery of a receiver left out")
def closing_left_out(pick, lines, script):
    centre = pick.randint(1, script.n)
    found = [entry for entry in deliveries(lines, script) if entry[1] == centre]
    return without(lines, found[-1][0]) if found else None


@kind("a record of a link that holds never delivered")
def held_left_out(pick, lines, script):
    holds = {step[2:4] for step in links(script) if step[4] == "hold"}
    last = {}
    for place, centre, caller, words in deliveries(lines, script):
        source = int(words.split()[1].split(":")[0])
        if (source, centre) in holds:
            last[source, centre] = place
    place = one_of(pick, sorted(last.values()))
    return None if place is None else without(lines, place)


@kind("a spoilt record told as delivered")
def spoilt_delivered(pick, lines, script):
    """Of a script with one phase and a link that spoils each record: one comes behind a report that its sender asked for."""
    if sum(section.phase for section in script.sections) != 1:
        return None
    set_once = [step for step in links(script) if [other[2:4] for other in links(script)].count(step[2:4]) == 1]
    never = [step[2:4] for step in set_once if step[4] in ("cut", "bend") and step[5] == 1]
    found = [(place, source, to) for place, centre, caller, words in entries(lines) for source, to in never
             if centre == to and caller == receiver(script, source) - 1 and words.startswith("report ")]
    one = one_of(pick, found)
    if not one:
        return None
    place, source, to = one
    entry = f"trail {to} 0 by {receiver(script, to)} deliver {source}:1 applied"
    return renumbered(lines[:place + 1] + [entry] + lines[place + 1:])


@kind("two deliveries of one link exchanged")
def deliveries_exchanged(pick, lines, script):
    last, pairs = {}, []
    for place, centre, caller, words in deliveries(lines, script):
        key = (centre, words.split(":")[0])
        if key in last and lines[last[key]].split(" ", 3)[3] != lines[place].split(" ", 3)[3]:
            pairs.append((last[key], place))
        last[key] = place
    pair = one_of(pick, pairs)
    return exchanged(lines, *pair) if pair else None


@kind("a delivery before it was sent")
def delivered_early(pick, lines, script):
    """In front of all reports that the sender of its origin asked for."""
    all_entries, found = entries(lines), []
    for place, centre, caller, words in deliveries(lines, script):
        sender = receiver(script, int(words.split()[1].split(":")[0])) - 1
        first = [entry[0] for entry in all_entries if entry[1] == centre and entry[2] == sender][:1]
        if first and first[0] < place:
            found.append((first[0], place))
    pair = one_of(pick, found)
    if not pair:
        return None
    rest = lines[:pair[1]] + lines[pair[1] + 1:]
    return renumbered(rest[:pair[0]] + [lines[pair[1]]] + rest[pair[0]:])


@kind("an entry behind the delivery of a close")
def behind_close(pick, lines, script):
    """The last delivery of the only link with a fault, which holds each record, goes in front of an entry of another caller."""
    found = deliveries(lines, script)
    if [step[4:] for step in links(script)] != [("hold", 1)] or not found:
        return None
    place = found[-1][0]
    before = [entry for entry in entries(lines) if entry[0] == place - 1 and entry[1] == found[-1][1]]
    return exchanged(lines, place - 1, place) if before and before[0][2] != found[-1][2] else None


@kind("deliveries of a receiver in more rounds than it makes")
def more_rounds(pick, lines, script):
    """In each round a receiver goes through the links ascending. Here it goes back more often than it has rounds."""
    found = []
    for places, origins in brought(lines, script):
        many = sorted(origin for origin in origins if len(origins[origin]) > script.rounds)
        if len(many) > 1:
            low, high = origins.pop(many[0]), origins.pop(many[1])
            order = [place for pair in zip(high, low) for place in pair] + high[len(low):] + low[len(high):]
            found.append((places, order + [place for origin in sorted(origins) for place in origins[origin]]))
    one = one_of(pick, found)
    return regrouped(lines, *one) if one else None


@kind("a delivery between the two of a doubled record")
def between_doubles(pick, lines, script):
    """Of a script with one phase and one link that has a fault, which doubles each record."""
    steps = links(script)
    if [step[4:] for step in steps] != [("twice", 1)]:
        return None
    for places, origins in brought(lines, script):
        doubled = origins.pop(steps[0][2], [])
        rest = [place for origin in sorted(origins) for place in origins[origin]]
        if len(doubled) > 1 and rest:
            return regrouped(lines, places, doubled[:1] + rest[:1] + doubled[1:] + rest[1:])
    return None
