"""Reads a script: its settings, and its sections, each with its steps.

A section is one step outside of phases, or a phase. A step is a tuple: the client's number, or 0 for the operator, then
the word of the step, then what the line says behind it. A text that is no script is refused by one word: tests/grammar/run looks
at causes, and this reader does not.
"""
import re
from collections import namedtuple

Section = namedtuple("Section", "phase steps")
Script = namedtuple("Script", "n k clients cache limit threads rounds taps sections")

NAME = r"[a-z0-9_]{1,32}"
NUMBER = r"(?:0|[1-9][0-9]{0,18})"
BOUNDED = r"b\.[a-z0-9_]{1,25}"
MOST_HOLDERS = 8
MOST_TAPPED = 8
SETTINGS = {"cache": (1, 100000, 1024), "limit": (1, 1000000, 1000000), "threads": (1, 16, 4), "rounds": (0, 1000, 32)}
CLIENT_FORMS = [
    (rf"connect ({NUMBER})", "connect"), (r"begin", "begin"), (rf"inc (c\.{NAME}) (-?{NUMBER})", "inc"),
    (rf"set (r\.{NAME}) ({NAME})", "set"), (rf"(add|del) (s\.{NAME}) ({NAME})", None),
    (rf"put (m\.{NAME}) ({NAME}) ({NAME})", "put"), (rf"drop (m\.{NAME}) ({NAME})", "drop"),
    (rf"read ([crsm]\.{NAME})", "read"), (r"(commit|abort|push|flush|refresh|twice)", None),
    (rf"(grant|take) ({BOUNDED}) ({NUMBER})", None), (rf"give ({BOUNDED}) ({NUMBER}) ({NUMBER})", "give"),
    (rf"rights ({BOUNDED})", "rights"),
    (rf"again ({NUMBER}) ({NUMBER})", "again"), (r"lose (ask|reply)", "lose"),
    (rf"tap ({NUMBER}) ([crsm]\.{NAME})", "tap"),
]
OPERATOR_FORMS = [
    (rf"(down|up|prune|feed) ({NUMBER})", None), (rf"ship ({NUMBER}) ({NUMBER}) ({NUMBER})", "ship"),
    (rf"(ship|tell) ({NUMBER}) ({NUMBER})", None), (rf"relay ({NUMBER}) ({NUMBER}) ({NUMBER})", "relay"), (r"(settle)", None),
    (rf"link ({NUMBER}) ({NUMBER}) (clean)", "link"), (rf"link ({NUMBER}) ({NUMBER}) (drop|twice|hold|cut|bend) ({NUMBER})", "link"),
]
FORMS = {"client": CLIENT_FORMS, "operator": OPERATOR_FORMS}
COMPILED = {who: [(re.compile(form), word) for form, word in forms] for who, forms in FORMS.items()}
# The last number of a step that has one beside its centres: how many centres stand before it, and its greatest value.
COUNTED = {"ship": (2, 1000000), "link": (3, 1000000), "again": (1, 4611686018427387904)}
RIGHTS = ("grant", "give", "take", "rights")
CENTRES = {
    "connect": 1, "again": 1, "tap": 1, "down": 1, "up": 1, "prune": 1, "feed": 1, "ship": 2, "tell": 2, "link": 2, "relay": 3,
}
OUTSIDE = ("settle", "link")  # the words of the steps that stand in no phase


class NoScript(Exception):
    """The text is no script."""


def words_of(text):
    """The lines that count, each with its number, as words with one space between them."""
    for number, line in enumerate(text.split("\n"), 1):
        line = line[:-1] if line.endswith("\r") else line
        words = line.replace("\t", " ").split()
        if words and not words[0].startswith("#"):
            yield number, " ".join(words)


def refuse(number):
    raise NoScript(f"line {number} of the script is none")


def holders_of(script):
    """How many clients are holders of bounded counters."""
    return min(script.clients, MOST_HOLDERS)


def step_of(words, script, number):
    """The step of a line."""
    named = re.fullmatch(rf"c({NUMBER}) (.*)", words)
    client = int(named[1]) if named else 0
    if named and not 1 <= client <= script.clients:
        refuse(number)
    rest = named[2] if named else words
    for form, word in COMPILED["client" if named else "operator"]:
        found = form.fullmatch(rest)
        if found:
            said = list(found.groups())
            said = said if word is None else [word] + said
            return checked((client, *said), script, number)
    refuse(number)


def checked(step, script, number):
    """The step with its numbers read, each of them in its range."""
    word, said = step[1], list(step[2:])
    for place in range(CENTRES.get(word, 0)):
        said[place] = int(said[place])
        if not 1 <= said[place] <= script.n or said[place] in said[:place]:
            refuse(number)
    if word in COUNTED and len(said) > COUNTED[word][0]:
        said[-1] = int(said[-1])
        if not 1 <= said[-1] <= COUNTED[word][1]:
            refuse(number)
    if word == "inc":
        if said[1] == "-0" or abs(int(said[1])) > 10**12 or said[0].startswith("c.bc_"):
            refuse(number)
        said[1] = int(said[1])
    if word == "feed" and not on_tap(script, said[0]) or word == "tap" and said[1] not in on_tap(script, said[0]):
        refuse(number)
    if word in RIGHTS:
        said[1:] = amounts_in(step[0], said[1:], script, number)
    return (step[0], word, *said)


def amounts_in(client, said, script, number):
    """The holder and the amount of a step on a bounded counter, where it has them, of a client that is a holder."""
    said = list(map(int, said))
    if client > holders_of(script) or any(not 1 <= amount <= 10**12 for amount in said[-1:]):
        refuse(number)
    if len(said) == 2 and (not 1 <= said[0] <= holders_of(script) or said[0] == client):
        refuse(number)
    return said


def on_tap(script, centre):
    """The objects that the tap of a centre shows, in their order."""
    return [thing for of, thing in script.taps if of == centre]


def tapped(words, n, taps, number):
    """The centre and the object of a line of the header, which are not among those before it."""
    found = re.fullmatch(rf"tap ({NUMBER}) ([crsm]\.{NAME})", words)
    one = (int(found[1]), found[2]) if found else None
    if one is None or not 1 <= one[0] <= n or one in taps or len(taps) == MOST_TAPPED:
        refuse(number)
    return one


def header_of(lines):
    """The settings, and the place of the first line behind them."""
    heads = [re.fullmatch(rf"centres ({NUMBER}) k ({NUMBER})", lines[0][1]) if lines else None]
    heads.append(re.fullmatch(rf"clients ({NUMBER})", lines[1][1]) if len(lines) > 1 else None)
    if not all(heads):
        refuse(lines[0][0] if lines else 1)
    n, k, clients = int(heads[0][1]), int(heads[0][2]), int(heads[1][1])
    if not (1 <= n <= 8 and 1 <= k <= n and 1 <= clients <= 1024):
        refuse(1)
    said, taps, place = {}, [], 2
    while place < len(lines) and lines[place][1].split()[0] in (*SETTINGS, "tap"):
        number, words = lines[place]
        place += 1
        if words.split()[0] == "tap":
            taps.append(tapped(words, n, taps, number))
            continue
        found = re.fullmatch(rf"(\w+) ({NUMBER})", words)
        if not found or found[1] in said or not SETTINGS[found[1]][0] <= int(found[2]) <= SETTINGS[found[1]][1]:
            refuse(number)
        said[found[1]] = int(found[2])
    settings = {word: said.get(word, SETTINGS[word][2]) for word in SETTINGS}
    return Script(n, k, clients, taps=taps, sections=[], **settings), place


def read(text):
    """The script that a text is."""
    lines = list(words_of(text))
    script, place = header_of(lines)
    phase = None
    for number, words in lines[place:]:
        if words == "phase" and phase is None:
            phase = []
        elif words == "end" and phase is not None:
            script.sections.append(Section(True, phase))
            phase = None
        else:
            step = step_of(words, script, number)
            if phase is None:
                script.sections.append(Section(False, [step]))
            elif step[1] in OUTSIDE:
                refuse(number)
            else:
                phase.append(step)
    if phase is not None:
        refuse(len(lines))
    return script
