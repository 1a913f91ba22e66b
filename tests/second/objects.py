"""States of objects as centres and caches keep them: tallies of adds under words and keys.

An operation is a tuple: its word (`inc`, `set`, `add`, `del`, `put`, `drop`), what it says, and for sets and maps the
identifiers that it is over. A mark is a rank, a client, a number and a place. The state of a counter is a number, that of
a register the greatest write or None, and that of a set or a map has a tally for each word or key and identifier.
"""

WIDTH = 1 << 128


def named(op):
    """The word or key that an operation is on, where it has one."""
    return op[1] if op[0] in ("add", "del", "put", "drop") else None


def marked(updates, rank, dot, thing):
    """The operations on an object among updates of one transaction, each with its mark."""
    return [((rank, *dot, place), op) for place, (of, op) in enumerate(updates) if of == thing]


def empty(thing):
    """The state of an object before any operation."""
    return {"c": 0, "r": None, "s": {}, "m": {}}[thing[0]]


def turn(tallies, place, kept):
    """One more under a place, of an add that keeps something, or one less."""
    count, old = tallies.get(place, (0, None))
    count += -1 if kept is None else 1
    if count == 0:
        tallies.pop(place, None)
    else:
        tallies[place] = (count, (old if kept is None else kept) if count > 0 else None)


def tally(tallies, mark, op):
    """The tallies after one operation: its own identifier is added, and those that it is over are lowered."""
    if op[0] == "add":
        turn(tallies, (op[1], mark[1:]), True)
    elif op[0] == "put":
        turn(tallies, (op[1], mark[1:]), (mark[0], op[2]))
    for tag in op[-1]:
        turn(tallies, (op[1], tag), None)


def fold(thing, state, ops):
    """The state after marked operations, in their order."""
    if thing[0] == "c":
        total = state + sum(op[1] for _, op in ops)
        return (total + WIDTH // 2) % WIDTH - WIDTH // 2
    if thing[0] == "r":
        writes = [(mark, op[1]) for mark, op in ops]
        return max(writes if state is None else [state] + writes, default=None, key=lambda write: write[0])
    tallies = dict(state)
    for mark, op in ops:
        tally(tallies, mark, op)
    return tallies


def tags_of(thing, state, name):
    """The live identifiers of a word or key, ascending."""
    if thing[0] in "cr":
        return []
    return sorted(tag for (under, tag), (count, _) in state.items() if under == name and count > 0)


def value_of(thing, state):
    """What a read gives."""
    if thing[0] == "c":
        return state
    if thing[0] == "r":
        return None if state is None else state[1]
    if thing[0] == "s":
        return sorted({name for (name, _), (count, _) in state.items() if count > 0})
    best = {}
    for (key, tag), (count, kept) in state.items():
        if count > 0 and (key not in best or best[key][0] < (kept[0], tag)):
            best[key] = ((kept[0], tag), kept[1])
    return [(key, best[key][1]) for key in sorted(best)]


def cell_of(shown, holder, to):
    """The cell of a bounded counter from a holder to another one, to itself, or to 0."""
    return f"c.bc_{shown[2:]}_{holder}_{to}"


def cells_of(shown, holder, holders):
    """The cells of a holder: those that count for it, and those that count against it."""
    every = range(1, holders + 1)
    gains = [cell_of(shown, one, holder) for one in every]
    return gains, [cell_of(shown, holder, one) for one in every if one != holder] + [cell_of(shown, holder, 0)]
