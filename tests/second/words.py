"""How asks, answers, vectors and values are spelled.

An ask and an answer are tuples: a word, and what it says. A transaction is a `Tx`, a record a `Record`: a transaction with
its stamp and with the vector of what it depends on. A dot is a pair of a client and a number, a stamp a pair of a centre
and a number, an identifier a dot with a place. Vectors are tuples, and centres are counted from 1.
"""
from collections import namedtuple

Tx = namedtuple("Tx", "dot rank snap updates")
Record = namedtuple("Record", "stamp deps tx")


def vector_text(vector):
    return ",".join(map(str, vector))


def pair_text(pair, between):
    return f"{pair[0]}{between}{pair[1]}"


def lack_text(word, say):
    return f"{word} {say[1]}:{say[2]} has {say[3]}"


def ask_text(ask):
    """An ask as it stands in a trail."""
    word = ask[0]
    if word in ("fetch", "delta"):
        return f"{word} {ask[1]}"
    if word == "commit":
        return f"commit {pair_text(ask[1].dot, '.')}"
    if word == "deliver":
        return f"deliver {pair_text(ask[1].stamp, ':')}"
    if word == "send":
        return f"send {ask[1]}"
    if word == "relay":
        return f"relay {ask[1]} {ask[2]}"
    if word == "learn":
        return f"learn {ask[1]}"
    return word


SAYS = {
    "lacks": lambda say: lack_text("lacks", say),
    "waits": lambda say: lack_text("waits", say),
    "snap": lambda say: f"snap {vector_text(say[1])} own {say[2]} top {say[3]}",
    "pruned": lambda say: f"pruned {say[1]}:{say[2]} at {say[3]}",
    "object": lambda say: "object",
    "changes": lambda say: f"changes {len(say[1])}",
    "stamped": lambda say: f"stamped {say[1]}:{say[2]}",
    "records": lambda say: f"records {len(say[1])}",
    "orphan": lambda say: f"orphan {say[1]} has {say[2]}",
    "applied": lambda say: "applied" if say[1] else "alias",
    "vector": lambda say: f"vector {vector_text(say[1])}",
    "learned": lambda say: "learned yes" if say[1] else "learned no",
    "base": lambda say: f"base {vector_text(say[1])} folded {say[2]} trimmed {say[3]}",
}


def say_text(say):
    """An answer as it stands in a trail."""
    spell = SAYS.get(say[0])
    return spell(say) if spell else " ".join(map(str, say))


def value_text(kind, value):
    """A value as a read prints it: a number, a word or none, words, or pairs of words."""
    if kind == "c":
        return str(value)
    if kind == "r":
        return "-" if value is None else value
    if kind == "s":
        return "{" + " ".join(value) + "}"
    return "{" + " ".join(f"{key}={word}" for key, word in value) + "}"


def basis_text(client, number, dots):
    return " ".join([f"basis c{client} {number}"] + [pair_text(dot, ".") for dot in dots])
