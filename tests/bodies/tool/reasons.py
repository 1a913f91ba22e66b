"""The reasons: which clause a wrong body breaks that a written proof alone refused, and at which values."""
import re
from typing import NamedTuple

LINE = re.compile(r"(\S+) (\S+) (\S+): (.+)")


class Reason(NamedTuple):
    """What the file has of a body: the crate, its name, the clause that it breaks, and the values."""

    crate: str
    name: str
    clause: str
    values: str


def reasons_in(file):
    """The reasons in a file, and the lines of it that are not read."""
    try:
        with open(file, encoding="utf-8") as it:
            lines = [text for text in it.read().splitlines() if text and not text.startswith("#")]
    except FileNotFoundError:
        return [], []
    found = [(text, LINE.fullmatch(text)) for text in lines]
    return [Reason(*it.groups()) for _, it in found if it], [text for text, it in found if not it]
