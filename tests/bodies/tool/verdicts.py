"""What a check says of each function: reading the output of `rt check`."""
import re
from typing import NamedTuple

ITEM = re.compile(r"(?:fn|struct|enum|impl|trait) (\S+): (.*)")
OPEN_GOAL = re.compile(r"note: (\S+?):(\d+):\d+: .*?not proved that .*?\(`([^`]+)`\)(.*)")
MISFIT = re.compile(r"\./(proofs/\S+)/(?:Answers|Invariants|Proof)\.antt:\d+:\d+: error: (?:`([^`]+)`: )?(.*)")
NOT_COMPILED = re.compile(r"\S+:\d+:\d+: error\[[\w-]+\]: .*")
IN_SOURCE = re.compile(r"(?:\./)?(?:src|specs)/\S+?:\d+:\d+: error: (?:(`[^`]*`): )?(.*)")
UNREADABLE = re.compile(r"is not in scope|has no field|is no name|operand is missing|expected the end|cannot continue")
# A written proof names a step or a goal that the edit took away.
LOST_NAME = re.compile(r"has no field|is not in scope|has no `")
# It rests on something that was refused, so that this shows nothing by itself.
RESTS_ON_REFUSED = re.compile(r"was not admitted|declarations? that depends? on")
# The last line of a check of some functions alone, where all of them are proved.
ONLY_PROVED = re.compile(r"only=(\d+) proved=\1\b")
FALSE_AT_VALUES = "allow values at which this goal is false"


class Goal(NamedTuple):
    """A goal that stood open: where the note puts it, its name, and whether it is false at some values."""

    file: str
    line: int
    name: str
    is_false: bool


class Misfit(NamedTuple):
    """What does not fit of a written proof: the folder of the proof, without a sign before its name, the goal, and
    whether it is for a lost name."""

    folder: str
    goal: str
    has_lost_name: bool


class Said:
    """What a check said: its verdicts by name, the goals that stood open, and what did not fit of written proofs."""

    def __init__(self, output):
        lines = output.rstrip("\n").split("\n")
        self.verdicts = dict(it.groups() for it in map(ITEM.fullmatch, lines) if it)
        self.goals = [goal_of(it) for it in map(OPEN_GOAL.fullmatch, lines) if it]
        self.misfits = [it for it in map(misfit_in, lines) if it]
        self.complaint = next((it for it in lines if NOT_COMPILED.fullmatch(it) or is_unreadable(it)), "")
        self.end = next((it for it in reversed(lines) if it.startswith(("logic=", "only="))), "")
        self.last = lines[-1]

    @property
    def is_proved(self):
        return self.end.startswith("logic=proved") or bool(ONLY_PROVED.match(self.end))

    @property
    def is_judged(self):
        """Whether the text was compiled and read, and a verdict came of it."""
        return bool(self.end) and not self.complaint


def goal_of(found):
    file, line, name, rest = found.groups()
    return Goal(file.removeprefix("./"), int(line), name, FALSE_AT_VALUES in rest)


def misfit_in(line):
    """The misfit that a line tells of, or None."""
    found = MISFIT.fullmatch(line)
    if not found or RESTS_ON_REFUSED.search(found[3]):
        return None
    return Misfit(found[1].replace("/+", "/"), found[2] or "?", bool(LOST_NAME.search(found[3])))


def is_unreadable(line):
    """Whether a line says that a text of src/ or specs/ cannot be read, so that no contract was tried."""
    found = IN_SOURCE.fullmatch(line)
    return bool(found and (not found[1] or UNREADABLE.search(re.sub(r"`[^`]*`", "", found[2]))))
