"""The log: what refused each wrong body when it was last tried."""
import datetime
import re
import threading
from typing import NamedTuple

HEAD = """\
# What refused each wrong body of this folder when `tests/bodies/run --log` last tried it. docs/tests.md says how to
# read this. A line has the crate, the body, the sum of its text, what refused it, the function, and the goals.
"""
RUN = re.compile(r"# commit (\w+) of (\S+): (.*)")
EVERY = "every crate"


class Line(NamedTuple):
    """What the log has of a body."""

    crate: str
    name: str
    sum: str
    kind: str
    function: str
    goals: str

    @property
    def label(self):
        return f"{self.crate}/{self.name}"


class Record:
    """The log: the runs, each with the commit that it was made on, the date, and the crates and the single bodies that
    it tried, and a line a body."""

    def __init__(self, runs=(), lines=()):
        self.runs = list(runs)
        self.lines = list(lines)

    @classmethod
    def read(cls, file):
        try:
            with open(file, encoding="utf-8") as it:
                text = it.read().splitlines()
        except FileNotFoundError:
            return cls()
        runs = [it.groups() for it in map(RUN.fullmatch, text) if it]
        return cls(runs, [Line(*it.split(" ")) for it in text if it and not it.startswith("#")])

    def add_run(self, commit, date, crates, lines, is_whole):
        """Puts the lines of a run in the place of those that there were of the crates that it tried wholly, and of the
        other bodies that it tried."""
        if is_whole:
            self.runs, self.lines = [(commit, date, EVERY)], list(lines)
            return
        single = {it.label for it in lines if it.crate not in crates}
        self.runs = [it for it in (without(run, crates, single) for run in self.runs) if it]
        self.runs.append((commit, date, " ".join(sorted(crates) + sorted(single))))
        kept = [it for it in self.lines if it.crate not in crates and it.label not in single]
        self.lines = kept + list(lines)

    def write(self, file):
        with open(file, "w", encoding="utf-8") as it:
            it.write(HEAD)
            it.writelines(f"# commit {commit} of {date}: {crates}\n" for commit, date, crates in self.runs)
            it.writelines(" ".join(line) + "\n" for line in sorted(self.lines))


class LogOfRun:
    """The log of a run, which is written after each crate, and for the bodies of one after each batch: a run that is
    broken off has told of those before."""

    def __init__(self, file, commit, whole, every=None):
        """Begins with what the log has. The crates of which all bodies are tried come third, and last those of a whole
        run."""
        self.file = file
        self.commit = commit
        self.whole = set(whole)
        self.every = every
        self.before = Record.read(file)
        self.done, self.begun = {}, {}
        self.lock = threading.Lock()

    def write(self, done):
        """Puts the edits with their results, by crate, to what the log had: in the place of all of it once a whole run
        has told of every crate."""
        with self.lock:
            self.done = dict(done)
            self.put()

    def write_begun(self, crate, tried):
        """Puts those of a crate of which some bodies are not tried yet, or may tell more."""
        with self.lock:
            self.begun[crate] = tried
            self.put()

    def put(self):
        """Writes what there is."""
        told = {**self.begun, **self.done}
        if not told:
            return
        record = Record(self.before.runs, self.before.lines)
        is_whole = self.every is not None and set(self.every) <= set(self.done)
        lines = [line_of(*it) for tried in told.values() for it in tried]
        record.add_run(self.commit, datetime.date.today().isoformat(), self.whole & set(self.done), lines, is_whole)
        record.write(self.file)


def without(run, crates, single):
    """A run without crates and single bodies that were tried again later, or None where none is left."""
    commit, date, own = run
    if own == EVERY:
        return run
    left = [it for it in own.split(" ") if it.partition("/")[0] not in crates and it not in single]
    return (commit, date, " ".join(left)) if left else None


def line_of(edit, result):
    """The line of a body in the log."""
    function = result.function.name if result.function else "-"
    return Line(edit.crate, edit.name, edit.sum, result.kind, function, ",".join(result.goals) or "-")
