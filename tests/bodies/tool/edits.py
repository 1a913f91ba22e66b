"""Wrong bodies and must-fail edits: finding, reading and applying them.

An edit is a file with a line 'file: PATH', PATH being relative to the crate's folder, and then pairs of lines
'old: TEXT' and 'new: TEXT'. Each old text stands once in the file, as the earlier pairs have left it. Lines that
begin with '#' or '--' are remarks. These are the rules that `rt must-fail` has for its edits.

A wrong body of tests/bodies may also have a line 'control: TEXT' behind each 'new:' line. With these texts in the place of
the new ones it is a control: a body of the same form that does the right thing.
"""
import hashlib
import os
from typing import NamedTuple

PARTS = ("src/", "specs/", "proofs/")
# What the name of a control has behind that of its body.
CONTROL = "+control"


class BadEdit(Exception):
    """Says why an edit shows nothing."""


class Edit(NamedTuple):
    """An edit: the crate that it is for, its name, which is that of its file without the ending, and its text."""

    crate: str
    name: str
    text: str

    @property
    def label(self):
        return f"{self.crate}/{self.name}"

    @property
    def is_control(self):
        return self.name.endswith(CONTROL)

    @property
    def body(self):
        """The name of the body that this is, or that it is the control of."""
        return self.name.removesuffix(CONTROL)

    @property
    def sum(self):
        """A short sum of the text, by which the log knows a body that was changed."""
        return hashlib.sha256(self.text.encode()).hexdigest()[:8]


class Change(NamedTuple):
    """One pair of an edit."""

    file: str
    old: str
    new: str


class Place(NamedTuple):
    """The line, from 0, that a pair of an edit changes."""

    file: str
    line: int


class Sources:
    """The texts of a crate's files, with the edits that were applied so far."""

    def __init__(self, folder, texts=None):
        self.folder = folder
        self.texts = dict(texts or {})

    def copy(self):
        return Sources(self.folder, self.texts)

    def text(self, file):
        if file not in self.texts:
            try:
                with open(os.path.join(self.folder, file), encoding="utf-8") as it:
                    self.texts[file] = it.read()
            except OSError:
                raise BadEdit(f"there is no file {file}") from None
        return self.texts[file]

    def apply(self, changes):
        """Applies the pairs in turn, and returns where they stand."""
        return [self.apply_one(it) for it in changes]

    def apply_one(self, change):
        text = self.text(change.file)
        count = text.count(change.old)
        if count != 1:
            raise BadEdit(f"an 'old:' text stands in {change.file} {count} times, and not once")
        line = text[: text.index(change.old)].count("\n")
        self.texts[change.file] = text.replace(change.old, change.new)
        return Place(change.file, line)


def crates_with_edits(folder):
    """The crates that have a folder of edits in this one, by name."""
    return sorted(it for it in os.listdir(folder) if any(name.endswith(".edit") for name in listed(folder, it)))


def listed(*parts):
    """The names in a folder, or none where it is none."""
    folder = os.path.join(*parts)
    return sorted(os.listdir(folder)) if os.path.isdir(folder) else []


def edits_in(folder, crate):
    """The edits of a folder, by name."""
    found = []
    for name in [it for it in listed(folder) if it.endswith(".edit")]:
        with open(os.path.join(folder, name), encoding="utf-8") as it:
            found.append(Edit(crate, name.removesuffix(".edit"), it.read()))
    return found


def bodies_in(folder, crate):
    """The wrong bodies of a folder and their controls, by name."""
    return [it for edit in edits_in(folder, crate) for it in body_and_control(edit)]


def body_and_control(edit):
    """The wrong body of a file without the lines of its control, and the control where it has one."""
    lines = edit.text.splitlines(keepends=True)
    body = edit._replace(text="".join(it for it in lines if not it.startswith("control:")))
    if body == edit:
        return [body]
    own = (it.replace("control:", "new:", 1) for it in lines if not it.startswith("new:"))
    return [body, Edit(edit.crate, edit.name + CONTROL, "".join(own))]


def changes_of(edit):
    """The pairs of an edit, which change something."""
    file, old, changes = "", "", []
    for line in edit.text.split("\n"):
        if line.startswith("file: "):
            file = checked_file(line.removeprefix("file: ").strip())
        elif line.startswith("old: "):
            old = line.removeprefix("old: ")
        elif line.startswith("new:"):
            if not file or not old:
                raise BadEdit("a 'new:' line stands before any 'file:' or 'old:' line")
            changes.append(Change(file, old, line.removeprefix("new:").removeprefix(" ")))
            old = ""
        elif line.strip() and not line.startswith(("#", "--")):
            raise BadEdit(f"a line is not read: {line[:60]}")
    if old or all(it.old == it.new for it in changes):
        raise BadEdit("it has no 'old:' and 'new:' pair that changes something, or an 'old:' with no 'new:'")
    return changes


def checked_file(file):
    if os.path.normpath(file) != file or not file.startswith(PARTS):
        raise BadEdit(f"a 'file:' line names no file below {', '.join(PARTS)}: {file}")
    return file
