"""Which function a line of a source file stands in.

The sources are in the layout of `rt fmt`, which the gate asks for: an item begins and ends at one indentation.
"""
import os
import re
from typing import NamedTuple

ITEM = re.compile(r" *(?:pub(?:\([^)]*\))? )?(?:(?:const|default|final|unsafe) )*(fn|impl|mod|trait)\b(.*)")


class Function(NamedTuple):
    """A function: its name as a check has it, and the file and the lines, from 1, that it stands in."""

    name: str
    file: str = ""
    first: int = 0
    last: int = 0

    @classmethod
    def of_folder(cls, crate, folder):
        """The function that a folder below proofs/ is of."""
        return cls("::".join([crate, *folder.split("/")[1:]]))

    @property
    def folder(self):
        """The folder of what is written of its proof."""
        return "/".join(["proofs", *self.name.split("::")[1:]])

    def has_line(self, file, line):
        return file == self.file and self.first <= line <= self.last

    def is_named(self, name):
        """Whether a name is that of this function, or of a closure in it, as `module::fn::function::closure`."""
        parts = self.name.split("::")
        inside = ["::".join([*parts[:at], "fn", *parts[at:]]) + "::" for at in range(1, len(parts))]
        return name == self.name or any(name.startswith(it) for it in inside)


def answers_of(root, folder):
    """The file with the written answers of the function that a folder is of. The kit puts a '+' before the name of the
    folder where the function calls itself."""
    place, _, name = folder.rpartition("/")
    files = [os.path.join(root, place, it, "Answers.antt") for it in (name, f"+{name}")]
    return next(filter(os.path.exists, files), files[0])


def function_at(crate, file, text, line):
    """The innermost function around a line, from 0, or None where the line is in no function."""
    lines = text.split("\n")
    items = items_around(lines, line)
    while items and items[-1][0] != "fn":
        items.pop()
    if not items:
        return None
    names = [crate, *modules_around(file, text, items), *(name_of(kind, rest) for kind, rest, _ in items)]
    first = items[-1][2]
    return Function("::".join(names), file, first + 1, end_of(lines, first) + 1)


def functions_in(folder, crate):
    """The names of the functions that the sources of a crate have."""
    names = set()
    for top, _, files in os.walk(os.path.join(folder, "src")):
        for path in [os.path.join(top, it) for it in files if it.endswith(".rt")]:
            with open(path, encoding="utf-8") as it:
                text = it.read()
            file = os.path.relpath(path, folder)
            starts = [at for at, it in enumerate(text.split("\n")) if (found := ITEM.match(it)) and found[1] == "fn"]
            names.update(function_at(crate, file, text, at).name for at in starts)
    return names


def items_around(lines, at):
    """The items around a line, outermost first: what each is, the rest of its first line, and where that is."""
    items = []
    limit = indent_of(lines[at]) + bool(ITEM.match(lines[at]))
    for number in range(at, -1, -1):
        if not lines[number].strip() or indent_of(lines[number]) >= limit:
            continue
        found = ITEM.match(lines[number])
        # A line such as '{' or ') -> bool' belongs to an item that begins at its own indentation.
        limit = indent_of(lines[number]) + (not found)
        if found:
            items.insert(0, (found[1], found[2], number))
    return items


def end_of(lines, first):
    """The last line of the item that begins at a line."""
    indent = indent_of(lines[first])
    if lines[first].endswith(("}", ";")):
        return first
    closing = " " * indent + "}"
    return next((it for it in range(first + 1, len(lines)) if lines[it] == closing), len(lines) - 1)


def indent_of(line):
    return len(line) - len(line.lstrip(" "))


def modules_around(file, text, items):
    """The modules that the name of a function begins with: those of its file, or where it is a method of a type of
    another file, those of that file, from which the type is brought in."""
    own = [split_parameters(rest)[1] for kind, rest, _ in items if kind == "impl"]
    of = re.match(r"\s*(\w+)", own[0]) if own and " for " not in own[0] else None
    brought = of and re.search(rf"^use crate::(\w+(?:::\w+)*)::(?:\{{[^}}]*\b)?{of[1]}\b", text, re.MULTILINE)
    return brought[1].split("::") if brought else modules_of(file)


def modules_of(file):
    """The modules that a file of src/ stands for."""
    parts = file.removeprefix("src/").removesuffix(".rt").split("/")
    return [] if parts in (["lib"], ["main"]) else [it for it in parts if it != "mod"]


def name_of(kind, rest):
    """The part of a name that an item gives, from what its first line has after the word for its kind."""
    if kind != "impl":
        return re.match(r"\s*(\w+)", rest)[1]
    parameters, rest = split_parameters(rest)
    rest = re.sub(r"\s*(\bwhere\b.*|\{.*)$", "", rest).strip()
    trait, _, of = rest.rpartition(" for ")
    name = type_name(of, parameters) + (type_name(trait, parameters) if trait else "")
    # A primitive type begins with a great letter there: the name for `impl Spell for bool` is `BoolSpell`.
    return name[0].upper() + name[1:]


def split_parameters(rest):
    """The names of an impl's own type parameters, and what follows them."""
    if not rest.startswith("<"):
        return [], rest
    depth = 0
    for at, letter in enumerate(rest):
        depth += {"<": 1, ">": -1}.get(letter, 0)
        if depth == 0:
            break
    return re.findall(r"(?:^|,)\s*(?:const )?('?\w+)", rest[1:at]), rest[at + 1 :]


def type_name(of, parameters):
    """A type as the check's names have it: the words of it in a row, with no path and no parameter."""
    of = re.sub(r"\w+::", "", of.replace("&", "Ref "))
    return "".join(it for it in re.findall(r"'?\w+", of) if it not in parameters and it not in ("mut", "dyn"))
