"""The trial of all wrong bodies of a crate and of their controls, in batches of at most one body a function."""
from typing import NamedTuple

from edits import BadEdit, Edit, Sources, changes_of
from functions import Function, function_at
from judgement import (
    BAD_EDIT,
    CONTROL_OPEN,
    CONTROL_PROVED,
    NOT_REFUSED,
    Result,
    answered_goals,
    is_proved,
    may_tell_more,
    refusal_of,
    refusal_without_answers,
    strongest,
    verdicts_on,
    waits_for_callee,
)


class Body(NamedTuple):
    """A wrong body or a control, and the functions that it changes: none where it changes a constant, say."""

    edit: Edit
    changes: tuple
    functions: tuple


class Batch:
    """Bodies that are tried together, and the texts of the crate with them."""

    def __init__(self, folder):
        self.bodies = []
        self.sources = Sources(folder)

    def add(self, body):
        """Adds a body, and returns whether it goes with those that are there: one that changes no function stands
        alone, and a function has one body."""
        if self.bodies and not all(is_apart(body, it) for it in self.bodies):
            return False
        mixed = self.sources.copy()
        try:
            mixed.apply(body.changes)
        except BadEdit:
            return False
        self.sources = mixed
        self.bodies.append(body)
        return True


def is_apart(body, other):
    """Whether two bodies change functions alone, and none that is the same."""
    functions = [{it.name for it in one.functions} for one in (body, other)]
    return all(functions) and not functions[0] & functions[1]


def batches_of(bodies, folder):
    """Puts bodies together, each into the first batch that it goes with."""
    batches = []
    for body in bodies:
        if not any(it.add(body) for it in batches):
            batches.append(Batch(folder))
            batches[-1].add(body)
    return batches


class Trial:
    """Tries the wrong bodies of one crate in a room. The results are by the bodies' names. A batch that ends is told of
    with the results so far."""

    def __init__(self, room, edits, tell):
        self.room = room
        self.edits = edits
        self.tell = tell
        self.results = {}
        self.true_without_answers = None

    def run(self):
        """Tries all bodies, and returns the results in the order of the names."""
        read = [it for it in map(self.read, self.edits) if it]
        self.said = self.room.check_as_it_stands(only_for(read))
        bodies = [it for it in read if self.is_named(it)]
        for batch in batches_of(bodies, self.room.kept):
            self.try_batch(batch)
            self.tell(self.results)
        self.set_answers_aside([it for it in bodies if self.is_refused_by_answers(it)])
        return dict(sorted(self.results.items()))

    def read(self, edit):
        """The body of an edit, or None where it is bad."""
        try:
            return body_of(edit, self.room.folder)
        except BadEdit as why:
            self.results[edit.name] = Result(BAD_EDIT, remark=str(why))
            return None

    def is_named(self, body):
        """Whether the check of the crate as it stands names the functions of a body, which is bad where it does not."""
        lacking = [it.name for it in body.functions if not verdicts_on(it, self.said)]
        if lacking:
            self.results[body.edit.name] = Result(BAD_EDIT, remark=f"the check names no function {lacking[0]}")
        return not lacking

    def try_batch(self, batch):
        """Tries the bodies of a batch together, and then each by itself of which that settled nothing."""
        said = self.room.check_with(batch.sources.texts, only=only_for(batch.bodies))
        is_alone = len(batch.bodies) == 1
        for body in batch.bodies:
            result = self.judge(body, batch.sources, said, is_alone)
            if result:
                self.results[body.edit.name] = result
            else:
                self.try_batch(*batches_of([body], self.room.kept))

    def judge(self, body, sources, said, is_alone):
        """What the try of a body came to, or None where it has to be tried by itself."""
        if not said.is_judged:
            return Result(BAD_EDIT, remark=said.complaint or f"no verdict: {said.last}") if is_alone else None
        functions = body.functions or functions_with_goals(sources, said)
        found = strongest(filter(None, [self.refusal(it, said, is_alone) for it in functions]))
        if body.edit.is_control:
            return judge_control(body, functions, found, said, is_alone)
        return found or (missed(body, said) if is_alone else None)

    def refusal(self, function, said, is_alone):
        """What refuses a function for itself, or None. Beside a callee that is not proved either, what is said of a
        written proof is not trusted."""
        result = refusal_of(function, said, answered_goals(self.room.kept, function))
        if result and result.is_by_writing and waits_for_callee(function, said) and not is_alone:
            return None
        return result

    def is_refused_by_answers(self, body):
        result = self.results[body.edit.name]
        return result.is_by_writing and bool(answered_goals(self.room.kept, result.function))

    def set_answers_aside(self, bodies):
        """Tries the bodies that a written proof alone refused once more, without the written answers."""
        folders = {self.results[it.edit.name].function.folder for it in bodies}
        self.answered = only_for(bodies)
        for batch in batches_of(bodies, self.room.kept):
            functions = {it.edit.name: self.results[it.edit.name].function for it in batch.bodies}
            folders_here = [it.folder for it in functions.values()]
            said = self.room.check_with(batch.sources.texts, folders_here, only_for(batch.bodies))
            for name, function in functions.items():
                self.results[name] = self.judge_without_answers(function, said, folders) or self.results[name]

    def judge_without_answers(self, function, said, folders):
        """What refuses a function without its written answers, or None where that tells nothing new."""
        if not said.is_judged:
            return None
        if is_proved(function, said):
            return Result(NOT_REFUSED, function, remark="it is proved once its written answers are set aside")
        if not may_tell_more(function, said, answered_goals(self.room.kept, function)):
            return None
        if not self.true_without_answers:
            self.true_without_answers = self.room.check_with({}, folders, self.answered)
        return refusal_without_answers(function, said, self.true_without_answers)


def judge_control(body, functions, refusal, said, is_alone):
    """What the try of a control came to, or None where it has to be tried by itself."""
    if refusal:
        return refusal._replace(kind=CONTROL_OPEN)
    if all(is_proved(it, said) for it in functions):
        return Result(CONTROL_PROVED, *functions[:1])
    return missed(body, said)._replace(kind=CONTROL_OPEN) if is_alone else None


def body_of(edit, folder):
    """Reads a body against the crate as it stands."""
    changes, sources, functions = changes_of(edit), Sources(folder), []
    for change in changes:
        if not change.file.startswith("src/"):
            raise BadEdit(f"it changes {change.file}, which is no source")
        place = sources.apply_one(change)
        function = function_at(edit.crate, place.file, sources.text(place.file), place.line)
        if function and function not in functions:
            functions.append(function)
    return Body(edit, tuple(changes), tuple(functions))


def only_for(bodies):
    """The names of the functions that bodies change, or none where one of them changes no function: then any function
    may refuse it."""
    names = {it.name for body in bodies for it in body.functions}
    return names if all(it.functions for it in bodies) else ()


def functions_with_goals(sources, said):
    """The functions in which a goal stands open, or whose written proof does not fit: for a body that changes none."""
    crate = next(iter(said.verdicts), "").partition("::")[0]
    found = [function_at(crate, it.file, sources.text(it.file), it.line - 1) for it in said.goals]
    found += [Function.of_folder(crate, it.folder) for it in said.misfits]
    return list(dict.fromkeys(it for it in found if it))


def missed(body, said):
    """The result of a body that was tried by itself and that nothing refused."""
    for function in body.functions:
        return Result(NOT_REFUSED, function, remark=f"the check says: {verdicts_on(function, said)[0]}")
    return Result(NOT_REFUSED, remark="no goal of any function stands open")
