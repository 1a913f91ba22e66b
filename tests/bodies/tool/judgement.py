"""What refuses a wrong body: the judgement, function by function, of what a check said."""
import os
import re
from typing import NamedTuple

from functions import Function, answers_of

# What refuses a body, the strongest first; docs/tests.md says what each shows. Or that nothing did.
FALSE_GOAL, OPEN_GOAL, WRITTEN_PROOF, LOST_NAME = "false-goal", "open-goal", "written-proof", "lost-name"
NOT_REFUSED, BAD_EDIT = "NOT-REFUSED", "BAD-EDIT"
# What the try of a control comes to: the search proves it, or a goal stands open.
CONTROL_PROVED, CONTROL_OPEN = "control-proved", "control-open"
# The goals that the search did not prove, in the verdict on a function that has no file with answers.
SEARCHED = re.compile(r"expected answers in .*?; `search` did not prove (.*)")
REFUSALS = (FALSE_GOAL, OPEN_GOAL, WRITTEN_PROOF, LOST_NAME)
CONTROLS = (CONTROL_PROVED, CONTROL_OPEN)
# Those where only what is written of the proof refused the body.
BY_WRITING = (WRITTEN_PROOF, LOST_NAME)


class Result(NamedTuple):
    """What the try of a body came to: what refused it or that nothing did, the function, and the goals or a remark."""

    kind: str
    function: Function = None
    goals: tuple = ()
    remark: str = ""

    @property
    def is_refused(self):
        return self.kind in REFUSALS

    @property
    def is_by_writing(self):
        """Whether only what is written of the proof refused the body."""
        return self.kind in BY_WRITING


def verdicts_on(function, said):
    """What the check said of a function and of the closures in it."""
    return [it for name, it in said.verdicts.items() if function.is_named(name)]


def is_proved(function, said):
    return all(it.startswith("proved") for it in verdicts_on(function, said))


def waits_for_callee(function, said):
    """Whether a function also calls one that is not proved."""
    return any("it calls" in it for it in verdicts_on(function, said))


def goals_of(function, said):
    """The goals that stood open in a function."""
    return [it for it in said.goals if function.has_line(it.file, it.line)]


def searched_goals(function, said):
    """The goals that the verdict on a function names as not found by the search, where no note tells of them."""
    found = [SEARCHED.search(it) for it in verdicts_on(function, said)]
    return tuple(dict.fromkeys(name for it in found if it for name in re.findall(r"`([^`]+)`", it[1])))


def refusal_of(function, said, answered):
    """What refuses a function for itself, or None: what is said of the functions that it calls counts for nothing.
    The last argument has the goals that its written proof answers: another goal needed no answer before the edit."""
    if is_proved(function, said):
        return None
    goals = goals_of(function, said)
    misfits = [it for it in said.misfits if it.folder == function.folder]
    lost = [it for it in misfits if it.has_lost_name]
    false = [it for it in goals if it.is_false]
    unanswered = [it for it in goals if it.name not in answered]
    if false:
        return Result(FALSE_GOAL, function, names_of(false))
    if unanswered and not lost:
        return Result(OPEN_GOAL, function, names_of(unanswered))
    if len(lost) < len(misfits):
        return Result(WRITTEN_PROOF, function, tuple(dict.fromkeys(it.goal for it in misfits if not it.has_lost_name)))
    if lost or goals:
        return Result(LOST_NAME, function, tuple(dict.fromkeys([it.goal for it in lost] + [it.name for it in goals])))
    searched = searched_goals(function, said)
    return Result(OPEN_GOAL, function, searched) if searched else None


def may_tell_more(function, said, answered):
    """Whether a goal stands open without the written answers that is false at some values, or had no answer."""
    return any(it.is_false or it.name not in answered for it in goals_of(function, said))


def refusal_without_answers(function, said, said_of_true):
    """What refuses a function whose written answers were set aside, beyond the goals that are open then for the true
    body too; None where that tells nothing new."""
    goals, before = goals_of(function, said), goals_of(function, said_of_true)
    false = [it for it in goals if it.is_false and it.name not in {it.name for it in before if it.is_false}]
    if false:
        return Result(FALSE_GOAL, function, names_of(false))
    added = [it for it in goals if it.name not in names_of(before)]
    # (where a goal of before is gone, the goals may only have other names)
    if added and set(names_of(before)) <= set(names_of(goals)):
        return Result(OPEN_GOAL, function, names_of(added))
    return None


def names_of(goals):
    return tuple(dict.fromkeys(it.name for it in goals))


def answered_goals(folder, function):
    """The goals of a function that its written proof answers."""
    file = answers_of(folder, function.folder)
    if not os.path.exists(file):
        return set()
    with open(file, encoding="utf-8") as it:
        return set(re.findall(r"^(?:pub )?(\S+) :", it.read(), re.MULTILINE))


def strongest(results):
    return min(results, key=lambda it: REFUSALS.index(it.kind), default=None)
