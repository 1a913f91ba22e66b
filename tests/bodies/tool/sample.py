"""A small repository with wrong bodies and harmless ones, and what the tries of them have to come to."""
import os

from judgement import BAD_EDIT, CONTROL_OPEN, CONTROL_PROVED, FALSE_GOAL, NOT_REFUSED

FILES = {
    "crates.txt": "sample:\n",
    "crates/sample/src/lib.rt": """\
#![tactic(auto)]

ghost use Rattle.std.specs.Prelude.{◌≡◌, ◌+◌, ◌≤◌};

/// The sum of two numbers.
pub fn sum(a: u8, b: u8) -> u16
    ensures { result ≡ a + b }
{
    u16::from(a) + u16::from(b)
}

/// Twice a number.
pub fn double(a: u8) -> u16
    ensures { result ≡ a + a }
{
    u16::from(a) + u16::from(a)
}

/// The greater of two numbers.
pub fn greater(a: u8, b: u8) -> u8
    ensures left { a ≤ result }
    ensures right { b ≤ result }
{
    if a < b { b } else { a }
}

/// The greatest of three numbers.
pub fn greatest(a: u8, b: u8, c: u8) -> u8
    ensures first { a ≤ result }
    ensures second { b ≤ result }
    ensures third { c ≤ result }
{
    greater(greater(a, b), c)
}
""",
    "crates/sample/proofs/double/Answers.antt": """\
use Rattle.std.proofs.Common.{arith}
use Rattle.sample.proofs.double.Goals as goal

pub returns : goal.returns
returns c = omega (arith, c.from.ensures, c.from-2.ensures)
""",
}

SUM, DOUBLE = "u16::from(a) + u16::from(b)", "u16::from(a) + u16::from(a)"
GREATER, GREATEST = "if a < b { b } else { a }", "greater(greater(a, b), c)"

# Each body: the old text, the new one, and what its try has to come to.
BODIES = {
    # It means the same, and stands in one batch with a wrong body.
    "sum_turned": (SUM, "u16::from(b) + u16::from(a)", NOT_REFUSED),
    "greater_is_less": (GREATER, "if a < b { a } else { b }", FALSE_GOAL),
    # It means the same, and calls a function that has a wrong body in its batch.
    "greatest_turned": (GREATEST, "greater(c, greater(a, b))", NOT_REFUSED),
    # These two are no bodies, and each stands in one batch with a wrong one.
    "sum_of_two_types": (SUM, "u16::from(a) + b", BAD_EDIT),
    "sum_of_three": ("u16::from(a) + u16::from(c)", SUM, BAD_EDIT),
    "greater_is_the_first": (GREATER, "a", FALSE_GOAL),
    # It means the same, and only the written proof does not fit it.
    "double_by_two": (DOUBLE, "u16::from(a) * 2", NOT_REFUSED),
    # The written proof does not fit it, and without that some values make the goal false.
    "double_and_one": (DOUBLE, "u16::from(a) + 1", FALSE_GOAL),
    # These two have controls.
    "sum_with_0_is_0": (SUM, f"if a == 0 {{ return 0; }} {SUM}", FALSE_GOAL),
    "greater_is_the_second": (GREATER, "b", FALSE_GOAL),
}

# The controls: the text of each, and what its try has to come to.
CONTROLS = {
    "sum_with_0_is_0": (f"if a == 0 {{ return u16::from(b); }} {SUM}", CONTROL_PROVED),
    # It does not do the right thing.
    "greater_is_the_second": ("if a < b { a } else { b }", CONTROL_OPEN),
}


def make_repository(folder):
    """Writes the files of the repository."""
    for file, text in FILES.items():
        put(os.path.join(folder, file), text)
    for name in BODIES:
        put_body(folder, name)


def put_body(folder, name):
    old, new, _ = BODIES[name]
    control = f"control: {CONTROLS[name][0]}\n" if name in CONTROLS else ""
    text = f"file: src/lib.rt\nold: {old}\nnew: {new}\n{control}"
    put(os.path.join(folder, f"tests/bodies/sample/{name}.edit"), text)


def put(file, text):
    os.makedirs(os.path.dirname(file), exist_ok=True)
    with open(file, "w", encoding="utf-8") as it:
        it.write(text)
