"""Says whether a text is what the rules want of a script, or what is wrong with it first."""
import causal
import replay
import script as scripts
from play import Serial


def lines_of(text):
    """The lines of a text, or None where its last one has no line feed."""
    if text == "":
        return []
    return text[:-1].split("\n") if text.endswith("\n") else None


def difference(want, got):
    """The first line in which two texts differ."""
    for number, (one, other) in enumerate(zip(want, got), 1):
        if one != other:
            return number, f"'{other}' where '{one}' was expected"
    if len(got) > len(want):
        return len(want) + 1, f"'{got[len(want)]}' where nothing more was expected"
    if len(got) < len(want):
        return len(got) + 1, f"nothing where '{want[len(got)]}' was expected"
    return None


def played(script, got, threads):
    """The play that these lines have to be of."""
    return replay.Replay(script, got).play() if threads else Serial(script).play()


def look(script_text, output, threads):
    """What was played, the lines, and the first of them that is wrong with the reason, or None where all fits."""
    script = scripts.read(script_text)
    got = lines_of(output)
    if got is None:
        return None, [], (output.count("\n") + 1, "the last line has no line feed")
    try:
        world = played(script, got, threads)
    except replay.Fault as fault:
        return None, got, fault.args
    return world, got, difference(world.text(), got) or causal.fault_in(world, got)


def fault_of(script_text, output, threads):
    """The number of the first line that is wrong, and the reason, or None where all fits."""
    return look(script_text, output, threads)[2]
