#!/usr/bin/env python3
"""Runs the merge gate, or `rt ci` with the words given, and then prints the processor time of each part of each crate.

    bench/gate_times.py              runs .ci/run
    bench/gate_times.py WORD..       runs rt ci WORD..

rt ci starts a process for each proof and for each check of an edit, whose words name the crate. Four
times a second this looks in /proc at those that run and at what they have started, and keeps the
last time that it saw of each. What rt ci says comes first, and then the lines

    times: CRATE proof|base|edits|tests SECONDS PROCESSES
    times: rest SECONDS

in seconds of user and system time. The rest is all that was taken beside them: rt itself, formats, links,
runs of programs, and this repository's own checks. The status is that of what was run.
"""
import os
import re
import subprocess
import sys
import time
from collections import defaultdict

TICKS = os.sysconf("SC_CLK_TCK")
GATE = os.path.join(os.path.dirname(os.path.abspath(__file__)), "..", ".ci", "run")
RUNNER = re.compile(r".*/bin/(\w+)_tests")


def processes():
    """Each running process: its parent, the time at which it began, and the ticks that it took, with those of its ended children."""
    found = {}
    for name in os.listdir("/proc"):
        if not name.isdigit():
            continue
        try:
            with open(f"/proc/{name}/stat", encoding="utf-8", errors="replace") as it:
                fields = it.read().rpartition(")")[2].split()
        except OSError:
            continue
        found[int(name)] = int(fields[1]), fields[19], sum(map(int, fields[11:15]))
    return found


def part_of(process):
    """The crate and the part of it that a process works on, or None."""
    try:
        with open(f"/proc/{process}/cmdline", encoding="utf-8", errors="replace") as it:
            words = it.read().split("\0")
        is_edit = "/rt-edit-" in os.readlink(f"/proc/{process}/cwd")
    except OSError:
        return None
    tests = next((it for it in map(RUNNER.fullmatch, words) if it), None)
    if tests:
        return tests[1], "tests"
    if "--crate-name" not in words:
        return None
    crate = words[words.index("--crate-name") + 1]
    if is_edit:
        return crate, "base" if any(it.endswith("/seed") for it in words) else "edits"
    return crate, "tests" if "--test" in words else "proof"


def look(top, parts, ticks):
    """Adds what the processes below the top one work on and have taken by now."""
    found, below = processes(), defaultdict(list)
    for process, (parent, _, _) in found.items():
        below[parent].append(process)

    def taken(process):
        return found[process][2] + sum(map(taken, below[process]))

    left = list(below[top])
    while left:
        process = left.pop()
        key = process, found[process][1]
        part = parts.get(key) or part_of(process)
        if part:
            parts[key] = part
            ticks[key] = max(ticks[key], taken(process))
        else:
            left += below[process]


def main():
    parts, ticks = {}, defaultdict(int)
    words = ["rt", "ci", *sys.argv[1:]] if sys.argv[1:] else [GATE]
    run = subprocess.Popen(words, stdin=subprocess.DEVNULL, stderr=subprocess.STDOUT)
    while True:
        ended, status, used = os.wait4(run.pid, os.WNOHANG)
        if ended:
            break
        look(run.pid, parts, ticks)
        time.sleep(0.25)
    sums = defaultdict(lambda: [0, 0])
    for key, part in parts.items():
        sums[part][0] += ticks[key] / TICKS
        sums[part][1] += 1
    for (crate, part), (seconds, count) in sums.items():
        print(f"times: {crate} {part} {seconds:.1f} {count}")
    rest = used.ru_utime + used.ru_stime - sum(it for it, _ in sums.values())
    print(f"times: rest {rest:.1f}")
    return os.waitstatus_to_exitcode(status)


if __name__ == "__main__":
    sys.exit(main())
