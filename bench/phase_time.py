#!/usr/bin/env python3
"""Plays a script by a program, and tells how long its phase took: the time in which it had more than one thread.

It prints the microseconds of the whole run and those of the phase, both by the clock, and those that the processors
worked in the phase. It looks at the threads of the program a thousand times a second, so the phase's time is exact to
two milliseconds. The status is the program's.

    bench/phase_time.py PROGRAM FORM SCRIPT OUT      plays SCRIPT and writes what the program prints into OUT
"""
import os
import subprocess
import sys
import time

BETWEEN_LOOKS = 0.001


def has_threads(process):
    """Whether a process has more than one thread now."""
    try:
        return len(os.listdir(f"/proc/{process.pid}/task")) > 1
    except FileNotFoundError:
        return False


def worked(process):
    """The nanoseconds that processors have worked for a process, by its clock (clock_getcpuclockid)."""
    return time.clock_gettime_ns((~process.pid << 3) | 2)


def main():
    program, form, script, out = sys.argv[1:]
    first = last = work_before = work_after = 0
    with open(script, "rb") as source, open(out, "wb") as sink:
        began = time.monotonic_ns()
        process = subprocess.Popen([program, form], stdin=source, stdout=sink)
        while process.poll() is None:
            if has_threads(process):
                last, work_after = time.monotonic_ns(), worked(process)
                first, work_before = first or last, work_before or work_after
            time.sleep(BETWEEN_LOOKS)
        ended = time.monotonic_ns()
    print((ended - began) // 1000, (last - first) // 1000, (work_after - work_before) // 1000)
    return process.returncode


if __name__ == "__main__":
    sys.exit(main())
