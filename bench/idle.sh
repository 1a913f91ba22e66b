#!/bin/sh
# Times phases in which most actors have nothing to do, with the built program, and prints the rows of the tables in
# docs/benchmarks.md: by `swift_sim serial` and by `swift_sim run` a phase of 1,024 clients in which one of them has
# all lines, and one in which the operator has them; and the processor time of a phase of 1,024 clients and 8
# centres without a line and without rounds, by the difference of many of them and none. Each time is the least of
# three runs, by the clock but for the last. The status is 1 where `run` takes more than 1.5 times as long as
# `serial`, `serial` more than a second, or a phase without a line more than a millisecond, or the program gives a
# wrong end.
#   bench/idle.sh                times crates/swift_sim/out/swift_sim
#   bench/idle.sh COUNT          the same with about so many lines (default: 190000)
#   SWIFT_SIM=FILE bench/idle.sh        times another program
set -u
root=$(cd "$(dirname "$0")/.." && pwd) || exit 1
program=${SWIFT_SIM:-$root/crates/swift_sim/out/swift_sim}
. "$root/bench/timing.sh"

# one_client COUNT: a phase of 1,024 clients in which client 1 has so many lines: transactions that it aborts,
# and a last one that it commits. Then it reads.
one_client() {
    awk -v count="$1" 'BEGIN {
        print "centres 2 k 1\nclients 1024\nc1 connect 1\nphase"
        for (number = 3; number <= count - 5; number += 3) print "c1 begin\nc1 inc c.total 1\nc1 abort"
        print "c1 begin\nc1 inc c.total 1\nc1 commit\nc1 push\nc1 refresh"
        print "end\nc1 read c.total"
    }'
}

# one_operator COUNT: the same where the operator has the lines, and client 1 commits behind the phase.
one_operator() {
    awk -v count="$1" 'BEGIN {
        print "centres 2 k 1\nclients 1024\nc1 connect 1\nphase"
        for (number = 1; number <= count; number++) print "tell 1 2"
        print "end\nc1 begin\nc1 inc c.total 1\nc1 commit\nc1 read c.total"
    }'
}

# no_lines COUNT: so many phases of 1,024 clients and 8 centres without a line and without rounds.
no_lines() {
    awk -v count="$1" 'BEGIN {
        print "centres 8 k 2\nclients 1024\nrounds 0"
        for (number = 1; number <= count; number++) print "phase\nend"
        print "c1 begin\nc1 inc c.total 1\nc1 commit\nc1 read c.total"
    }'
}

# run FORM: plays the script, after which client 1 has to read 1.
run() {
    timed "$1" <"$room/script" && [ "$(tail -n 1 "$room/out")" = "c1 read c.total 1" ]
}

# table KIND: the rows of one script.
table() {
    head_of "$1: form" lines seconds 'ratio to serial'
    lines=$(wc -l <"$room/script")
    serial=$(least 3 serial) || wrong serial
    took=$(least 3 run) || wrong run
    awk -v lines="$lines" -v serial="$serial" -v took="$took" 'BEGIN {
        printf "| serial | %d | %.4f | - |\n", lines, serial / 1000000
        printf "| run | %d | %.4f | %.2f |\n\n", lines, took / 1000000, took / serial
        exit took > 1.5 * serial || serial > 1000000
    }' || status=1
}

count=${1:-190000}
one_client "$count" >"$room/script"
table 'lines of one client'
one_operator "$count" >"$room/script"
table 'lines of the operator'
phases=100
no_lines 0 >"$room/script"
none=$(processor 3 run) || wrong no phase
no_lines "$phases" >"$room/script"
all=$(processor 3 run) || wrong "$phases" phases
head_of 'phases without a line' 'milliseconds of processor for each'
awk -v phases="$phases" -v all="$all" -v none="$none" 'BEGIN {
    each = (all - none) / phases
    printf "| %d | %.3f |\n", phases, each / 1000
    exit each > 1000
}' || status=1
exit "$status"
