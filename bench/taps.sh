#!/bin/sh
# Times `benchmarks taps`: 1, 2, 4 and 8 readers, each of which looks 200,000 times at a counter through a tap that is
# fed all the while, and each of which fetches it 20,000 times through its centre's lock, where nobody else asks.
# Prints the rows of the tables in docs/benchmarks.md. Each time is the least of nine runs, less that of a run with no
# look, which makes the threads too; a difference of less than 1 microsecond is told as 1. The status is 1 where the
# program gives a wrong end.
#   bench/taps.sh             times crates/benchmarks/out/benchmarks
#   BENCHMARKS=FILE bench/taps.sh     times another program
set -u
root=$(cd "$(dirname "$0")/.." && pwd) || exit 1
program=${BENCHMARKS:-$root/crates/benchmarks/out/benchmarks}
. "$root/bench/timing.sh"

# run FORM READERS LOOKS: the program has to print how many looks there were in all.
run() {
    timed taps "$1" "$2" "$3" && [ "$(cat "$room/out")" = $(($2 * $3)) ]
}

beside shown 200000 look readers 1 2 4 8
beside asked 20000 look readers 1 2 4 8
exit "$status"
