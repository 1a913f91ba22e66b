#!/bin/sh
# Times `benchmarks lock`: 1, 2, 4 and 8 threads, each of which calls a machine under a lock 20,000 times, and
# then 200,000 times; and 2,000,000 answers on one thread without a lock. Prints the rows of the tables in
# docs/benchmarks.md. Each time is the least of nine runs, less that of a run with no call, which makes the
# threads too; a difference of less than 1 microsecond is told as 1. The status is 1 where the program gives a
# wrong end.
#   bench/lock.sh             times crates/benchmarks/out/benchmarks
#   BENCHMARKS=FILE bench/lock.sh     times another program
set -u
root=$(cd "$(dirname "$0")/.." && pwd) || exit 1
program=${BENCHMARKS:-$root/crates/benchmarks/out/benchmarks}
. "$root/bench/timing.sh"

# run FORM THREADS CALLS: the program has to print how many calls there were in all.
run() {
    timed lock "$1" "$2" "$3" && [ "$(cat "$room/out")" = $(($2 * $3)) ]
}

beside kept 2000000 call threads 1
beside host 20000 call threads 1 2 4 8
beside host 200000 call threads 1 2 4 8
exit "$status"
