#!/bin/sh
# Times `benchmarks session`: reads of an object that no pending commit changed, and
# updates of one, beside 1, 100 and 1,000 pending commits. Prints the rows of the tables in
# docs/benchmarks.md. Each time is the least of nine runs, less the least of nine without a round. The
# status is 1 where a call beside 100 or 1,000 pending commits takes more than twice as long as beside
# one, or the program gives a wrong end.
#   bench/session.sh             times crates/benchmarks/out/benchmarks
#   BENCHMARKS=FILE bench/session.sh     times another program
set -u
root=$(cd "$(dirname "$0")/.." && pwd) || exit 1
program=${BENCHMARKS:-$root/crates/benchmarks/out/benchmarks}
. "$root/bench/timing.sh"
rounds=200000

# run FORM PENDING ROUNDS LAST: the program has to print LAST.
run() {
    timed session "$1" "$2" "$3" && [ "$(cat "$room/out")" = "$4" ]
}

# table FORM LAST: a row for each number of pending commits; LAST is read after all rounds.
table() {
    first=
    head_of "$1: pending" 'nanoseconds a call' 'ratio to one pending'
    for pending in 1 100 1000; do
        none=$(least 9 "$1" "$pending" 0 0) || wrong "$1" "$pending"
        all=$(least 9 "$1" "$pending" "$rounds" "$2") || wrong "$1" "$pending"
        took=$(((all - none) * 1000 / rounds))
        first=${first:-$took}
        awk -v pending="$pending" -v took="$took" -v first="$first" 'BEGIN {
            printf "| %d | %d | %.2f |\n", pending, took, took / first
            exit took > 2 * first
        }' || status=1
    done
    echo
}

table reads 0
table updates 1
exit "$status"
