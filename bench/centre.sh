#!/bin/sh
# Times `benchmarks centre`: a centre that stamps so many transactions, or applies as
# many records of another centre, and is then asked for one state; or one that stamps so many of a hundred
# clients on one counter, and is asked for its state with each. Prints the rows of the tables in
# docs/benchmarks.md. Each time is the least of nine runs. The status is 1 where a doubling takes more
# than 2.4 times as long, or the program gives a wrong end.
#   bench/centre.sh             times crates/benchmarks/out/benchmarks
#   BENCHMARKS=FILE bench/centre.sh     times another program
set -u
root=$(cd "$(dirname "$0")/.." && pwd) || exit 1
program=${BENCHMARKS:-$root/crates/benchmarks/out/benchmarks}
. "$root/bench/timing.sh"

# run FORM COUNT: the program has to print COUNT.
run() {
    timed centre "$1" "$2" && [ "$(cat "$room/out")" = "$2" ]
}

# table FORM: a row for each count.
table() {
    before=
    head_of "$1" seconds 'ratio to the row above'
    for count in 1000 2000 4000 8000; do
        took=$(least 9 "$1" "$count") || wrong "$1" "$count"
        row "$count" "$took" "$before" 2.4
        before=$took
    done
    echo
}

table commits
table deliveries
table fetches
exit "$status"
