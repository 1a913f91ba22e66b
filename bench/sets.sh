#!/bin/sh
# Times `benchmarks sets`: so many distinct words added and all but the first removed
# again, and one word added so many times, all of its adds live. Prints the rows of the tables in
# docs/benchmarks.md. Each time is the least of nine runs. The status is 1 where a doubling takes
# more than 2.4 times as long, or the program gives a wrong end.
#   bench/sets.sh             times crates/benchmarks/out/benchmarks
#   BENCHMARKS=FILE bench/sets.sh     times another program
set -u
root=$(cd "$(dirname "$0")/.." && pwd) || exit 1
program=${BENCHMARKS:-$root/crates/benchmarks/out/benchmarks}
. "$root/bench/timing.sh"

# run FORM COUNT LEFT: the program has to print LEFT.
run() {
    timed sets "$1" "$2" && [ "$(cat "$room/out")" = "$3" ]
}

# left_of FORM COUNT: of words one is left, of tags all.
left_of() {
    case $1 in
    words) echo 1 ;;
    *) echo "$2" ;;
    esac
}

# table FORM COUNT..: a row for each count.
table() {
    form=$1 before=
    shift
    head_of "$form" seconds 'ratio to the row above'
    for count in "$@"; do
        took=$(least 9 "$form" "$count" "$(left_of "$form" "$count")") || wrong "$form" "$count"
        row "$count" "$took" "$before" 2.4
        before=$took
    done
    echo
}

table words 50000 100000
table tags 4096 8192
exit "$status"
