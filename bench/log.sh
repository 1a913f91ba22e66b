#!/bin/sh
# Counts the instructions of `benchmarks log`: the calls of a log of 10,000 to 80,000 transactions of one client, each
# with one operation, on one counter and on one of 10,000. Prints the rows of the tables in docs/benchmarks.md.
# The counts are those of valgrind's callgrind, which do not vary: for `append` of the whole run, and for the others
# less those of `append`: of as many calls of the next three, of one `take_within` of half the log, and of a hundred
# prunes of a hundredth each. The status is 1 where a doubling takes more than 2.3 times as many, or the program gives
# a wrong end.
#   bench/log.sh                 counts crates/benchmarks/out/benchmarks
#   BENCHMARKS=FILE bench/log.sh         counts another program
set -u
root=$(cd "$(dirname "$0")/.." && pwd) || exit 1
program=${BENCHMARKS:-$root/crates/benchmarks/out/benchmarks}
. "$root/bench/timing.sh"

# counted WORD..: runs the program with these words, writes what it prints to the file 'out', and gives
# the instructions.
counted() {
    valgrind --tool=callgrind --callgrind-out-file=/dev/null "$program" "$@" >"$room/out" 2>"$room/said" || return 1
    sed -n 's/^==[0-9]*== Collected : //p' "$room/said"
}

# run FORM OBJECTS COUNT: the program has to print what it finds.
run() {
    counted log "$1" "$2" "$3" && [ "$(cat "$room/out")" = "$(found "$@")" ]
}

# found FORM OBJECTS COUNT: what the program has to print.
found() {
    case $1 in
    append | chain) echo $(($3 / $2)) ;;
    alias | prune) echo "$3" ;;
    mine) echo $(($3 - 10)) ;;
    take_within) echo $(($3 / 2 + 1)) ;;
    esac
}

# count_row CELLS TOOK BEFORE: prints a row with the millions of instructions and the ratio to those of the row above,
# where there is one. The status of the script is 1 where that is more than 2.3.
count_row() {
    awk -v cells="$1" -v took="$2" -v before="$3" 'BEGIN {
        ratio = before == "" ? "-" : sprintf("%.2f", took / before)
        printf "| %s | %.1f | %s |\n", cells, took / 1000000, ratio
        exit ratio != "-" && took > 2.3 * before
    }' || status=1
}

# table OBJECTS: a row for each call and each count.
table() {
    head_of "counters: $1" transactions 'million instructions' 'ratio to the row above'
    for form in append alias chain mine take_within prune; do
        before=
        for count in 10000 20000 40000 80000; do
            took=$(run "$form" "$1" "$count") || wrong "$form" "$1" "$count"
            if [ "$form" = append ]; then
                echo "$took" >"$room/append.$count"
            else
                took=$((took - $(cat "$room/append.$count")))
            fi
            count_row "$form | $count" "$took" "$before"
            before=$took
        done
    done
    echo
}

table 1
table 10000
exit "$status"
