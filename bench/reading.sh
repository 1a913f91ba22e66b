#!/bin/sh
# Counts the instructions that `parse_trial` takes for a line of a script, which it reads and lets go of, and prints
# the rows of the table in docs/benchmarks.md. The counts are those of valgrind's callgrind, which do not vary. Each row is
# the difference of two runs of one kind of script over that of their lines, so that the start and the end of a run drop
# out. The bounds are those of the proved program. The status is 1 where a row has more than its bound, or the program
# gives a wrong end.
#   bench/reading.sh                     counts crates/parse_trial/out/parse_trial
#   bench/reading.sh KIND..              counts these rows alone: begin, inc, read, aborts, blocks, mixed
#   PARSE_TRIAL=FILE bench/reading.sh     counts another program
set -u
root=$(cd "$(dirname "$0")/.." && pwd) || exit 1
program=${PARSE_TRIAL:-$root/crates/parse_trial/out/parse_trial}
. "$root/bench/timing.sh"
. "$root/bench/kinds.sh"

# alike LINE COUNT: a script of a centre and a client, and of so many lines that are this one.
alike() {
    awk -v line="$1" -v count="$2" 'BEGIN {
        print "centres 1 k 1\nclients 1"
        for (number = 1; number <= count; number++) print line
    }'
}

begin() {
    alike 'c1 begin' "$1"
}

inc() {
    alike 'c1 inc c.total 1' "$1"
}

read_set() {
    alike 'c1 read s.object_12' "$1"
}

# counted KIND COUNT: reads the script and gives the instructions. The program has to print a number, how many sections
# the script has.
counted() {
    "$1" "$2" >"$room/script"
    valgrind --tool=callgrind --callgrind-out-file=/dev/null "$program" <"$room/script" >"$room/out" 2>"$room/said" || return 1
    case $(cat "$room/out") in
    *[!0-9]* | '') return 1 ;;
    *) sed -n 's/^==[0-9]*== Collected : //p' "$room/said" ;;
    esac
}

# instructions NAME KIND UNITS BOUND: prints the row of scripts of 4,000 and of 8,000 of this kind, of which each one more is
# so many lines. The status of the script is 1 where a line takes more instructions than the bound.
instructions() {
    few=$(counted "$2" 4000) || wrong "$1" 4000
    many=$(counted "$2" 8000) || wrong "$1" 8000
    awk -v name="$1" -v took=$((many - few)) -v units=$((4000 * $3)) -v bound="$4" 'BEGIN {
        printf "| %s | %d | %.0f | %d |\n", name, units, took / units, bound
        exit took > bound * units
    }' || status=1
}

head_of kind lines 'instructions of one' 'at most'
for kind in ${*:-begin inc read aborts blocks mixed}; do
    case $kind in
    begin) instructions '`c1 begin`' begin 1 550 ;;
    inc) instructions '`c1 inc c.total 1`' inc 1 1200 ;;
    read) instructions '`c1 read s.object_12`' read_set 1 1150 ;;
    aborts) instructions aborts aborts 3 750 ;;
    blocks) instructions blocks blocks 6 750 ;;
    mixed) instructions mixed mixed 1 950 ;;
    *)
        echo "$kind is no kind of row" >&2
        exit 1
        ;;
    esac
done
exit "$status"
