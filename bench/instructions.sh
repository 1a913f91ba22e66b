#!/bin/sh
# Counts the instructions that `swift_sim serial` takes for a line of a script, and for an ask of `settle` among eight
# centres that have nothing to ship, to relay or to tell, with the built program, and prints the rows of the table in
# docs/benchmarks.md. The counts are those of valgrind's callgrind, which do not vary. Each row is the difference of two
# runs of one kind of script over that of their lines, or of their asks, so that the start and the end of a run drop
# out. The bounds are those of the proved program. The status is 1 where a row has more than its bound, or the program
# gives a wrong end.
#   bench/instructions.sh                counts crates/swift_sim/out/swift_sim
#   bench/instructions.sh KIND..         counts these rows alone: aborts, blocks, mixed, settle
#   SWIFT_SIM=FILE bench/instructions.sh         counts another program
set -u
root=$(cd "$(dirname "$0")/.." && pwd) || exit 1
program=${SWIFT_SIM:-$root/crates/swift_sim/out/swift_sim}
. "$root/bench/timing.sh"
. "$root/bench/kinds.sh"

# settle COUNT: a script of eight centres that stamp 100 records each, which the first of COUNT passes of `settle`
# carries to all, while the others have nothing to do.
settle() {
    awk -v count="$1" 'BEGIN {
        print "centres 8 k 1\nclients 8"
        for (i = 1; i <= 8; i++) print "c" i " connect " i
        for (number = 1; number <= 100; number++)
            for (i = 1; i <= 8; i++) print "c" i " begin\nc" i " inc c.total 1\nc" i " commit\nc" i " push"
        for (number = 1; number <= count; number++) print "settle"
        print "c1 read r.end"
    }'
}

# counted KIND COUNT: plays the script and gives the instructions. Its last line has to read what nobody wrote, or of
# `aborts`, whose client is at no centre, nothing.
counted() {
    "$1" "$2" >"$room/script"
    valgrind --tool=callgrind --callgrind-out-file=/dev/null "$program" serial <"$room/script" >"$room/out" 2>"$room/said" || return 1
    case $(tail -n 1 "$room/out") in
    'c1 read r.end -' | 'c1 read r.end unconnected') sed -n 's/^==[0-9]*== Collected : //p' "$room/said" ;;
    *) return 1 ;;
    esac
}

# instructions KIND FEW MANY UNITS BOUND: prints the row of scripts of FEW and of MANY of their kind, of which each one
# more is so many units. The status of the script is 1 where a unit takes more instructions than the bound.
instructions() {
    few=$(counted "$1" "$2") || wrong "$1" "$2"
    many=$(counted "$1" "$3") || wrong "$1" "$3"
    awk -v kind="$1" -v took=$((many - few)) -v units=$((($3 - $2) * $4)) -v bound="$5" 'BEGIN {
        printf "| %s | %d | %.0f | %d |\n", kind, units, took / units, bound
        exit took > bound * units
    }' || status=1
}

head_of kind 'lines or asks' 'instructions of one' 'at most'
for kind in ${*:-aborts blocks mixed settle}; do
    case $kind in
    aborts) instructions aborts 1000 2000 3 2050 ;;
    blocks) instructions blocks 1000 2000 6 6200 ;;
    mixed) instructions mixed 4000 8000 1 4450 ;;
    settle) instructions settle 1 11 896 700 ;;
    *)
        echo "$kind is no kind of row" >&2
        exit 1
        ;;
    esac
done
exit "$status"
