#!/bin/sh
# Times `benchmarks frames`: how long it takes to write the frame of a record of one and of 256 updates, and to read
# it. Prints the rows of a table in nanoseconds a frame. Each time is the least of nine runs. Then 10,000 made records
# are written, read and written again. The status is 1 where a record of one update takes more than 200 nanoseconds to
# write or 400 to read, or the program gives a wrong end.
#   bench/frames.sh              times crates/benchmarks/out/benchmarks
#   BENCHMARKS=FILE bench/frames.sh      times another program
set -u
root=$(cd "$(dirname "$0")/.." && pwd) || exit 1
program=${BENCHMARKS:-$root/crates/benchmarks/out/benchmarks}
. "$root/bench/timing.sh"

# run FORM UPDATES ROUNDS: the program has to print how many bytes that were: 68 a record, and 16 an update.
run() {
    timed frames "$1" "$2" "$3" && [ "$(cat "$room/out")" = $(((68 + 16 * $2) * $3)) ]
}

# frame_row FORM UPDATES ROUNDS MOST: prints a row with the nanoseconds a frame. The status of the script is 1 where
# these are more than MOST.
frame_row() {
    took=$(least 9 "$1" "$2" "$3") || wrong "$1" "$2" "$3"
    awk -v cells="$1 | $2" -v took="$took" -v rounds="$3" -v most="$4" 'BEGIN {
        each = took * 1000 / rounds
        printf "| %s | %.0f |\n", cells, each
        exit each > most
    }' || status=1
}

head_of form updates 'nanoseconds a frame'
frame_row encode 1 1000000 200
frame_row decode 1 1000000 400
frame_row encode 256 10000 1000000
frame_row decode 256 10000 1000000
[ "$("$program" frames back 5 10000)" = 10000 ] || wrong back 5 10000
exit "$status"
