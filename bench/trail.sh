#!/bin/sh
# Times `serial --trail` beside `serial` with the built program, on scripts of 30,000 lines: one in which every hundredth
# line reads, one in which each transaction has a read, and one of reads of what 300 transactions left. Prints the rows
# of the table in docs/benchmarks.md: the seconds of both, their ratio, and how much --trail writes, since a line for a
# read names each transaction that it stands on. Each time is the least of five runs. The status is 1 where the first
# script takes more than four times as long with --trail, or the program gives a wrong end.
#   bench/trail.sh               times crates/swift_sim/out/swift_sim
#   SWIFT_SIM=FILE bench/trail.sh       times another program
set -u
root=$(cd "$(dirname "$0")/.." && pwd) || exit 1
program=${SWIFT_SIM:-$root/crates/swift_sim/out/swift_sim}
. "$root/bench/timing.sh"

# lines KIND: a script of 30,000 lines. Ten clients of three centres take turns.
lines() {
    awk -v kind="$1" 'BEGIN {
        print "centres 3 k 1\nclients 10"
        for (client = 1; client <= 10; client++) print "c" client " connect " client % 3 + 1
        for (line = 13; line <= 30000; line++) {
            c = "c" int(line / 5) % 10 + 1
            turn = line % 5
            if (kind == "changed" && line > 1500) print c " read c.object_" line % 50
            else if (turn == 0) print c " begin"
            else if (turn == 1) print c " inc c.object_" line % 50 " " line
            else if (turn == 2) print c (kind == "each" || line % 100 == 2 ? " read" : " inc") " c.object_" line % 50 (kind == "each" || line % 100 == 2 ? "" : " 1")
            else if (turn == 3) print c " commit"
            else print c (line % 3 ? " push" : " refresh")
        }
    }'
}

# run FILE WORD..: plays a script by these words.
run() {
    file=$1
    shift
    timed "$@" <"$room/$file"
}

head_of script 'seconds' 'seconds with --trail' 'ratio' 'MB with --trail'
for kind in rare each changed; do
    lines "$kind" >"$room/script"
    plain=$(least 5 script serial) || wrong "$kind"
    cp "$room/out" "$room/text"
    took=$(least 5 script serial --trail) || wrong "$kind" --trail
    head -c "$(wc -c <"$room/text")" "$room/out" | cmp -s - "$room/text" || wrong "$kind" text
    awk -v kind="$kind" -v plain="$plain" -v took="$took" -v bytes="$(wc -c <"$room/out")" 'BEGIN {
        printf "| %s | %.4f | %.4f | %.2f | %.1f |\n", kind, plain / 1000000, took / 1000000, took / plain, bytes / 1000000
        exit kind == "rare" && took > 4 * plain
    }' || status=1
done
exit "$status"
