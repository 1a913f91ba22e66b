#!/bin/sh
# Times the reading of scripts of 50,000, 100,000 and 200,000 lines, of steps of each form, with the built program, and
# prints the rows of the table in docs/benchmarks.md: a script whose last line is refused is read and not played, and
# the same script without it is read and played. Each time is the least of nine runs. The status is 1 where twice as
# many lines take more than 2.3 times as long to read, where the reading takes more than a third of the whole run, or
# where the program gives a wrong end.
#   bench/parse.sh               times crates/swift_sim/out/swift_sim
#   SWIFT_SIM=FILE bench/parse.sh       times another program
set -u
root=$(cd "$(dirname "$0")/.." && pwd) || exit 1
program=${SWIFT_SIM:-$root/crates/swift_sim/out/swift_sim}
. "$root/bench/timing.sh"

# lines COUNT LAST: a script of so many lines, with this last one. Clients of three centres take turns; each opens a
# transaction, makes eleven changes and eleven reads, commits and pushes.
lines() {
    awk -v count="$1" -v last="$2" 'BEGIN {
        print "centres 3 k 2\nclients 100"
        for (client = 1; client <= 100; client++) print "c" client " connect " client % 3 + 1
        for (line = 103; line < count; line++) {
            c = "c" int(line / 25) % 100 + 1
            turn = line % 25
            if (turn == 0) print c " begin"
            else if (turn == 23) print c " commit"
            else if (turn == 24) print c " push"
            else if (turn % 2) print c " read c.object_" line % 50
            else if (turn % 8 == 0) print c " inc c.object_" line % 50 " " line
            else if (turn % 8 == 2) print c " set r.object_" line % 50 " word_" line
            else if (turn % 8 == 4) print c " add s.object_" line % 50 " word_" line
            else print c " put m.object_" line % 50 " key_" line % 7 " word_" line
        }
        print last
    }'
}

# run SCRIPT STATUS: reads a script, and plays it where it is one.
run() {
    from=$(date +%s%N)
    "$program" serial <"$room/$1" >"$room/out"
    [ $? -eq "$2" ] || return 1
    to=$(date +%s%N)
    echo $(((to - from) / 1000))
}

before=
head_of lines 'seconds of the whole run' 'share of the reading' 'seconds to read' 'ratio to the row above'
for count in 50000 100000 200000; do
    lines "$count" settle >"$room/played"
    lines "$count" 'c1 jump' >"$room/refused"
    all=$(least 9 played 0) || wrong "$count" lines
    took=$(least 9 refused 3) || wrong "$count" lines refused
    [ "$(cat "$room/out")" = "refused line $count word" ] || wrong "$count" lines refused
    share=$(awk -v took="$took" -v all="$all" 'BEGIN { printf "%.4f | %.2f", all / 1000000, took / all }')
    row "$count | $share" "$took" "$before" 2.3
    [ $((3 * took)) -le "$all" ] || status=1
    before=$took
done
exit "$status"
