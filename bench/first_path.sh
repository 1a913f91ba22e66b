#!/bin/sh
# Times `swift_sim serial` on scripts of 500, 1,000, 2,000 and 4,000 blocks, with the built program,
# and prints the rows of the table in docs/benchmarks.md. Each time is the least of three runs. The
# status is 1 where a doubling takes more than 2.3 times as long, or the program gives a wrong end.
#   bench/first_path.sh             times crates/swift_sim/out/swift_sim
#   SWIFT_SIM=FILE bench/first_path.sh     times another program
set -u
root=$(cd "$(dirname "$0")/.." && pwd) || exit 1
program=${SWIFT_SIM:-$root/crates/swift_sim/out/swift_sim}
. "$root/bench/timing.sh"

# blocks COUNT: a script of so many blocks, each with an inc and a read.
blocks() {
    awk -v count="$1" 'BEGIN {
        print "centres 1 k 1\nclients 1\nc1 connect 1"
        for (block = 1; block <= count; block++)
            print "c1 begin\nc1 inc c.total 1\nc1 read c.total\nc1 commit\nc1 push\nc1 refresh"
    }'
}

# run COUNT: plays such a script.
run() {
    timed serial <"$room/script" && [ "$(tail -n 1 "$room/out")" = "c1 sees $1 own $1" ]
}

before=
head_of blocks seconds 'ratio to the row above'
for count in 500 1000 2000 4000; do
    blocks "$count" >"$room/script"
    took=$(least 3 "$count") || wrong "$count" blocks
    row "$count" "$took" "$before" 2.3
    before=$took
done
exit "$status"
