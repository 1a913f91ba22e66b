#!/bin/sh
# Times `swift_sim serial` on scripts of 100 clients with 500, 1,000 and 2,000 commits, of ten lines
# each, with the built program, and prints the rows of the table in docs/benchmarks.md. Each time is
# the least of three runs. The status is 1 where a doubling takes more than 2.3 times as long, or the
# program gives a wrong end.
#   bench/clients.sh             times crates/swift_sim/out/swift_sim
#   SWIFT_SIM=FILE bench/clients.sh     times another program
set -u
root=$(cd "$(dirname "$0")/.." && pwd) || exit 1
program=${SWIFT_SIM:-$root/crates/swift_sim/out/swift_sim}
. "$root/bench/timing.sh"

# run COUNT: plays such a script.
run() {
    timed serial <"$room/script" || return 1
    case $(tail -n 1 "$room/out") in
    *" read c.total $1") ;;
    *) return 1 ;;
    esac
}

before=
head_of commits lines seconds 'ratio to the row above'
for count in 500 1000 2000; do
    turns "$count" >"$room/script"
    took=$(least 3 "$count") || wrong "$count" commits
    row "$count | $((102 + 10 * count))" "$took" "$before" 2.3
    before=$took
done
exit "$status"
