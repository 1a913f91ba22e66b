#!/bin/sh
# Times `swift_sim serial` on one phase of 3 centres, K 2, in which 100 clients make 1,000, 2,000 and 4,000
# transactions and push each, with rounds of the workers in each of its turns, with the built program, and
# prints the rows of the table in docs/benchmarks.md with the most memory that a run takes. Each time is the
# least of three runs. The status is 1 where a doubling takes more than 2.3 times as long, or the program
# gives a wrong end.
#   bench/phases.sh              times crates/swift_sim/out/swift_sim
#   bench/phases.sh SIZE..       the same with these numbers of transactions, multiples of 100
#   SWIFT_SIM=FILE bench/phases.sh      times another program
set -u
root=$(cd "$(dirname "$0")/.." && pwd) || exit 1
program=${SWIFT_SIM:-$root/crates/swift_sim/out/swift_sim}
. "$root/bench/timing.sh"

# phase COUNT: a script of 100 clients, each of which makes a hundredth of so many transactions in a phase,
# and is asked for its snapshot after each fourth. The workers make a round in each turn, and a few behind
# the last one, by which all centres have all. Then client 1 reads.
phase() {
    awk -v count="$1" 'BEGIN {
        each = count / 100
        print "centres 3 k 2\nclients 100\nrounds " 4 * each + int(each / 4) + 8
        for (client = 1; client <= 100; client++) print "c" client " connect " client % 3 + 1
        print "phase"
        for (number = 1; number <= each; number++)
            for (client = 1; client <= 100; client++) {
                c = "c" client
                print c " begin\n" c " inc c.total 1\n" c " commit\n" c " push"
                if (number % 4 == 0) print c " refresh"
            }
        print "end\nc1 refresh\nc1 read c.total"
    }'
}

# run COUNT: plays such a script, after which client 1 has to read COUNT.
run() {
    timed serial <"$room/script" && [ "$(tail -n 1 "$room/out")" = "c1 read c.total $1" ]
}

# most_memory: the most memory of a run of the script, in megabytes.
most_memory() {
    python3 - "$program" "$room/script" <<'END'
import resource
import subprocess
import sys

with open(sys.argv[2], "rb") as script:
    subprocess.run([sys.argv[1], "serial"], stdin=script, stdout=subprocess.DEVNULL, check=True)
print(resource.getrusage(resource.RUSAGE_CHILDREN).ru_maxrss // 1024)
END
}

[ $# -gt 0 ] || set -- 1000 2000 4000
before=
head_of transactions lines megabytes seconds 'ratio to the row above'
for count in "$@"; do
    phase "$count" >"$room/script"
    took=$(least 3 "$count") || wrong "$count" transactions
    peak=$(most_memory) || wrong "$count" transactions
    row "$count | $(wc -l <"$room/script") | $peak" "$took" "$before" 2.3
    before=$took
done
exit "$status"
