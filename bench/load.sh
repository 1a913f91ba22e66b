#!/bin/sh
# Times `swift_sim load` of a number, with the built program, beside `serial` over the script that `make` writes of this
# number, and beside `run` over it with one thread for the clients in place of four, and prints the rows of the table in
# docs/benchmarks.md with the most memory that a run takes. Each time is the least of three runs, by the clock. The status
# is 1 where a run takes more than 1 GB, or the program gives a wrong end.
#   bench/load.sh                times crates/swift_sim/out/swift_sim, with the number 7
#   bench/load.sh NUM            the same with this number
#   SWIFT_SIM=FILE bench/load.sh        times another program
set -u
root=$(cd "$(dirname "$0")/.." && pwd) || exit 1
program=${SWIFT_SIM:-$root/crates/swift_sim/out/swift_sim}
. "$root/bench/timing.sh"

# run WORD..: plays by these words, after which client 100 has to read the sum of all.
run() {
    timed "$@" <"$room/script" && [ "$(tail -n 1 "$room/out")" = 'c100 read c.total 252500' ]
}

# most_memory WORD..: the most memory of a run by these words, in megabytes.
most_memory() {
    python3 - "$room/script" "$program" "$@" <<'END'
import resource
import subprocess
import sys

with open(sys.argv[1], "rb") as script:
    subprocess.run(sys.argv[2:], stdin=script, stdout=subprocess.DEVNULL, check=True)
print(-(-resource.getrusage(resource.RUSAGE_CHILDREN).ru_maxrss // 1024))
END
}

# played NAME THREADS WORD..: the row of these words.
played() {
    name=$1 threads=$2
    shift 2
    took=$(least 3 "$@") || wrong "$@"
    peak=$(most_memory "$@") || wrong "$@"
    awk -v name="$name" -v threads="$threads" -v lines="$lines" -v peak="$peak" -v took="$took" 'BEGIN {
        printf "| %s | %s | %d | %d | %.4f |\n", name, threads, lines, peak, took / 1000000
        exit peak > 1024
    }' || status=1
}

num=${1:-7}
"$program" make "$num" >"$room/made" || wrong make "$num"
lines=$(wc -l <"$room/made")
head_of form threads lines megabytes seconds
cp "$room/made" "$room/script"
played "serial of make $num" - serial
sed 's/^threads 4$/threads 1/' "$room/made" >"$room/script"
played "run of make $num" 1 run
: >"$room/script"
played "load $num" 4 load "$num"
exit "$status"
