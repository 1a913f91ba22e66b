#!/bin/sh
# Times `swift_sim run` with 1, 2 and 4 threads for the clients beside `swift_sim serial`, on two scripts: a
# phase of 4 centres in which 8 clients, two at each, make transactions of several objects and push each,
# with a snapshot and reads after each one (often) or after each fourth (seldom), with the built program, and
# prints the rows of the tables in docs/benchmarks.md. Each time is the least of five runs, by the clock. The
# status is 1 where `run` with 4 threads is not 1.5 times as fast as `serial` on the first script, or the
# program gives a wrong end.
#   bench/threads.sh             times crates/swift_sim/out/swift_sim
#   bench/threads.sh COUNT       the same with so many transactions of each client (default: 1000)
#   SWIFT_SIM=FILE bench/threads.sh     times another program
set -u
root=$(cd "$(dirname "$0")/.." && pwd) || exit 1
program=${SWIFT_SIM:-$root/crates/swift_sim/out/swift_sim}
. "$root/bench/timing.sh"

# shared THREADS COUNT EVERY: 8 clients at 4 centres, each with so many transactions in one phase, and with a
# snapshot and three reads after each one of so many. What is left after it is settled, and client 1 reads
# the total.
shared() {
    awk -v threads="$1" -v count="$2" -v every="$3" 'BEGIN {
        print "centres 4 k 2\nclients 8\nthreads " threads "\nrounds 32"
        for (client = 1; client <= 8; client++) print "c" client " connect " (client - 1) % 4 + 1
        print "phase"
        for (number = 1; number <= count; number++)
            for (client = 1; client <= 8; client++) {
                c = "c" client
                print c " begin\n" c " inc c.total 1\n" c " add s.cart" client " w" number % 50
                print c " put m.page" client " k" number % 50 " w" number % 7 "\n" c " commit\n" c " push"
                if (number % every == 0)
                    print c " refresh\n" c " read s.cart" client "\n" c " read m.page" client "\n" c " read c.total"
            }
        print "end\nsettle\nc1 refresh\nc1 read c.total"
    }'
}

# run FORM WANTED: plays the script, after which client 1 has to read this total.
run() {
    timed "$1" <"$room/script" && [ "$(tail -n 1 "$room/out")" = "c1 read c.total $2" ]
}

# table KIND EVERY MOST: the rows of one script, where `run` with 4 threads is to be so many times as fast as
# `serial`.
table() {
    head_of "$1: form" threads lines seconds 'times as fast as serial'
    shared 1 "$count" "$2" >"$room/script"
    lines=$(wc -l <"$room/script")
    serial=$(least 5 serial "$total") || wrong serial
    awk -v lines="$lines" -v took="$serial" 'BEGIN { printf "| serial | - | %d | %.4f | - |\n", lines, took / 1000000 }'
    for threads in 1 2 4; do
        shared "$threads" "$count" "$2" >"$room/script"
        took=$(least 5 run "$total") || wrong run with "$threads" threads
        awk -v threads="$threads" -v lines="$lines" -v took="$took" -v serial="$serial" -v wanted="$3" 'BEGIN {
            printf "| run | %d | %d | %.4f | %.2f |\n", threads, lines, took / 1000000, serial / took
            exit threads == 4 && serial < wanted * took
        }' || status=1
    done
    echo
}

count=${1:-1000}
total=$((count * 8))
table often 1 1.5
table seldom 4 0
exit "$status"
