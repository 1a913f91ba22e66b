#!/bin/sh
# Times `swift_sim serial` on scripts of three centres, K 2, and 50 clients, made at random, of about
# 1,000 to 16,000 lines, with the built program, and prints the rows of the tables in docs/benchmarks.md:
# of scripts that fetch no object and take no snapshot, and of scripts that do both. Each time is the
# least of nine runs. The status is 1 where a doubling of the former takes more than 2.6 times as long or
# one of the latter more than 2.8 times, or the program gives a wrong end.
#   bench/centres.sh             times crates/swift_sim/out/swift_sim
#   SWIFT_SIM=FILE bench/centres.sh     times another program
set -u
root=$(cd "$(dirname "$0")/.." && pwd) || exit 1
program=${SWIFT_SIM:-$root/crates/swift_sim/out/swift_sim}
. "$root/bench/timing.sh"

# random LINES READS: a script of about so many lines, the same at each call: blocks of a client that
# changes one of four objects of a kind, commits and flushes, with faults and moves, and shipments by the
# operator. Where READS is 1, sets and maps are changed too, and clients read and take snapshots.
random() {
    awk -v most="$1" -v reads="$2" 'BEGIN {
        srand(7)
        print "centres 3 k 2\nclients 50"
        for (client = 1; client <= 50; client++) print "c" client " connect " client % 3 + 1
        for (lines = 52; lines < most - 10; lines += 8) {
            c = "c" int(rand() * 50) + 1
            name = int(rand() * 4)
            kind = int(rand() * (reads ? 4 : 2))
            print c " begin"
            if (kind == 0) print c " inc c.n" name " 1"
            if (kind == 1) print c " set r.n" name " w" lines % 50
            if (kind == 2) print c " add s.n" name " w" lines % 50
            if (kind == 3) print c " put m.n" name " k" lines % 50 " w" lines % 7
            print c " commit"
            fault = int(rand() * 40)
            print c (fault == 0 ? " lose ask" : fault == 1 ? " lose reply" : fault == 2 ? " twice" : reads ? " read c.n" name : " flush")
            print c " flush"
            if (!reads || rand() < 0.1) print c " connect " int(rand() * 3) + 1
            else print c " refresh"
            print reads ? c " read s.n" name : "tell " int(rand() * 2) + 1 " 3"
            from = int(rand() * 3) + 1
            to = (from + int(rand() * 2)) % 3 + 1
            print (rand() < 0.6 ? "ship " : "tell ") from " " to
        }
        print "settle\nc1 refresh\nc1 read r.end"
    }'
}

# run: plays the script, whose last line reads what nobody wrote.
run() {
    timed serial <"$room/script" && [ "$(tail -n 1 "$room/out")" = "c1 read r.end -" ]
}

# table READS MOST: a row for each length, where a doubling may take MOST times as long.
table() {
    before=
    for count in 1000 2000 4000 8000 16000; do
        random "$count" "$1" >"$room/script"
        took=$(least 9) || wrong "$count" lines
        row "$(wc -l <"$room/script")" "$took" "$before" "$2"
        before=$took
    done
}

head_of 'without reads and snapshots: lines' seconds 'ratio to the row above'
table 0 2.6
echo
head_of 'with both: lines' seconds 'ratio to the row above'
table 1 2.8
exit "$status"
