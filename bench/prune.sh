#!/bin/sh
# Times `swift_sim serial` on scripts in which centres prune, with the built program, and prints the rows of the tables
# in docs/benchmarks.md: of one client, of 100 clients, of three centres with K 2, and of one set and one map that one
# client, or a crowd of 100, changes and reads, each with 4,000 to 32,000 blocks; and of about 190,000 lines of mixed
# clients, with the memory that the run takes. Each time is the least of three runs. The status is 1 where a doubling
# takes more than 2.2 times as long, or 4.2 times for a crowd, the mixed script takes ten seconds or a gigabyte, or the
# program gives a wrong end.
#   bench/prune.sh               times crates/swift_sim/out/swift_sim
#   SWIFT_SIM=FILE bench/prune.sh       times another program
set -u
root=$(cd "$(dirname "$0")/.." && pwd) || exit 1
program=${SWIFT_SIM:-$root/crates/swift_sim/out/swift_sim}
. "$root/bench/timing.sh"

# blocks KIND COUNT: a script of so many blocks of a transaction that is sent; every tenth block of a client is followed
# by a new snapshot and a read, and every fiftieth of all by a prune at each centre, where there are three after records
# and vectors were carried.
blocks() {
    awk -v kind="$1" -v count="$2" 'BEGIN {
        centres = kind == "centres" || kind == "mixed" ? 3 : 1
        clients = kind == "one" || kind == "set" || kind == "map" ? 1 : 100
        print "centres " centres " k " (centres == 3 ? 2 : 1) "\nclients " clients
        for (c = 1; c <= clients; c++) print "c" c " connect " c % centres + 1
        for (b = 0; b < count; b++) {
            c = "c" b % clients + 1
            at = kind == "mixed" ? b % 5 : kind ~ "set" ? 3 : kind ~ "map" ? 4 : 0
            name = kind == "mixed" ? b % 50 : 0
            change = at == 3 ? "add s.n" name " w" b % 20 : at == 4 ? "put m.n" name " k" b % 20 " w" b % 7 : at == 2 ? "set r.n" name " w" b % 9 : "inc c.n" name " 1"
            read = at == 3 ? "s.n" name : at == 4 ? "m.n" name : at == 2 ? "r.n" name : "c.n" name
            print c " begin\n" c " " change "\n" c " commit\n" c " flush"
            if (int(b / clients) % 10 == 9) print c " refresh\n" c " read " read
            if (b % 50 == 49) {
                if (centres == 3) print "settle"
                for (i = 1; i <= centres; i++) print "prune " i
            }
        }
        print "c1 refresh\nc1 read r.end"
    }'
}

# run: plays the script, whose last line reads what nobody wrote.
run() {
    timed serial <"$room/script" && [ "$(tail -n 1 "$room/out")" = "c1 read r.end -" ]
}

for kind in one clients centres set map crowd-set crowd-map; do
    case $kind in
    crowd-*) most=4.2 ;;
    *) most=2.2 ;;
    esac
    head_of "$kind: blocks" seconds 'ratio to the row above'
    before=
    for count in 4000 8000 16000 32000; do
        blocks "$kind" "$count" >"$room/script"
        took=$(least 3) || wrong "$kind" "$count"
        row "$count" "$took" "$before" "$most"
        before=$took
    done
    echo
done

blocks mixed 45000 >"$room/script"
head_of 'mixed: lines' seconds kilobytes
took=$(least 3) || wrong mixed
memory=$( (ulimit -v 16000000; "$program" serial <"$room/script" >"$room/out" & child=$!
    most=0
    while kill -0 "$child" 2>/dev/null; do
        now=$(sed -n 's/^VmHWM:[^0-9]*\([0-9]*\).*/\1/p' "/proc/$child/status" 2>/dev/null)
        [ -n "$now" ] && most=$now
        sleep 0.05
    done
    echo "$most") )
awk -v lines="$(wc -l <"$room/script")" -v took="$took" -v memory="$memory" 'BEGIN {
    printf "| %s | %.2f | %s |\n", lines, took / 1000000, memory
    exit took > 10000000 || memory > 1000000
}' || status=1
exit "$status"
