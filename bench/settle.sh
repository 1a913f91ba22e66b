#!/bin/sh
# Times `settle` among 2, 4 and 8 centres that stamped 16,000 records together, and then 32,000, of which
# each lacks those of all others, with the built program, and prints the rows of the table in
# docs/benchmarks.md. Each time is the least of 15 runs of a script with a `settle` at its end, less the
# least of 15 without. Then it times a `settle` among 8 centres that have nothing to ship, to relay or to
# tell: a tenth of what 10 more of them take behind one that brought 100 records of each centre to all. The
# status is 1 where twice as many records take more than 2.3 times as long, where the settle of nothing
# takes more than a millisecond, or where the program gives a wrong end.
#   bench/settle.sh              times crates/swift_sim/out/swift_sim
#   SWIFT_SIM=FILE bench/settle.sh      times another program
set -u
root=$(cd "$(dirname "$0")/.." && pwd) || exit 1
program=${SWIFT_SIM:-$root/crates/swift_sim/out/swift_sim}
. "$root/bench/timing.sh"

# records CENTRES COUNT STEP: a script in which a client of each centre commits so many times, with a
# newer snapshot after each 500; then STEP, and what client 1 sees after it.
records() {
    awk -v centres="$1" -v count="$2" -v step="$3" 'BEGIN {
        print "centres " centres " k 1\nclients " centres
        for (i = 1; i <= centres; i++) print "c" i " connect " i
        for (number = 1; number <= count; number++)
            for (i = 1; i <= centres; i++) {
                c = "c" i
                print c " begin\n" c " inc c.total 1\n" c " commit\n" c " push"
                if (number % 500 == 0) print c " refresh"
            }
        if (step != "") print step
        print "c1 refresh\nc1 read c.total"
    }'
}

# run SCRIPT TOTAL: plays a script, after which client 1 has to read TOTAL.
run() {
    timed serial <"$room/$1" && [ "$(tail -n 1 "$room/out")" = "c1 read c.total $2" ]
}

# settles COUNT: so many lines `settle`, as awk reads the value of a variable.
settles() {
    awk -v count="$1" 'BEGIN { for (number = 1; number <= count; number++) printf "%ssettle", number == 1 ? "" : "\\n" }'
}

head_of centres 'records each' 'seconds to settle' 'ratio to the row above'
for centres in 2 4 8; do
    before=
    few=$((16000 / centres))
    for count in "$few" $((2 * few)); do
        records "$centres" "$count" '' >"$room/apart"
        records "$centres" "$count" settle >"$room/settled"
        none=$(least 15 apart "$count") || wrong "$centres" centres, "$count" records
        all=$(least 15 settled $((centres * count))) || wrong "$centres" centres, "$count" records settled
        took=$((all - none))
        row "$centres | $count" "$took" "$before" 2.3
        before=$took
    done
done
records 8 100 "$(settles 1)" >"$room/once"
records 8 100 "$(settles 11)" >"$room/often"
once=$(least 15 once 800) || wrong 8 centres, 100 records settled
often=$(least 15 often 800) || wrong 8 centres, 100 records settled 11 times
took=$(((often - once) / 10))
row '8 | none' "$took" '' 2.3
[ "$took" -le 1000 ] || status=1
exit "$status"
