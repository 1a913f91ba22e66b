# A phase in which the operator feeds a tap while clients look through it: tests/shell/run reads this by `.` and calls
# check_fed_phases.

# taps_script: in a phase twenty feeds of a tap at centre 1, at which client 1 pushes meanwhile, and ten looks of each of four
# clients, each behind a refresh. Each client looks once more behind the phase.
taps_script() {
    awk 'BEGIN {
        print "centres 2 k 1\nclients 4\nthreads 4\nrounds 8\ntap 1 c.a"
        for (client = 1; client <= 4; client++) print "c" client " connect " (client - 1) % 2 + 1
        print "phase"
        for (turn = 1; turn <= 10; turn++) {
            print "c1 begin\nc1 inc c.a 1\nc1 commit\nc1 push\nfeed 1\nfeed 1"
            for (client = 1; client <= 4; client++) print "c" client " refresh\nc" client " tap 1 c.a"
        }
        print "end"
        for (client = 1; client <= 4; client++) print "c" client " tap 1 c.a"
    }'
}

# taps_fit: whether there are twenty feeds and eleven looks of each client, each look shows the opening or what a feed showed,
# no client sees less than before, and all see at the end what was fed last. A feed may find the base gone on.
taps_fit() {
    awk '
        $2 == "fed" { feeds++; fed[$3] = 1; last = $3 }
        $2 == "feed" && $3 == "pruned" { feeds++ }
        $2 == "tap" {
            looks[$1]++
            shown[$1] = $6
            all[$6] = 1
            split($6, at, ",")
            if (at[1] + 0 < seen[$1] + 0) wrong = 1
            seen[$1] = at[1]
        }
        END {
            for (vector in all) if (!(vector in fed) && vector != "0,0") wrong = 1
            for (client = 1; client <= 4; client++) if (looks["c" client] != 11 || shown["c" client] != last) wrong = 1
            exit wrong || feeds != 20
        }
    ' "$1"
}

# A hundred runs.
check_fed_phases() {
    taps_script >"$room/in"
    done=0
    while [ "$done" -lt 100 ]; do
        timeout 60 "$program" run <"$room/in" >"$room/out" 2>"$room/err"
        status=$?
        if [ "$status" -ne 0 ] || ! suits 0 || ! taps_fit "$room/out"; then
            break
        fi
        done=$((done + 1))
    done
    same=no
    if [ "$done" -eq 100 ]; then
        same=yes
    fi
    count 'a hundred runs of a phase with feeds and looks' "$status" 0 "$same"
}
