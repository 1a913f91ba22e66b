#!/bin/sh
# Times `swift_sim run` with 1, 2 and 4 threads for the clients beside `swift_sim serial` where both do equal work: one
# phase of 4 centres and 256 clients, 64 at each, with as many rounds of each worker as a client has steps, so that
# both forms make one round a turn. Each client makes 40 transactions of a counter, a set and a map, pushes each, and
# takes a snapshot after each fourth. There are three mixes:
#   reads    a transaction makes nine reads, of its client's set and map, of another client's set and of the counter, and
#            then changes the counter, its set and its map. Clients are out of step, so that some push in each turn
#   half     the same with three reads, of its client's set and map and of another client's set
#   writes   a client reads its own three objects after each fourth transaction, and all clients push in the same turns
# It counts the entries of the trails, and prints the rows of the table in docs/benchmarks.md: the whole time and the time
# of the phase, in which the program has threads, and how many processors were at work in it. Each time is the least of
# five runs, by the clock, and the processors are those of the run with the shortest phase. The phase of `serial` is
# what is left of its time without what `run` with 1 thread takes beside its phase. The status is 1 where the
# entries of `run` and of `serial` differ by more than a twentieth, where the whole with 4 threads is not 1.4 times as fast
# as `serial`, where the phase with 4 threads is slower than with 1, or by `reads` not 1.8 times as fast and by `half`
# not 1.5 times, or where the program gives a wrong end.
#   bench/equal.sh             times crates/swift_sim/out/swift_sim
#   bench/equal.sh MIX..       the same of these mixes alone
#   SWIFT_SIM=FILE bench/equal.sh     times another program
set -u
root=$(cd "$(dirname "$0")/.." && pwd) || exit 1
program=${SWIFT_SIM:-$root/crates/swift_sim/out/swift_sim}
. "$root/bench/timing.sh"

clients=256
each=40
total=$((clients * each))

# mixed READS THREADS: a script of transactions with so many reads and three changes. Clients read up to so many times
# before their first transaction, and what is left of them behind the last one.
mixed() {
    awk -v reads="$1" -v threads="$2" -v clients="$clients" -v each="$each" '
    function object(read, client, number) {
        if (read % 4 == 0) return "c.total"
        if (read % 4 == 1) return "s.cart" client
        if (read % 4 == 2) return "m.page" client
        return "s.cart" (client * 7 + number * 13 + read) % clients + 1
    }
    BEGIN {
        print "centres 4 k 2\nclients " clients "\nthreads " threads
        print "rounds " each * (reads + 6) + int(each / 4) + reads
        for (client = 1; client <= clients; client++) print "c" client " connect " (client - 1) % 4 + 1
        print "phase"
        for (client = 1; client <= clients; client++) {
            c = "c" client
            before = client % (reads + 1)
            for (read = 1; read <= before; read++) print c " read " object(read, client, 0)
            for (number = 1; number <= each; number++) {
                print c " begin"
                for (read = 1; read <= reads; read++) print c " read " object(read, client, number)
                print c " inc c.total 1\n" c " add s.cart" client " w" number % 50
                print c " put m.page" client " k" number % 50 " w" number % 7 "\n" c " commit\n" c " push"
                if (number % 4 == 0) print c " refresh"
            }
            for (read = before + 1; read <= reads; read++) print c " read " object(read, client, 0)
        }
        print "end\nsettle\nc1 refresh\nc1 read c.total"
    }'
}

# reads THREADS, half THREADS: the scripts of those mixes.
reads() {
    mixed 9 "$1"
}

half() {
    mixed 3 "$1"
}

# writes THREADS: the script of that mix. A client has 280 steps in the phase.
writes() {
    awk -v threads="$1" -v clients="$clients" -v each="$each" 'BEGIN {
        print "centres 4 k 2\nclients " clients "\nthreads " threads "\nrounds " each * 7
        for (client = 1; client <= clients; client++) print "c" client " connect " (client - 1) % 4 + 1
        print "phase"
        for (number = 1; number <= each; number++)
            for (client = 1; client <= clients; client++) {
                c = "c" client
                print c " begin\n" c " inc c.total 1\n" c " add s.cart" client " w" number % 50
                print c " put m.page" client " k" number % 50 " w" number % 7 "\n" c " commit\n" c " push"
                if (number % 4 == 0)
                    print c " refresh\n" c " read s.cart" client "\n" c " read m.page" client "\n" c " read c.total"
            }
        print "end\nsettle\nc1 refresh\nc1 read c.total"
    }'
}

# entries FORM: how many entries the trails of a play of the script have.
entries() {
    "$program" "$1" --trail <"$room/script" | grep -c '^trail '
}

# best FORM: the least microseconds of five plays of the script, of the whole and of the phase, and those that the
# processors worked in that phase.
best() {
    whole= phase= work=
    for _ in 1 2 3 4 5; do
        took=$("$root/bench/phase_time.py" "$program" "$1" "$room/script" "$room/out") || return 1
        [ "$(tail -n 1 "$room/out")" = "c1 read c.total $total" ] || return 1
        # shellcheck disable=SC2086
        set -- "$1" $took
        if [ -z "$whole" ] || [ "$2" -lt "$whole" ]; then whole=$2; fi
        if [ -z "$phase" ] || [ "$3" -lt "$phase" ]; then phase=$3 work=$4; fi
    done
    echo "$whole $phase $work"
}

# rows MIX LEAST: the rows of a mix, whose phase with 4 threads is to be at least so many times as fast as with 1.
rows() {
    mix=$1 least=$2
    "$mix" 1 >"$room/script"
    took=$(best serial) || wrong "$mix" serial
    serial=${took%% *}
    counted=$(entries serial)
    awk -v mix="$mix" -v took="$serial" -v counted="$counted" \
        'BEGIN { printf "| %s | serial | - | %d | %.4f | - | - | - | - | - |\n", mix, counted, took / 1000000 }'
    alone= beside=
    for threads in 1 2 4; do
        "$mix" "$threads" >"$room/script"
        took=$(best run) || wrong "$mix" run with "$threads" threads
        # shellcheck disable=SC2086
        set -- $took
        alone=${alone:-$2}
        beside=${beside:-$(($1 - $2))}
        awk -v mix="$mix" -v least="$least" -v threads="$threads" -v entries="$(entries run)" -v counted="$counted" \
            -v took="$1" -v phase="$2" -v work="$3" -v serial="$serial" -v alone="$alone" -v beside="$beside" 'BEGIN {
            printf "| %s | run | %d | %d | %.4f | %.4f | %.2f | %.2f | %.2f | %.2f |\n", mix, threads, entries, took / 1000000, phase / 1000000, work / phase, serial / took, (serial - beside) / phase, alone / phase
            differ = entries > counted ? entries - counted : counted - entries
            slow = threads == 4 && (alone < least * phase || serial < 1.4 * took)
            exit differ > counted / 20 || slow
        }' || status=1
    done
}

head_of mix form threads entries seconds 'seconds of the phase' 'processors at work in it' 'times as fast as serial' \
    'the phase as in serial' 'the phase as with 1 thread'
[ $# -gt 0 ] || set -- reads half writes
for mix in "$@"; do
    case $mix in
    reads) rows reads 1.8 ;;
    half) rows half 1.5 ;;
    writes) rows writes 1 ;;
    *) wrong "$mix" ;;
    esac
done
exit "$status"
