#!/bin/sh
# Times `swift_sim serial` on seven kinds of scripts in which most time or memory went, each at three
# sizes, with the built program, and prints the rows of the tables in docs/benchmarks.md: the lines of a
# script, the seconds of processor, the greatest memory, and how much longer a script took than one half
# as long. Each time is the least of three runs. The status is 1 where a doubling takes more than 2.2 times as
# long, or 4.8 times where each client reads what all of them added (crowd), or the program gives a wrong end.
#   bench/worst.sh             times crates/swift_sim/out/swift_sim
#   bench/worst.sh NAME..      only these kinds
#   SWIFT_SIM=FILE bench/worst.sh     times another program
set -u
root=$(cd "$(dirname "$0")/.." && pwd) || exit 1
program=${SWIFT_SIM:-$root/crates/swift_sim/out/swift_sim}
. "$root/bench/timing.sh"

# one BLOCKS: a client that changes, reads and sends one counter.
one() {
    awk -v count="$1" 'BEGIN {
        print "centres 1 k 1\nclients 1\nc1 connect 1"
        for (block = 1; block <= count; block++)
            print "c1 begin\nc1 inc c.total 1\nc1 read c.total\nc1 commit\nc1 push\nc1 refresh"
    }'
}

# hundred TURNS: 100 clients that take turns, with two objects each.
hundred() {
    turns "$1"
}

# names BLOCKS: a client that changes, reads and sends a counter of another name in each block.
names() {
    awk -v count="$1" 'BEGIN {
        print "centres 1 k 1\nclients 1\nc1 connect 1"
        for (block = 1; block <= count; block++)
            print "c1 begin\nc1 inc c.n" block " 1\nc1 read c.n" block "\nc1 commit\nc1 push\nc1 refresh"
    }'
}

# reads COUNT: reads of so many counters, all of which the cache has room for.
reads() {
    awk -v count="$1" 'BEGIN {
        print "centres 1 k 1\nclients 1\ncache 100000\nc1 connect 1"
        for (read = 1; read <= count; read++) print "c1 read c.n" read
    }'
}

# adds COUNT: so many words of one set, 256 in a transaction, none of which is sent.
adds() {
    awk -v count="$1" 'BEGIN {
        print "centres 1 k 1\nclients 1\nc1 connect 1\nc1 begin"
        for (add = 1; add <= count; add++) {
            print "c1 add s.words w" add
            if (add % 256 == 0) print "c1 commit\nc1 begin"
        }
        print "c1 commit"
    }'
}

# words BLOCKS: a client that puts ten new words into a set, sends them and takes a snapshot.
words() {
    awk -v count="$1" 'BEGIN {
        print "centres 1 k 1\nclients 1\nc1 connect 1"
        for (block = 1; block <= count; block++) {
            print "c1 begin"
            for (word = 0; word < 10; word++) print "c1 add s.words w" block * 10 + word
            print "c1 commit\nc1 push\nc1 refresh"
        }
    }'
}

# crowd CLIENTS: so many clients that each add one word, none having seen the others, and then once more,
# over all that were added.
crowd() {
    awk -v count="$1" 'BEGIN {
        print "centres 1 k 1\nclients " count
        for (client = 1; client <= count; client++) print "c" client " connect 1"
        for (round = 1; round <= 2; round++) {
            for (client = 1; client <= count; client++)
                print "c" client " begin\nc" client " add s.words w\nc" client " commit"
            for (client = 1; client <= count; client++) print "c" client " push"
            for (client = 1; client <= count; client++) print "c" client " refresh\nc" client " read s.words"
        }
    }'
}

# run: plays the script, whose last line is the one that is wanted, and gives the microseconds of
# processor; the file 'memory' has the kibibytes.
run() {
    python3 -c '
import os, resource, subprocess, sys
with open(sys.argv[2]) as script, open(sys.argv[3], "w") as out:
    status = subprocess.run([sys.argv[1], "serial"], stdin=script, stdout=out).returncode
used = resource.getrusage(resource.RUSAGE_CHILDREN)
with open(sys.argv[4], "w") as memory:
    print(used.ru_maxrss, file=memory)
print(int((used.ru_utime + used.ru_stime) * 1000000))
sys.exit(status)
' "$program" "$room/script" "$room/out" "$room/memory" && [ "$(tail -n 1 "$room/out")" = "$1" ]
}

# table KIND SIZE MOST: rows of three sizes, where a doubling may take MOST times as long.
table() {
    before=
    head_of "$1: lines" seconds MB 'ratio to the row above'
    for size in "$2" "$(($2 * 2))" "$(($2 * 4))"; do
        "$1" "$size" >"$room/script"
        took=$(least 3 "$(last_of "$1" "$size")") || wrong "$1" "$size"
        cells="$(wc -l <"$room/script") | $(awk -v took="$took" 'BEGIN { printf "%.4f", took / 1000000 }')"
        row_of "$cells" "$(cat "$room/memory")" "$took" "$before" "$3"
        before=$took
    done
    echo
}

# last_of KIND SIZE: the last line that is printed.
last_of() {
    case $1 in
    one) echo "c1 sees $2 own $2" ;;
    hundred) echo "c$((($2 - 1) * 37 % 100 + 1)) read c.total $2" ;;
    names) echo "c1 sees $2 own $2" ;;
    reads) echo "c1 read c.n$2 0" ;;
    adds) echo "c1 commit $((($2 + 255) / 256))" ;;
    words) echo "c1 sees $2 own $2" ;;
    crowd) echo "c$2 read s.words {w}" ;;
    esac
}

# row_of CELLS KIBIBYTES TOOK BEFORE MOST: prints a row. The status of the script is 1 where the ratio to
# the time of the row above is more than MOST.
row_of() {
    awk -v cells="$1" -v memory="$2" -v took="$3" -v before="$4" -v most="$5" 'BEGIN {
        ratio = before == "" ? "-" : sprintf("%.2f", took / before)
        printf "| %s | %.0f | %s |\n", cells, memory / 1024, ratio
        exit ratio != "-" && took > most * before
    }' || status=1
}

# wanted NAME ARG..: whether this kind is wanted.
wanted() {
    name=$1
    shift
    [ "$#" -eq 0 ] && return 0
    for other in "$@"; do
        [ "$other" = "$name" ] && return 0
    done
    return 1
}

wanted one "$@" && table one 2667 2.2
wanted hundred "$@" && table hundred 1600 2.2
wanted names "$@" && table names 2500 2.2
wanted reads "$@" && table reads 9000 2.2
wanted adds "$@" && table adds 1175 2.2
wanted words "$@" && table words 286 2.2
wanted crowd "$@" && table crowd 256 4.8
exit "$status"
