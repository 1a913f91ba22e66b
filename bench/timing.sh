# What the scripts beside this one share: each reads it by `.`, with `program` set, and has a function
# `run ARG..` of its own, which gives the microseconds that a run takes, or fails at a wrong end.

if [ ! -x "$program" ]; then
    echo "$program is not built" >&2
    exit 1
fi
room=$(mktemp -d) || exit 1
trap 'rm -rf "$room"' EXIT
trap 'exit 1' HUP INT TERM
status=0

# timed WORD..: runs the program with these words over the standard input of this call, writes what it
# prints to the file 'out', and gives the microseconds.
timed() {
    from=$(date +%s%N)
    "$program" "$@" >"$room/out" || return 1
    to=$(date +%s%N)
    echo $(((to - from) / 1000))
}

# least RUNS ARG..: the least time of so many runs.
least() {
    left=$1 best=
    shift
    while [ "$left" -gt 0 ]; do
        took=$(run "$@") || return 1
        if [ -z "$best" ] || [ "$took" -lt "$best" ]; then
            best=$took
        fi
        left=$((left - 1))
    done
    echo "$best"
}

# beside FORM COUNT CALL THREADS NUMBER..: a table with a row for each number of threads, which make so many calls each.
# CALL is the word for one call, and THREADS that for those that make them. A run of COUNT 0 makes the threads alone, and
# its time is taken off; a difference of less than 1 microsecond is told as 1.
beside() {
    form=$1 count=$2 call=$3 who=$4
    shift 4
    head_of "$form, $count ${call}s each: $who" microseconds "${call}s a second" "nanoseconds a $call"
    for number in "$@"; do
        none=$(least 9 "$form" "$number" 0) || wrong "$form" "$number" 0
        took=$(least 9 "$form" "$number" "$count") || wrong "$form" "$number" "$count"
        took=$((took > none ? took - none : 1))
        all=$((number * count))
        echo "| $number | $took | $((all * 1000000 / took)) | $((took * 1000 / all)) |"
    done
    echo
}

# processor RUNS WORD..: the least processor time of so many runs by these words over the file 'script', in
# microseconds. What a run prints is in the file 'out'.
processor() {
    python3 - "$room" "$program" "$@" <<'END'
import resource
import subprocess
import sys

room, program, runs, *words = sys.argv[1:]


def used():
    usage = resource.getrusage(resource.RUSAGE_CHILDREN)
    return usage.ru_utime + usage.ru_stime


def play():
    before = used()
    with open(room + "/script", "rb") as script, open(room + "/out", "wb") as out:
        subprocess.run([program, *words], stdin=script, stdout=out, check=True)
    return used() - before


print(round(min(play() for _ in range(int(runs))) * 1_000_000))
END
}

# head_of COLUMN..: the first two lines of a table.
head_of() {
    printf '|'
    printf ' %s |' "$@"
    printf '\n|'
    for _ in "$@"; do
        printf -- '---|'
    done
    echo
}

# row CELLS TOOK BEFORE MOST: prints a row with the seconds and the ratio to the time of the row above,
# where there is one. The status of the script is 1 where that is more than MOST.
row() {
    awk -v cells="$1" -v took="$2" -v before="$3" -v most="$4" 'BEGIN {
        ratio = before == "" ? "-" : sprintf("%.2f", took / before)
        printf "| %s | %.4f | %s |\n", cells, took / 1000000, ratio
        exit ratio != "-" && took > most * before
    }' || status=1
}

# wrong ARG..: ends the script, since the program gave a wrong end.
wrong() {
    echo "the program gave a wrong end for $*" >&2
    exit 1
}

# turns COUNT: a script of 100 clients that take turns, so many of them, each with one commit: of a
# counter, and of an object of one kind after another.
turns() {
    awk -v count="$1" 'BEGIN {
        print "centres 1 k 1\nclients 100"
        for (client = 1; client <= 100; client++) print "c" client " connect 1"
        for (turn = 0; turn < count; turn++) {
            c = "c" (turn * 37) % 100 + 1
            print c " begin\n" c " inc c.total 1"
            if (turn % 4 == 0) print c " inc c.side 1\n" c " read c.side"
            if (turn % 4 == 1) print c " set r.note w" turn % 50 "\n" c " read r.note"
            if (turn % 4 == 2) print c " add s.cart w" turn % 50 "\n" c " read s.cart"
            if (turn % 4 == 3) print c " put m.cart k" turn % 50 " w" turn % 7 "\n" c " read m.cart"
            print c " read c.total\n" c " commit\n" c " push\n" c " refresh\n" c " read r.note"
            print c " read c.total"
        }
    }'
}
