#!/bin/sh
# Times `journal_trial`: appends of groups of 1, 10 and 100 lines to a journal on a real file, beside the same bytes
# written by two writes with two syncs a group and no journal; how appends grow; and openings. Each line takes 64 bytes
# with its gate. Prints the rows of the tables in docs/benchmarks.md. Each time is the least of so many runs, and appends
# and bare writes take turns. The status is 1 where appends take more than 1.2 times as long as the bare writes, where
# twice as many of anything takes more than 2.2 times as long, where 100,000 lines are opened in more than a quarter of a
# second, or where the program gives a wrong end.
#   bench/journal.sh                        times crates/journal_trial/out/journal_trial
#   JOURNAL_TRIAL=FILE bench/journal.sh     times another program
#   TMPDIR=FOLDER bench/journal.sh          writes to files in this folder, which should be on a disk
set -u
root=$(cd "$(dirname "$0")/.." && pwd) || exit 1
program=${JOURNAL_TRIAL:-$root/crates/journal_trial/out/journal_trial}
. "$root/bench/timing.sh"

# run FORM GROUPS SIZE: the program has to print last how many lines there are. The file is new for all but `open`.
run() {
    case $1 in
    bare) rm -f "$room/bare" ;;
    append) rm -f "$room/append" && "$program" make "$room/append" ;;
    esac || return 1
    case $1 in
    open) timed open "$room/open" ;;
    *) timed "$1" "$room/$1" "$2" "$3" 62 ;;
    esac && [ "$(tail -n 1 "$room/out")" = $(($2 * $3)) ]
}

# appends SIZE: a row for groups of this size, with the ratio to the bare writes.
appends() {
    bare= append=
    for _ in 1 2 3 4 5 6 7 8 9; do
        took=$(run bare 1000 "$1") || wrong bare 1000 "$1"
        bare=$(lesser "$bare" "$took")
        took=$(run append 1000 "$1") || wrong append 1000 "$1"
        append=$(lesser "$append" "$took")
    done
    awk -v size="$1" -v bare="$bare" -v append="$append" 'BEGIN {
        printf "| %s | %d | %d | %d | %.2f |\n", size, 1e9 / append, 1e9 * size / append, 1e9 / bare, append / bare
        exit append > 1.2 * bare
    }' || status=1
}

# lesser A B: the lesser of two times, of which the first may be none yet.
lesser() {
    if [ -z "$1" ] || [ "$2" -lt "$1" ]; then
        echo "$2"
    else
        echo "$1"
    fi
}

head_of 'lines a group' 'groups a second' 'lines a second' 'bare groups a second' 'ratio of the times'
for size in 1 10 100; do
    appends "$size"
done
echo

head_of 'groups of 10' seconds 'ratio to the row above'
before=
for groups in 1000 2000 4000; do
    took=$(least 5 append "$groups" 10) || wrong append "$groups" 10
    row "$groups" "$took" "$before" 2.2
    before=$took
done
echo

head_of 'lines opened' seconds 'ratio to the row above'
before=
for groups in 250 500 1000; do
    run append "$groups" 100 >/dev/null || wrong append "$groups" 100
    mv "$room/append" "$room/open"
    took=$(least 9 open "$groups" 100) || wrong open "$groups" 100
    row $((groups * 100)) "$took" "$before" 2.2
    before=$took
done
if [ "$before" -gt 250000 ]; then
    status=1
fi
exit "$status"
