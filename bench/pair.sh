#!/bin/sh
# Times `centre_trial long` and `again`: commits of a centre with its journal in two files, to 2,000 and to 20,000
# counters, with a prune behind each 63 of them, and the opening of these files. Prints the rows of the table in
# docs/benchmarks.md. The time of the commits is that of one run, and that of an opening the least of nine. The status is 1
# where the live file is more than three times as long as with its checkpoint alone, where it is opened in more than a
# second, where twice as many commits take more than 2.2 times as long, or where the program gives a wrong end.
#   bench/pair.sh                         times crates/centre_trial/out/centre_trial
#   CENTRE_TRIAL=FILE bench/pair.sh       times another program
#   TMPDIR=FOLDER bench/pair.sh           writes to files in this folder, which should be on a disk
set -u
root=$(cd "$(dirname "$0")/.." && pwd) || exit 1
program=${CENTRE_TRIAL:-$root/crates/centre_trial/out/centre_trial}
. "$root/bench/timing.sh"

# run FORM [COMMITS OBJECTS]: the microseconds of a run. By `long` the files are new.
run() {
    form=$1
    shift
    case $form in
    long) rm -f "$room/first" "$room/second" ;;
    esac
    timed "$form" "$room/first" "$room/second" "$@"
}

# rows OBJECTS: three rows, of commits to so many counters.
rows() {
    before=
    for commits in 50000 100000 200000; do
        made=$(run long "$commits" "$1") || wrong long "$commits" "$1"
        checkpoints=$(cut -d ' ' -f 3 <"$room/out")
        opened=$(least 9 again) || wrong again "$commits" "$1"
        # shellcheck disable=SC2046
        set -- "$1" $(cat "$room/out")
        [ "$2" = "$commits" ] || wrong again "$commits" "$1"
        awk -v objects="$1" -v commits="$commits" -v made="$made" -v before="$before" -v checkpoints="$checkpoints" \
            -v live="$3" -v alone="$4" -v opened="$opened" 'BEGIN {
            ratio = before == "" ? "-" : sprintf("%.2f", made / before)
            printf "| %d | %d | %.2f | %s | %d | %d | %d | %.2f | %.3f |\n", objects, commits, made / 1000000, ratio, checkpoints, live, alone, live / alone, opened / 1000000
            exit live > 3 * alone || opened > 1000000 || (before != "" && made > 2.2 * before)
        }' || status=1
        before=$made
    done
}

head_of counters commits seconds 'ratio to the row above' checkpoints 'bytes of the live file' \
    'bytes with its checkpoint alone' 'ratio of these' 'seconds to open it'
for objects in 2000 20000; do
    rows "$objects"
done
exit "$status"
