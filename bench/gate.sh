#!/bin/sh
# Tells what the gate costs: for each crate its lines of .rt, and the seconds of processor (user and
# system) of its proof, of the base of its edits, of the edits and of its tests.
#   bench/gate.sh --time LOG [WORD..]   runs the gate, or `rt ci WORD..`, and adds what it says, and the times, to LOG
#   bench/gate.sh LOG                   prints the table of such a log
#   bench/gate.sh --write LOG           puts it into docs/benchmarks.md
# Where a kit keeps what earlier runs passed, that takes no time: there --anew as the WORD does all from
# nothing. Of runs that one LOG has of the same part the last one counts. Where a part of a crate
# is in no run, it is named on standard error, and the status is 1. A kit may prove no base by itself.
set -u
root=$(cd "$(dirname "$0")/.." && pwd) || exit 1
page=$root/docs/benchmarks.md

usage() {
    sed -n '2,/^[^#]/s/^# \{0,1\}//p' "$0" >&2
    exit 2
}

# crates: each crate of crates.txt, with its lines, its edits, and whether it has tests.
crates() {
    sed -n 's/^\([a-z][a-z0-9_]*\).*:.*/\1/p' "$root/crates.txt" | while read -r crate; do
        folder=$root/crates/$crate
        lines=$(cat "$folder"/src/*.rt | wc -l)
        edits=$(find "$folder/must-fail" -name '*.edit' 2>/dev/null | wc -l)
        tests=0
        if grep -rqF '#[test]' "$folder/src"; then
            tests=1
        fi
        echo "crate: $crate $lines $edits $tests"
    done
}

# table LOG: the rows. A crate lacks a part that it has where no run of the log did it.
table() {
    crates | awk '
        function lacks(crate, part) {
            print "not timed: " part " of " crate | "cat >&2"
            status = 1
        }
        function row(crate, lines, at, sum, cells, cell) {
            for (at = 1; at <= 4; at++) {
                cell = "-"
                if ((crate, name[at]) in seconds) {
                    sum += seconds[crate, name[at]]
                    cell = sprintf("%.0f", seconds[crate, name[at]])
                }
                cells = cells " " cell " |"
            }
            printf "| %s | %d |%s %.0f | %.0f |\n", crate, lines, cells, sum, sum * 1000 / lines
        }
        BEGIN { split("proof base edits tests", name, " ") }
        $1 == "crate:" { order[++count] = $2; lines[$2] = $3; edits[$2] = $4; tests[$2] = $5 }
        $1 == "times:" && $2 == "rest" { rest += $3 }
        $1 == "times:" && NF == 5 { seconds[$2, $3] = $4; checks[$2, $3] = $5; bases += $3 == "base" }
        END {
            print "| crate | lines | proof | base | edits | tests | sum | for 1,000 lines |"
            print "|---|---|---|---|---|---|---|---|"
            for (at = 1; at <= count; at++) {
                crate = order[at]
                if (!((crate, "proof") in seconds)) lacks(crate, "the proof")
                if (edits[crate] > checks[crate, "edits"]) lacks(crate, "an edit")
                if (bases && edits[crate] > 1 && !((crate, "base") in seconds)) lacks(crate, "the base")
                if (tests[crate] && !((crate, "tests") in seconds)) lacks(crate, "the tests")
                for (part = 1; part <= 4; part++)
                    if ((crate, name[part]) in seconds)
                        seconds["all crates", name[part]] += seconds[crate, name[part]]
                all += lines[crate]
                row(crate, lines[crate])
            }
            row("all crates", all)
            printf "\nBeside the crates: %.0f s, of rt itself, formats, links, runs of programs and own checks.\n", rest
            exit status
        }' - "$1"
}

# write LOG: puts the table between the lines that mark its place.
write() {
    made=$(mktemp) || exit 1
    trap 'rm -f "$made"' EXIT
    table "$1" >"$made" || exit 1
    awk -v made="$made" '
        $0 == "<!-- /gate -->" { inside = 0 }
        !inside { print }
        $0 == "<!-- gate -->" {
            inside = 1
            print ""
            while ((getline line <made) > 0) print line
            print ""
        }' "$page" >"$made.page" && cat "$made.page" >"$page"
    rm -f "$made.page"
}

case ${1-} in
--time)
    [ $# -ge 2 ] || usage
    log=$(realpath -m "$2")
    shift 2
    cd "$root" || exit 1
    "$root/bench/gate_times.py" "$@" >>"$log" 2>&1
    ;;
--write)
    [ $# -eq 2 ] || usage
    write "$2"
    ;;
-*)
    usage
    ;;
*)
    [ $# -eq 1 ] || usage
    table "$1"
    ;;
esac
