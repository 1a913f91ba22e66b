#!/bin/sh
# Times `swift_sim serial` on 10,000, 20,000 and 40,000 lines of each form that a script may have more than once, with
# what they need around them, and `run` too where the form is of phases, with the built program, and prints the rows of
# the table in docs/benchmarks.md: the most lines, the seconds of processor that they take, and the greater ratio of the
# two doublings. A form of which a line is many asks has fewer lines: a fortieth among eight centres for `settle`, and a
# quarter for a phase. Each time is the least of three runs, and counts as a twentieth of a second where it is less. The
# status is 1 where a doubling takes more than 2.2 times as long, or the program gives a wrong end.
#   bench/growth.sh              times crates/swift_sim/out/swift_sim
#   bench/growth.sh FORM..       the same of these rows alone, as 'again' or 'settle of eight'
#   SWIFT_SIM=FILE bench/growth.sh      times another program
#   LINES_AT_FIRST=COUNT bench/growth.sh        the same with so many lines, twice and four times as many
set -u
root=$(cd "$(dirname "$0")/.." && pwd) || exit 1
program=${SWIFT_SIM:-$root/crates/swift_sim/out/swift_sim}
. "$root/bench/timing.sh"

first=${LINES_AT_FIRST:-10000}

# lines FORM COUNT: a script of so many lines of the form. Behind them client 1 connects once more.
lines() {
    awk -v form="$1" -v count="$2" '
        # client 1 commits a change
        function commit(change) { print "c1 begin\nc1 " change "\nc1 commit" }

        # the same, and sends it
        function sent(change) { commit(change); print "c1 push" }

        # client 1 makes eight transactions, and sends them
        function eight(at) { for (at = 1; at <= 8; at++) commit("inc c.total 1"); print "c1 flush" }

        # the line stands in a transaction of 250 changes
        function changed(line) {
            if (number % 250 == 1) print "c1 begin"
            print "c1 " line
            if (number % 250 == 0) print "c1 commit\nc1 push\nc1 refresh"
        }

        # the line stands behind a transaction, and behind each 250th of these is a new snapshot
        function behind(line) {
            commit("inc c.total 1")
            print line
            if (number % 250 == 0) print "c1 flush\nc1 refresh"
        }

        # eight lines stand behind eight transactions, and behind each 400th of these is a new snapshot
        function in_eights(line) {
            if (number % 8 == 1) eight()
            print line
            if (number % 400 == 0) print "c1 refresh"
        }

        # every second line stands behind an ask that it makes go wrong
        function armed(fault) { print "c1 " fault "\nc1 refresh" }

        BEGIN {
            eights = form ~ /of eight/
            print "centres " (eights ? 8 : 3) " k 1\nclients 3"
            if (form ~ /^phase|^link/) print "rounds 1"
            for (c = 1; c <= 3; c++) print "c" c " connect " c
            if (form ~ /^(give|take|rights)$/) sent("grant b.n 1000000000")
            if (form == "read") for (at = 0; at < 40; at++) {
                sent("inc c.n" at % 10 " 1"); sent("set r.n" at % 10 " w" at)
                sent("add s.n" at % 10 " w" at); sent("put m.n" at % 10 " k" at " w" at)
            }
            if (form == "read") print "c1 refresh"
            for (number = 1; number <= count; number++) {
                n = number % 10
                if (form == "connect") print "c1 connect " number % 3 + 1
                else if (form == "begin") print "c1 begin\nc1 abort"
                else if (form == "inc") changed("inc c.n" n " 1")
                else if (form == "set") changed("set r.n" n " w" number % 50)
                else if (form == "add") changed("add s.n" n " w" number % 20)
                else if (form == "del") changed((number % 2 ? "add" : "del") " s.n" int(number / 2) % 10 " w" int(number / 20) % 20)
                else if (form == "put") changed("put m.n" n " k" number % 20 " w" number % 7)
                else if (form == "drop") changed(number % 2 ? "put m.n" int(number / 2) % 10 " k" int(number / 20) % 20 " w" number % 7 : "drop m.n" int(number / 2 - 0.5) % 10 " k" int(number / 20) % 20)
                else if (form == "read") print "c1 read " substr("crsm", number % 4 + 1, 1) ".n" int(number / 4) % 10
                else if (form == "grant") changed("grant b.n" n " 1")
                else if (form == "give") changed("give b.n 2 1")
                else if (form == "take") changed("take b.n 1")
                else if (form == "rights") print "c1 rights b.n"
                else if (form == "commit") behind("c1 abort")
                else if (form == "abort") print "c1 begin\nc1 inc c.total 1\nc1 abort"
                else if (form == "push") behind("c1 push")
                else if (form == "flush") behind("c1 flush")
                else if (form == "refresh") { if (number % 2) sent("inc c.total 1"); print "c1 refresh" }
                else if (form == "again") in_eights("c1 again 1 " number)
                else if (form == "again of none") in_eights("c1 again 1 1000000")
                else if (form ~ /^lose|^twice/) armed(form)
                else if (form == "down, up") print (number % 2 ? "down 2" : "up 2")
                else if (form == "prune") in_eights("prune 1")
                else if (form == "tell") in_eights("tell " (number - 1) % 3 + 1 " " number % 3 + 1)
                else if (form == "ship") in_eights("ship 1 2")
                else if (form == "ship of one") in_eights("ship 1 2 " number)
                else if (form == "relay") in_eights((number % 8 == 1 ? "ship 1 2\n" : "") "relay 2 1 3")
                else if (form ~ /^settle/) in_eights("settle")
                else if (form ~ /^link/) print "link 1 2 " (form ~ /clean/ ? "clean" : substr(form, 6) " 3")
                else if (form ~ /^phase/) print (number % 2 ? "phase" : "end")
                else if (form == "steps of a phase") { if (number == 1) print "phase"; print "c1 read c.total" }
                else if (form == "comment") print "# no step"
                else if (form == "mixed") {
                    c = "c" number % 3 + 1
                    at = int(number / 3) % 10
                    if (at == 0) print c " begin"
                    else if (at < 4) print c " " (at == 1 ? "inc c.n" n " 1" : at == 2 ? "add s.n" n " w" number % 20 : "read m.n" n)
                    else if (at == 4) print c " commit"
                    else if (at == 5) print c " push"
                    else if (at == 6) print c " again " number % 3 + 1 " " int(number / 30) + 1
                    else if (at == 7) print c " refresh"
                    else if (at == 8) print "ship " number % 3 + 1 " " (number + 1) % 3 + 1
                    else print "tell " number % 3 + 1 " " (number + 1) % 3 + 1
                }
            }
            if (form == "begin") print "c1 begin"
            if (form == "down, up") print "up 2"
            if (form ~ /^link/) { print "phase"; eight(); print "end" }
            if (form == "steps of a phase") print "end"
            print "c1 connect 1"
        }'
}

# fewest FORM: the lines at first of a form.
fewest() {
    case $1 in
    'settle of eight') echo $((first / 40)) ;;
    'phase, end'*) echo $((first / 4)) ;;
    *) echo "$first" ;;
    esac
}

# grown FORM WORD: the row of a form, played by this word.
grown() {
    before=
    worse=0
    least=$(fewest "$1")
    for count in "$least" $((2 * least)) $((4 * least)); do
        lines "$1" "$count" >"$room/script"
        took=$(processor 3 "$2") && [ "$(tail -n 1 "$room/out")" = 'c1 at 1' ] || wrong "$count" lines of "$1" by "$2"
        [ "$took" -gt 50000 ] || took=50000
        [ -z "$before" ] || worse=$(awk -v took="$took" -v before="$before" -v worse="$worse" 'BEGIN { ratio = took / before; print (ratio > worse ? ratio : worse) }')
        before=$took
    done
    awk -v form="$1" -v word="$2" -v count="$count" -v took="$took" -v worse="$worse" 'BEGIN {
        printf "| %s | %s | %d | %.2f | %.2f |\n", form, word, count, took / 1000000, worse
        exit worse > 2.2
    }' || status=1
}

[ $# -gt 0 ] || set -- connect begin inc set add del put drop read grant give take rights commit abort push flush \
    refresh again 'again of none' 'lose ask' 'lose reply' twice 'down, up' prune tell ship 'ship of one' relay settle \
    'settle of eight' 'link clean' 'link drop' 'link twice' 'link hold' 'phase, end' 'phase, end of eight' \
    'steps of a phase' comment mixed
head_of form by lines seconds 'worse ratio'
for form in "$@"; do
    grown "$form" serial
    case $form in
    link* | *phase*) grown "$form" run ;;
    esac
done
exit "$status"
