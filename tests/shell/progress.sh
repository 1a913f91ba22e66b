# The checks of --quiet, and of what the program tells while a script is played: tests/shell/run reads this by `.` and
# calls check_quiet and check_progress.

# alike NAME INPUT WORD..: the words, with --quiet in front of them and behind them, write and end over the file INPUT as
# they do without it, and also say the same on standard error.
alike() {
    name=$1 input=$2
    shift 2
    timeout 60 "$program" "$@" <"$input" >"$room/plain" 2>"$room/plain_err"
    wanted=$?
    timeout 60 "$program" --quiet "$@" <"$input" >"$room/out" 2>"$room/err"
    status=$?
    count "--quiet in front: $name" "$status" "$wanted" "$(is_as_plain)"
    timeout 60 "$program" "$@" --quiet <"$input" >"$room/out" 2>"$room/err"
    status=$?
    count "--quiet behind: $name" "$status" "$wanted" "$(is_as_plain)"
}

# is_as_plain: yes where the output and standard error of the last run are those of the one without --quiet.
is_as_plain() {
    if cmp -s "$room/plain" "$room/out" && cmp -s "$room/plain_err" "$room/err"; then
        echo yes
    else
        echo no
    fi
}

# The word --quiet, first or last, changes no byte of the output and no status.
check_quiet() {
    first=$root/examples/first-path.script
    printf 'centres 1 k 1\nclients 1\nc1 begi\n' >"$room/bad"
    alike serial "$first" serial
    alike 'serial --trail' "$first" serial --trail
    alike run "$first" run
    alike 'run --trail' "$first" run --trail
    alike 'make 1' /dev/null make 1
    alike --help /dev/null --help
    alike --version /dev/null --version
    alike 'a script that is refused' "$room/bad" serial
    alike 'a directory as the input' "$root" serial
    alike 'a word of no form' /dev/null bogus
    alike 'a flag twice' /dev/null serial --trail --trail
    alike 'make without a number' /dev/null make
    alike 'no words' /dev/null
    check 'serial --quiet' 0 "${first%.script}.out" serial --quiet <"$first"
    check '--quiet run' 0 "${first%.script}.out" --quiet run <"$first"
    refuse_word '--quiet alone' --quiet
    refuse_word '--quiet twice' --quiet --quiet
    refuse_word '--quiet twice in front' --quiet --quiet serial
    refuse_word '--quiet twice behind' serial --quiet --quiet
    refuse_word '--quiet in front and behind' --quiet serial --quiet
    refuse_word '--quiet between' serial --quiet --trail
    refuse_word '--quiet before a number' make --quiet 1
    refuse_word '--quiet with a value' serial --quiet=true
    refuse_word 'a part of --quiet' serial --qui
    refuse_word 'quiet as a letter' serial -q
    refuse_word 'quiet as a word' quiet serial
    refuse_word '--quiet in upper case' serial --QUIET
    refuse_word '--quiet and a word that is no UTF-8' --quiet "$(printf 'serial\377')"
    check_out 'a full device with --quiet' 5 serial --quiet <"$first" >/dev/full
}

# shown WORD..: runs the words with a terminal as their standard error, over the input and the output of this call. What
# the terminal got goes to the file 'terminal', and the texts in it to the file 'shown', one a line.
shown() {
    timeout 60 "$root/tests/shell/on_terminal" "$room/terminal" "$program" "$@"
    status=$?
    tr '\r' '\n' <"$room/terminal" | grep -v '^ *$' >"$room/shown"
}

# counts_up: whether each line that was shown tells how many of all sections are done, these numbers grow, and there are
# lines.
counts_up() {
    awk -v all="$1" '
        $0 !~ "^swift_sim: [0-9]+ of " all " sections done$" || (NR > 1 && $2 + 0 <= before) { wrong = 1 }
        { before = $2 + 0 }
        END { exit wrong || NR == 0 }' "$room/shown"
}

# is_slow SECONDS: whether there are no more lines than ten a second, a first one at the beginning, and one for the part
# of a second in which the clock was read.
is_slow() {
    [ "$(wc -l <"$room/shown")" -le $((10 * ($1 + 1) + 1)) ]
}

# is_cleared: whether the last line was taken away from the terminal.
is_cleared() {
    [ "$(tail -c 1 "$room/terminal" | tr '\r' r)" = r ]
}

# as_wanted COMMAND..: yes where this holds, and else no.
as_wanted() {
    if "$@"; then
        echo yes
    else
        echo no
    fi
}

# tells NAME ALL TEXT WORD..: with a terminal the words over the file 'in', a script of so many sections, tell how far
# they are, and what they write is the file TEXT.
tells() {
    told=$1 all=$2 text=$3
    shift 3
    began=$(date +%s)
    shown "$@" <"$room/in" >"$room/out"
    took=$(($(date +%s) - began))
    count "progress, the lines: $told" "$status" 0 "$(as_wanted counts_up "$all")"
    count "progress, ten a second: $told" "$status" 0 "$(as_wanted is_slow "$took")"
    count "progress, cleared: $told" "$status" 0 "$(as_wanted is_cleared)"
    count "progress, the output: $told" "$status" 0 "$(as_wanted cmp -s "$text" "$room/out")"
}

# is_silent NAME WORD..: with a terminal the words over the file 'in' end well and tell nothing.
is_silent() {
    silent=$1
    shift
    shown "$@" <"$room/in" >"$room/out"
    count "no progress: $silent" "$status" 0 "$(as_wanted [ ! -s "$room/terminal" ])"
}

# On a terminal the program tells how far a script of more than 10,000 lines is, on standard error alone.
check_progress() {
    "$root/tests/shell/made_script" 7 >"$room/in"
    timeout 60 "$program" serial <"$room/in" >"$room/plain" 2>"$room/err"
    status=$?
    count 'progress without a terminal' "$status" 0 "$(as_wanted [ ! -s "$room/err" ])"
    check_out 'progress of run without a terminal' 0 run <"$room/in" >"$room/out"
    tells serial 407 "$room/plain" serial
    shown run <"$room/in" >"$room/out"
    count 'progress of run' "$status" 0 "$(as_wanted counts_up 407)"
    is_silent 'serial --quiet' serial --quiet
    is_silent '--quiet run' --quiet run
    cp "$root/examples/first-path.script" "$room/in"
    is_silent 'a short script' serial
    many_lines 10000 >"$room/in"
    is_silent '10,000 lines' serial
    check_progress_of_many
}

# One line more than those of which nothing is told; and what is said behind what was told.
check_progress_of_many() {
    many_lines 10001 >"$room/in"
    timeout 60 "$program" serial <"$room/in" >"$room/plain" 2>"$room/err"
    tells '10,001 lines' 9999 "$room/plain" serial
    shown serial <"$room/in" >/dev/full
    tail -n 1 "$room/shown" >"$room/last"
    printf 'swift_sim: standard output was not written: a write failed\n' >"$room/wanted"
    count 'a complaint behind progress' "$status" 5 "$(as_wanted cmp -s "$room/wanted" "$room/last")"
}
