# The checks of ./swift_sim, the script at the top: tests/shell/run reads this by `.` and calls
# check_wrapper. They run a copy of it in a small repository, with a command rt of their own that makes
# small programs.

repo=$room/repo

# make_repository: the copy, two crates, and the command rt, which notes its calls in the file 'calls'.
# Under try it does as the true one does: it makes a program in a folder of its own below TMPDIR, and
# removes it when it is ended. Where there is a file 'refuses', it refuses the crate that this names, and where there is a
# file 'slow', it takes two seconds.
make_repository() {
    mkdir -p "$repo/bin" "$repo/tools" "$repo/crates/low/src" "$repo/crates/swift_sim/src" \
        "$repo/crates/swift_sim/specs"
    mkdir "$repo/docs"
    cp "$root/docs/help.txt" "$repo/docs/help.txt"
    cp "$root/swift_sim" "$repo/swift_sim"
    echo '# the crates
swift_sim: low
low:' >"$repo/crates.txt"
    : >"$repo/crates/low/src/lib.rt"
    : >"$repo/crates/swift_sim/src/main.rt"
    : >"$repo/crates/swift_sim/specs/Lib.antt"
    cat >"$repo/bin/program" <<'END'
#!/bin/sh
if [ $# -eq 0 ]; then
    echo 'usage: swift_sim of a check'
    exit 2
fi
echo "KIND $*"
cat
echo 'a complaint' >&2
exit 7
END
    cat >"$repo/bin/rt" <<'END'
#!/bin/sh
top=$(dirname "$(dirname "$0")")
crate=$(basename "$PWD")
echo "$crate $*" >>"$top/calls"
if [ "$(cat "$top/refuses" 2>/dev/null)" = "$crate" ]; then
    echo "$crate is refused"
    echo "$crate is refused so" >&2
    exit 1
fi
make() {
    sed "s/KIND/$1/" "$top/bin/program" >"$2"
    chmod +x "$2"
}
case $1 in
try)
    trap 'kill "$!"; rm -rf "$TMPDIR/rt-try"; exit 143' TERM
    mkdir "$TMPDIR/rt-try"
    [ ! -e "$top/slow" ] || sleep 2
    make unproved "$TMPDIR/rt-try/program"
    sleep 30 &
    wait
    ;;
run)
    make proved out/swift_sim
    out/swift_sim
    ;;
esac
END
    chmod +x "$repo/bin/rt"
    for tool in awk cat dirname find head mkdir mktemp mv ln readlink rm sleep tail touch wc; do
        ln -s "$(command -v "$tool")" "$repo/tools/$tool"
    done
    settle
}

# settle: all sources are old, and rt was not called.
settle() {
    find "$repo/crates.txt" "$repo"/crates/*/src "$repo"/crates/*/specs -exec touch -d '1 hour ago' {} +
    : >"$repo/calls"
}

# wrapped WORD..: runs the copy over three bytes. What it writes goes to the files 'out' and 'err'.
wrapped() {
    printf 'a\nb' | PATH=$repo/bin:$PATH timeout 60 "$repo/swift_sim" "$@" >"$room/out" 2>"$room/err"
    status=$?
}

# is_said TEXT..: whether each text stands in what was written to standard error.
is_said() {
    for text in "$@"; do
        grep -qF -- "$text" "$room/err" || return 1
    done
}

# is_played KIND SAID: whether the program of this kind was run on the three bytes, and ./swift_sim said
# so many lines beside the program's one.
is_played() {
    printf '%s serial x\na\nb' "$1" >"$room/wanted"
    cmp -s "$room/wanted" "$room/out" && is_said 'a complaint' && [ "$(wc -l <"$room/err")" = $(($2 + 1)) ]
}

# is_called CALL..: whether these are the calls of rt.
is_called() {
    printf '%s\n' "$@" >"$room/wanted"
    if [ $# -eq 0 ]; then
        : >"$room/wanted"
    fi
    cmp -s "$room/wanted" "$repo/calls"
}

# also NAME WANTED-STATUS COMMAND..: counts a check of the last run: the status, and that this holds.
also() {
    name=$1 wanted=$2
    shift 2
    same=no
    if "$@"; then
        same=yes
    fi
    count "wrapper: $name" "$status" "$wanted" "$same"
}

# has_no_output TEXT..: whether these were said, and nothing else written.
has_no_output() {
    [ ! -s "$room/out" ] && is_said "$@"
}

# has_help TEXT..: whether these were written, and nothing said.
has_help() {
    [ ! -s "$room/err" ] || return 1
    for text in "$@"; do
        grep -qF -- "$text" "$room/out" || return 1
    done
}

check_wrapper_help() {
    wrapped --help
    also 'help' 0 has_help 'swift_sim serial --trail < SCRIPT' './swift_sim --prove' 'Status 1' \
        'docs/script.md' 'logic dac8208d650f15bf'
    also 'help makes nothing' 0 is_called
    printf 'a\nb' | PATH=$repo/tools /bin/sh "$repo/swift_sim" serial x >"$room/out" 2>"$room/err"
    status=$?
    also 'no toolchain' 1 has_no_output 'logic dac8208d650f15bf' './swift_sim --help'
}

check_wrapper_unproved() {
    wrapped serial x
    also 'a first run' 7 is_played unproved 1
    also 'what it says' 7 is_said 'no proved program is built' './swift_sim --prove'
    also 'it compiles' 7 is_called 'swift_sim try -- serial'
    touch "$repo/crates/swift_sim/specs/Lib.antt"
    wrapped serial x
    also 'a second run' 7 is_played unproved 1
    also 'it compiles nothing' 7 is_called 'swift_sim try -- serial'
    touch -d 'next hour' "$repo/crates/low/src/lib.rt"
    wrapped serial x
    also 'a run after an edit' 7 is_played unproved 1
    also 'it compiles anew' 7 is_called 'swift_sim try -- serial' 'swift_sim try -- serial'
    : >"$repo/slow"
    printf 'a\nb' | PATH=$repo/bin:$PATH timeout 60 "$root/tests/shell/on_terminal" "$room/terminal" \
        "$repo/swift_sim" serial x >"$room/out"
    status=$?
    rm "$repo/slow"
    also 'it tells the seconds' 7 grep -qF 'swift_sim: compiling, 1 s' "$room/terminal"
    echo swift_sim >"$repo/refuses"
    wrapped serial x
    also 'a program that is refused' 1 has_no_output 'swift_sim is refused so' 'was not compiled'
    rm "$repo/refuses"
    settle
    wrapped --prove serial
    also '--prove with more words' 7 is_called
}

check_wrapper_proved() {
    echo low >"$repo/refuses"
    wrapped --prove
    also 'a crate that is refused' 1 has_no_output 'proving 1 of 2: low' 'low is refused' 'low is not proved'
    rm "$repo/refuses"
    settle
    wrapped --prove
    also '--prove' 0 has_no_output 'proving 1 of 2: low' 'proving 2 of 2: swift_sim' 'proved and built'
    also 'its order' 0 is_called 'low lib' 'swift_sim run'
    wrapped serial x
    also 'a proved run' 7 is_played proved 0
    touch -d 'next hour' "$repo/crates/swift_sim/specs/Lib.antt"
    wrapped serial x
    also 'a run after an edit of a definition' 7 is_played unproved 1
    also 'what it says then' 7 is_said 'crates/swift_sim/specs/Lib.antt is newer' './swift_sim --prove'
    also 'it calls rt no more' 7 is_called 'low lib' 'swift_sim run'
}

check_wrapper() {
    make_repository
    check_wrapper_help
    check_wrapper_unproved
    check_wrapper_proved
    find "$repo/crates/swift_sim/out" -name 'room.*' >"$room/left"
    status=0
    also 'nothing is left' 0 [ ! -s "$room/left" ]
}
