# Phases where few threads can be started, or none: tests/shell/run reads this by `.` and calls check_threads.

# busy_script: eight centres and 16 clients, of which the first eight push in a phase, each at a centre of its own, and
# the others behind it. There are too few rounds for a prune, so what is printed does not hang on the order in which the
# threads of the phase go on.
busy_script() {
    awk 'BEGIN {
        print "centres 8 k 2\nclients 16\nthreads 16\nrounds 7"
        for (client = 1; client <= 16; client++) print "c" client " connect " (client - 1) % 8 + 1
        print "link 1 2 drop 2\nlink 2 3 twice 1\nlink 3 4 hold 2\nlink 4 5 cut 2\nlink 5 6 bend 3\nphase"
        for (client = 1; client <= 16; client++) {
            print "c" client " begin\nc" client " inc c.a " client "\nc" client " add s.a w" client % 3
            print "c" client " commit"
            if (client <= 8) print "c" client " push"
        }
        print "end"
        for (client = 9; client <= 16; client++) print "c" client " push"
        print "settle"
        for (client = 1; client <= 16; client++) {
            print "c" client " refresh\nc" client " read c.a\nc" client " read s.a"
        }
    }'
}

# busy_text: what it prints.
busy_text() {
    awk 'BEGIN {
        for (client = 1; client <= 16; client++) print "c" client " at " (client - 1) % 8 + 1
        for (client = 1; client <= 16; client++) {
            print "c" client " commit 1"
            if (client <= 8) print "c" client " push 1 stamp " client ":1"
        }
        for (client = 9; client <= 16; client++) print "c" client " push 1 stamp " client - 8 ":2"
        for (client = 1; client <= 16; client++) {
            print "c" client " sees 2,2,2,2,2,2,2,2 own 1\nc" client " read c.a 136"
            print "c" client " read s.a {w0 w1 w2}"
        }
    }'
}

# check_few MOST: the script prints the same where the program has at most so many threads. Where the machine does not
# bound them, that is said, and counts as passed.
check_few() {
    timeout 60 "$root/tests/shell/limited" "$1" "$room/copy" run <"$room/in" >"$room/out" 2>"$room/err"
    status=$?
    if [ "$status" -eq 77 ]; then
        echo "skipped: a run with at most $1 threads: $(cat "$room/err")"
        passed=$((passed + 1))
        return
    fi
    same=no
    if cmp -s "$room/wanted" "$room/out" && suits 0; then
        same=yes
    fi
    count "a run with at most $1 threads" "$status" 0 "$same"
}

# With all 49 threads of the phase, with the first one alone, and with some.
check_threads() {
    busy_script >"$room/in"
    busy_text >"$room/wanted"
    check 'a run with all threads' 0 "$room/wanted" run <"$room/in"
    # A copy that anybody may execute.
    cp "$program" "$room/copy" && chmod 755 "$room/copy"
    for most in 1 2 5 17; do
        check_few "$most"
    done
}
