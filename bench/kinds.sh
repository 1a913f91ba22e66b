# The kinds of scripts that instructions.sh and reading.sh count: each reads them by `.`.

# aborts COUNT: a script of so many transactions of one change that are given up.
aborts() {
    awk -v count="$1" 'BEGIN {
        print "centres 1 k 1\nclients 1"
        for (number = 1; number <= count; number++) print "c1 begin\nc1 inc c.total 1\nc1 abort"
        print "c1 read r.end"
    }'
}

# blocks COUNT: a script of so many transactions that read, and that are sent before a new snapshot.
blocks() {
    awk -v count="$1" 'BEGIN {
        print "centres 1 k 1\nclients 1\nc1 connect 1"
        for (number = 1; number <= count; number++)
            print "c1 begin\nc1 inc c.total 1\nc1 read c.total\nc1 commit\nc1 push\nc1 refresh"
        print "c1 read r.end"
    }'
}

# mixed COUNT: a script of two centres and two clients with so many lines in no order: changes and reads of objects of
# all kinds, steps of sessions, lost asks, centres that stop, shipments, tells, prunes, comments and lines without words.
mixed() {
    awk -v count="$1" '
        # A number from 1 to MOST, the next of a fixed row of them.
        function any(most) {
            seed = (seed * 16807) % 2147483647
            return int(seed / 2147483647 * most) + 1
        }
        function one_of(words, list) {
            return list[any(split(words, list, ","))]
        }
        function change() {
            return one_of("inc c.,set r.,add s.,del s.,put m.,drop m.") one_of("a,b,c")
        }
        function completed(line) {
            if (line ~ /^inc/) return line " " one_of("1,-1,7,1000000000000")
            if (line ~ /^put/) return line " k" any(3) " w" any(4)
            if (line ~ /^drop/) return line " k" any(3)
            return line " w" any(4)
        }
        # A step of a client.
        function step(at) {
            at = any(150)
            if (at <= 39) return completed(change())
            if (at <= 77) return "read " one_of("c.,r.,s.,m.") one_of("a,b,c")
            if (at <= 92) return "begin"
            if (at <= 107) return "commit"
            if (at <= 125) return one_of("push,push,push,flush")
            if (at <= 136) return "refresh"
            if (at <= 140) return "connect " any(2)
            if (at <= 147) return one_of("lose ask,lose reply,twice")
            return one_of("abort,again " any(2) " " any(9))
        }
        # A step of the operator.
        function operated(from, at) {
            from = any(2)
            at = any(205)
            if (at <= 97) return "ship " from " " 3 - from (at <= 40 ? " " any(9) : "")
            if (at <= 168) return "tell " from " " 3 - from
            if (at <= 185) return "prune " from
            return (at <= 188 ? "down " : "up ") from
        }
        BEGIN {
            seed = 7
            print "centres 2 k 2\nclients 2\nc1 connect 1\nc2 connect 2"
            for (number = 1; number <= count; number++)
                print any(50) == 1 ? one_of("# a comment,,  # another,\t") : any(2) == 1 ? "c" any(2) " " step() : operated()
            print "up 1\nup 2\nc1 abort\nc1 connect 1\nsettle\nc1 refresh\nc1 read r.end"
        }'
}
