# What is said on standard error of an input that is no script: tests/shell/run reads this by `.` and calls check_advice.

# said NAME: 'serial' refuses the input in the file 'in', and says on standard error what stands in the file 'wanted'.
said() {
    timeout 60 "$program" serial <"$room/in" >"$room/out" 2>"$room/err"
    status=$?
    same=no
    if cmp -s "$room/wanted" "$room/err"; then
        same=yes
    fi
    count "advice: $1" "$status" 3 "$same"
}

# advise TEXT SHOWN LINE..: of these lines the last is refused, and this is said of it, and then the line is shown so.
advise() {
    text=$1 shown=$2
    shift 2
    printf '%s\n' "$@" >"$room/in"
    printf 'swift_sim: line %s: %s\nswift_sim:     %s\n' "$#" "$text" "$shown" >"$room/wanted"
    said "$text"
}

# advise_two TEXT LINE..: of these lines behind a header of two centres and three clients the last is refused, and this is
# said of it.
advise_two() {
    text=$1
    shift
    for last in "$@"; do :; done
    advise "$text" "$last" 'centres 2 k 1' 'clients 3' "$@"
}

# advise_first TEXT LINE: this line is refused as the first, and this is said of it.
advise_first() {
    advise "$1" "$2" "$2"
}

# advise_end TEXT LINE..: the input ends too early behind these lines, and this is said.
advise_end() {
    text=$1
    shift
    : >"$room/in"
    [ $# -eq 0 ] || printf '%s\n' "$@" >"$room/in"
    printf 'swift_sim: line %s: %s\n' $(($# + 1)) "$text" >"$room/wanted"
    said "$text"
}

steps='connect, begin, inc, set, add, del, put, drop, read, grant, give, take, rights, commit, abort, push, flush, refresh, again, lose, twice or tap'
beginnings='centres, clients, cache, limit, threads, rounds, tap, down, up, ship, relay, tell, prune, feed, link, settle, phase or end'
faults="'link CENTRE OTHER drop NUMBER', 'link CENTRE OTHER twice NUMBER', 'link CENTRE OTHER hold NUMBER', 'link CENTRE OTHER cut NUMBER', 'link CENTRE OTHER bend NUMBER' or 'link CENTRE OTHER clean'"
a_name='1 to 32 bytes out of a to z, 0 to 9 and _'

check_advice_on_words() {
    advise_two "no step begins with 'conect'; did you mean 'connect'?" 'c1 conect 1'
    advise_two "no step begins with 'ad'; did you mean 'add'?" 'c1 ad s.cart milk'
    advise_two "no step begins with 'jump'; expected $steps" 'c1 jump'
    advise_two "no step begins with 'settle'; write it without the client" 'c1 settle'
    advise_two "no line begins with 'begin'; the client comes first, as in 'c1 begin'" 'begin'
    advise_two "no line begins with 'wait'; expected a client (c1, c2 ..), $beginnings" 'wait 5'
    advise_two "no line begins with 'C1'; expected a client (c1, c2 ..), $beginnings" 'C1 begin'
    advise_first "no line begins with 'center'; did you mean 'centres'?" 'center 2 k 1'
    advise_first "'K' may not stand here; expected k" 'centres 2 K 1'
    advise_two "'lose' may not stand here; expected drop, twice, hold, cut, bend or clean" 'link 1 2 lose 3'
    advise_two "'but' may not stand here; did you mean 'cut'?" 'link 1 2 but 3'
    advise_two "'replay' may not stand here; did you mean 'reply'?" 'c1 lose replay'
}

check_advice_on_counts() {
    advise_two "too few words; expected 'cN inc OBJECT DELTA'" 'c1 inc c.a'
    advise_two "too many words; expected 'cN begin'" 'c1 begin now'
    advise_two "too many words; expected 'cN connect CENTRE'; a comment stands in a line of its own" 'c1 connect 1 # the first'
    advise_two "too few words; expected 'ship CENTRE OTHER NUMBER' or 'ship CENTRE OTHER'" 'ship 1'
    advise_two "too few words; expected 'link CENTRE OTHER cut NUMBER'" 'link 1 2 cut'
    advise_two "too few words; expected $faults" 'link 1 2'
    advise_two "too few words; expected a step of the client: $steps" 'c1'
    advise_first "too few words; expected 'centres N k K'" 'centres'
}

check_advice_on_numbers() {
    advise_two "'05' is no number: a zero stands in front; expected a number from -1000000000000 to 1000000000000" 'c1 inc c.a 05'
    advise_two "'-0' is no number: 0 has no minus; expected a number from -1000000000000 to 1000000000000" 'c1 inc c.a -0'
    advise_two "'many' is no number; expected a number from 1 to 1000000" 'limit many'
    advise_two "'c01' is no client: a zero stands in front; this script has clients c1 to c3" 'c01 begin'
    advise_two "'one' is no number; this script has centres 1 to 2" 'down one'
    advise_two "'12345678901234567890' is no number: it has more than 19 digits; expected a number from 0 to 1000" \
        'rounds 12345678901234567890'
    advise_two "'c9' is no client of this script; it has clients c1 to c3" 'c9 begin'
    advise_two "'3' is no centre of this script; it has centres 1 to 2" 'down 3'
    advise_two "'1' is named twice; expected another centre than 1, and this script has centres 1 to 2" 'ship 1 1'
    advise "'1' is named twice; expected another centre than 1 and 2, and this script has centres 1 to 3" 'relay 1 2 1' \
        'centres 3 k 1' 'clients 1' 'relay 1 2 1'
    advise "'c2' is no client of this script; it has client c1 alone" 'c2 begin' 'centres 1 k 1' 'clients 1' 'c2 begin'
    advise "'1' is named twice; expected another centre than 1, and this script has centre 1 alone" 'tell 1 1' \
        'centres 1 k 1' 'clients 1' 'tell 1 1'
    advise_first "'3' is out of range; expected a number from 1 to 2, the number of centres" 'centres 2 k 3'
    advise_first "'9' is out of range; expected a number from 1 to 8" 'centres 9 k 1'
    advise "'2000' is out of range; expected a number from 1 to 1024" 'clients 2000' 'centres 1 k 1' 'clients 2000'
    advise_two "'0' is out of range; expected a number from 1 to 4611686018427387904" 'c1 again 1 0'
}

check_advice_on_names() {
    advise_two "'Cart' is no object; expected c.NAME, r.NAME, s.NAME or m.NAME, with a NAME of $a_name" 'c1 read Cart'
    advise_two "'Milk' is no key; expected $a_name" 'c1 put m.cart Milk two'
    advise_two "'two-litres' is no name; expected $a_name" 'c1 put m.cart milk two-litres'
    advise_two "'s.cart' is a set, and inc is for counters (c.NAME); a set is changed by add and del" 'c1 inc s.cart 1'
    advise_two "'c.visits' is a counter, and put is for maps (m.NAME); a counter is changed by inc" 'c1 put c.visits ann two'
}

check_advice_on_bounded_counters() {
    holders='a bounded counter is held by clients c1 to c3'
    amount='expected a number from 1 to 1000000000000'
    bounded='expected b.NAME, with a NAME of 1 to 25 bytes out of a to z, 0 to 9 and _'
    advise_two "too few words; expected 'cN give b.NAME HOLDER AMOUNT'" 'c1 give b.x 2'
    advise_two "no step begins with 'grand'; did you mean 'grant'?" 'c1 grand b.x 2'
    advise_two "'0' is out of range; $amount" 'c1 take b.x 0'
    advise_two "'1000000000001' is out of range; $amount" 'c1 grant b.x 1000000000001'
    advise_two "'c4' is no holder; $holders" 'c4 take b.x 1'
    advise_two "'4' is no holder; $holders" 'c1 give b.x 4 1'
    advise_two "'2' is c2 itself; expected another holder, and $holders" 'c2 give b.x 2 1'
    advise_two "'c.x' is no bounded counter; $bounded" 'c1 rights c.x'
    advise_two "'b.abcdefghijklmnopqrstuvwxyz' is no bounded counter; $bounded" 'c1 rights b.abcdefghijklmnopqrstuvwxyz'
    advise_two "'c.bc_x_1_1' may be a cell of a bounded counter; expected a counter whose name does not begin with bc_" \
        'c1 inc c.bc_x_1_1 1'
    advise "'c9' is no holder; a bounded counter is held by clients c1 to c8" 'c9 rights b.x' \
        'centres 1 k 1' 'clients 12' 'c9 rights b.x'
    advise "'1' is c1 itself; expected another holder, and a bounded counter is held by client c1 alone" 'c1 give b.x 1 1' \
        'centres 1 k 1' 'clients 1' 'c1 give b.x 1 1'
}

check_advice_on_taps() {
    advise_two "too few words; expected 'tap CENTRE OBJECT'" 'tap 1'
    advise_two "too few words; expected 'cN tap CENTRE OBJECT'" 'c1 tap 1'
    advise_two "no step begins with 'feed'; write it without the client" 'c1 feed 1'
    advise_two "centre 2 has no tap; it has one by a line 'tap 2 OBJECT' before all steps" 'tap 1 c.a' 'feed 2'
    advise_two "no tap of centre 1 shows c.b; one does by a line 'tap 1 c.b' before all steps" 'tap 1 c.a' 'c1 tap 1 c.b'
    advise_two "no tap of centre 2 shows c.a; one does by a line 'tap 2 c.a' before all steps" 'tap 1 c.a' 'phase' 'c1 tap 2 c.a'
    advise "a tap may not stand before the header is complete; expected 'clients NUMBER'" 'tap 1 c.a' 'centres 1 k 1' 'tap 1 c.a'
    advise_two "the tap of centre 1 shows c.a already; a script says so once" 'tap 1 c.a' 'tap 2 c.a' 'tap 1 c.a'
    advise_two "a script has at most 8 lines 'tap', and this is one more" \
        'tap 1 c.a' 'tap 1 r.a' 'tap 1 s.a' 'tap 1 m.a' 'tap 2 c.a' 'tap 2 r.a' 'tap 2 s.a' 'tap 2 m.a' 'tap 1 c.b'
    advise_two "'tap' comes too late; taps stand before all steps and phases" 'c1 begin' 'tap 1 c.a'
    advise_two "'tap' comes too late; taps stand before all steps and phases" 'phase' 'tap 1 c.a'
    advise_two "centre 2 has no tap; it has one by a line 'tap 2 OBJECT' before all steps" 'tap 1 c.a' 'phase' 'feed 2'
}

check_advice_on_places() {
    advise "a step may not stand before the header is complete; expected 'clients NUMBER'" 'c1 begin' \
        'centres 1 k 1' '' 'c1 begin'
    advise_first "a step may not stand before the header is complete; expected 'centres N k K'" 'down 1'
    advise_first "a phase may not stand before the header is complete; expected 'centres N k K'" 'phase'
    advise "a setting may not stand before the header is complete; expected 'clients NUMBER'" 'cache 5' 'centres 1 k 1' 'cache 5'
    advise_first "the line 'clients' comes second; expected 'centres N k K' first" 'clients 1'
    advise_two "a script has the line 'clients' once" 'c1 begin' 'clients 3'
    advise_two "a script has the line 'centres' once" 'centres 2 k 1'
    advise_two "'cache' comes too late; settings stand before all steps and phases" 'c1 begin' 'cache 5'
    advise_two "'rounds' comes too late; settings stand before all steps and phases" 'phase' 'rounds 5'
    advise_two "'limit' is set already; a script sets it once" 'limit 5' 'cache 5' 'limit 6'
    advise_two "'settle' may not stand in a phase; expected 'end' for the 'phase' of line 6 first" \
        'phase' 'end' '# another' 'phase' 'c1 begin' 'settle'
    advise_two "'phase' may not stand in a phase; expected 'end' for the 'phase' of line 3 first" 'phase' 'phase'
    advise_two "no phase is open; 'end' belongs to a 'phase' before it" 'phase' 'end' 'end'
    advise_end "the input ends in a phase; expected 'end' for the 'phase' of line 3" 'centres 1 k 1' 'clients 1' 'phase' 'c1 begin'
    advise_end "the input ends before its header is complete; expected 'centres N k K'"
    advise_end "the input ends before its header is complete; expected 'clients NUMBER'" 'centres 1 k 1' ''
}

# so_many COUNT LETTER: so many of the letter.
so_many() {
    head -c "$1" /dev/zero | tr '\000' "$2"
}

# The line at fault is shown in printable ASCII, and only its first 72 bytes, and so is a word in it.
check_advice_on_bytes() {
    advise 'byte 18 is 0xc3; but for comments, a line has tabs and printable ASCII alone' 'c1 add s.menu caf\xc3\xa9' \
        'centres 1 k 1' 'clients 1' "$(printf 'c1 add s.menu caf\303\251')"
    advise "no step begins with 'jump'; expected $steps" 'c1\x09jump' \
        'centres 1 k 1' 'clients 1' "$(printf 'c1\tjump')"
    advise "no step begins with 'jump'; expected $steps" 'c1 jump' \
        'centres 1 k 1' 'clients 1' "$(printf 'c1 jump\r')"
    advise 'the line has 300 bytes, and a line has at most 256' "$(so_many 72 x)..." \
        'centres 1 k 1' 'clients 1' "$(so_many 300 x)"
    advise "'$(so_many 72 a)...' is no name; expected $a_name" "c1 set r.note $(so_many 58 a)..." \
        'centres 1 k 1' 'clients 1' "c1 set r.note $(so_many 73 a)"
    so_many 257 x >"$room/in"
    printf 'swift_sim: line 1: the line has at least 257 bytes, and a line has at most 256\nswift_sim:     %s...\n' \
        "$(so_many 72 x)" >"$room/wanted"
    said 'a line of 257 bytes without a line feed'
    so_many 200001 '\n' >"$room/in"
    printf 'swift_sim: line 200001: a script has at most 200000 lines, and this is one more\n' >"$room/wanted"
    said '200,001 line feeds'
}

check_advice() {
    check_advice_on_words
    check_advice_on_counts
    check_advice_on_numbers
    check_advice_on_names
    check_advice_on_bounded_counters
    check_advice_on_taps
    check_advice_on_places
    check_advice_on_bytes
}
