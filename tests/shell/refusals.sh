# The lines that are refused for each cause: tests/shell/run reads this by `.` and calls check_causes and check_page.

# refuse_third CAUSE LINE: this line as the third one, behind the header of one centre and one client, is refused for
# this cause. In the line `\` and three digits are a byte.
refuse_third() {
    printf 'centres 1 k 1\nclients 1\n%b\n' "$2" >"$room/in"
    refuse "$1: $2" 3 "$1"
}

# Each cause, with lines that are refused for it.
check_causes() {
    while IFS='|' read -r cause line; do
        refuse_third "$cause" "$line"
    done <<'END'
word|c1 begi
count|c1 begin now
number|c1 inc c.a 05
number|c1 inc c.a -0
range|c2 begin
range|down 0
range|c1 inc c.a 1000000000001
name|c1 inc C.a 5
kind|c1 inc s.a 5
place|clients 1
byte|c1 begin\0007
byte|c1 inc c.a\0001 5
word|c begin
word|cx begin
word|c1x begin
word|c1 lose it now
count|c1 lose
number|c12345678901234567890 begin
number|c01 begin
word|c01 jump 1 2
name|c1 put s.a K v
place|end
count|phase 1
range|prune 2
count|link 1
range|link 1 1 drop 0
range|link 1 1 cut 2
count|link 1 1 bend
count|end 1
word|link 1 1 lose 3
word|link 1 1 snap 2
range|c1 grant b.x 0
range|c1 grant b.x 1000000000001
range|c1 give b.x 1 5
range|c1 give b.x 2 5
range|c2 take b.x 1
range|c9 take B.x 0
number|c1 take b.x 01
count|c1 take b.x
name|c1 take c.x 1
name|c1 take B.x 0
name|c1 rights b.abcdefghijklmnopqrstuvwxyz
name|c1 inc c.bc_x_1_1 1
kind|c1 inc r.bc_x 1
count|tap 1
range|tap 2 c.a
name|tap 1 b.a
count|feed
range|feed 1
range|c1 tap 1 c.a
name|c1 tap 1 a
count|c1 tap 1
END
}

# page_causes: the causes that the table of docs/script.md has, each with the line that the page gives for it.
page_causes() {
    sed -n 's/^| `\([a-z]*\)` | [^|]* | `\([^`]*\)`[^|]*|$/\1|\2/p' "$root/docs/script.md"
}

# The table of causes in docs/script.md: each cause stands in it once, and its line is refused for it. It is the third
# line, but that the line for `many` stands behind 200,000 others, and the one for `long` has spaces behind it.
check_page() {
    page_causes >"$room/page"
    cut -d '|' -f 1 "$room/page" | tr '\n' ' ' >"$room/out"
    printf 'many long byte word count number range name kind place ' >"$room/wanted"
    same=no
    if cmp -s "$room/wanted" "$room/out"; then
        same=yes
    fi
    count 'the causes of docs/script.md' 0 0 "$same"
    while IFS='|' read -r cause line; do
        at=3
        {
            printf 'centres 1 k 1\nclients 1\n'
            case $cause in
            many)
                at=200001
                head -c 199998 /dev/zero | tr '\000' '\n'
                printf '%s\n' "$line"
                ;;
            long) printf '%-257s\n' "$line" ;;
            *) printf '%s\n' "$line" ;;
            esac
        } >"$room/in"
        refuse "docs/script.md: $cause" "$at" "$cause"
    done <"$room/page"
}
