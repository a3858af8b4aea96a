#!/usr/bin/env bash
# Runs the program over each tests/program/NAME.in, over files that are too large to keep, and with an input or an output that fails, and compares what
# it prints and what it says with what is expected. Needs gcc, for a read that fails in the middle.
set -euo pipefail
cd "$(dirname "$0")/.."

program=crates/zundrafipo/out/zundrafipo
[ -x "$program" ] || ./run >/dev/null
work=$(mktemp -d)
trap 'rm -rf "$work"' EXIT
passed=0
failed=0

# expect NAME INPUT EXPECTED
expect() {
    if "$program" <"$2" >"$work/printed" && cmp -s "$work/printed" "$3"; then
        passed=$((passed + 1))
    else
        failed=$((failed + 1))
        echo "$1: printed" >&2
        head -n 5 "$work/printed" >&2
        echo "$1: expected" >&2
        head -n 5 "$3" >&2
    fi
}

# fails NAME LINE: what was just printed is nothing, and what was said is LINE alone
fails() {
    if [ ! -s "$work/printed" ] && echo "$2" | cmp -s - "$work/said"; then
        passed=$((passed + 1))
    else
        failed=$((failed + 1))
        echo "$1: printed" >&2
        head -n 5 "$work/printed" >&2
        echo "$1: said" >&2
        head -n 5 "$work/said" >&2
        echo "$1: expected nothing to be printed, and to be said" >&2
        echo "$2" >&2
    fi
}

# bytes: numbers to bytes, through printf's octal escapes
bytes() {
    local escapes
    escapes=$(awk '{ for (i = 1; i <= NF; i++) printf "\\%03o", $i }')
    # the escapes are the format itself
    # shellcheck disable=SC2059
    printf "$escapes"
}

for input in tests/program/*.in; do
    expect "$(basename "$input" .in)" "$input" "${input%.in}.out"
done

# tiles LINES SHORTER: 256 times P1 with seven labels, initial state 1023, and 1,023 names of 32 bytes, the first SHORTER of them a byte shorter; with LINES the hop at place i
# has line 65535 - i, but 0 where i is divided by 5
tiles() {
    awk -v lines="$1" -v shorter="$2" '
    function number(n) { printf "%d %d ", n % 256, int(n / 256) }
    function hop(f, l, t) { number(f); number(l); number(t) }
    BEGIN {
        printf "%d ", lines ? 15 : 7; number(1024); number(1024); number(1023); number(4096)
        for (b = 0; b < 256; b++) {
            hop(4 * b, 0, 4 * b + 1)
            for (l = 1; l <= 7; l++) hop(4 * b, l, 4 * b + 2)
            for (l = 1; l <= 7; l++) hop(4 * b + 1, l, 4 * b + 3)
            hop(4 * b + 2, 0, 4 * b + 3)
        }
        for (n = 1; n <= 1023; n++) {
            length_of = n <= shorter ? 31 : 32
            printf "%d ", length_of
            number(n)
            for (i = 3; i <= length_of; i++) printf "255 "
        }
        if (lines) for (i = 0; i < 4096; i++) number(i % 5 == 0 ? 0 : 65535 - i)
    }' | bytes
}
# the report: the short hops are those of the states 4b + 1, whose first hop stands at place 16b + 8
tiles_report() {
    awk -v lines="$1" '
    function line(i) { return !lines || i % 5 == 0 ? 0 : 65535 - i }
    BEGIN {
        print "in 1024 4096"
        for (b = 0; b < 256; b++) { print "marked", 4 * b, 4 * b + 1; print "marked", 4 * b + 2, 4 * b + 3 }
        for (s = 0; s < 1024; s++) print "map", s, int(s / 2)
        print "out 512 1792 511"
        for (b = 0; b < 256; b++) for (l = 1; l <= 7; l++) print "hop", 2 * b, l, 2 * b + 1, line(16 * b + 7 + l)
    }'
}

# size NAME LENGTH: how many bytes $work/NAME.in has
size() {
    [ "$(wc -c <"$work/$1.in")" -eq "$2" ] || { echo "$1: not $2 bytes" >&2 && exit 1; }
}
echo "no 13 65536" >"$work/too_long.out"

# the longest legal file without lines
tiles "" 0 >"$work/without_lines.in"
tiles_report "" >"$work/without_lines.out"
size without_lines 58344
expect without_lines "$work/without_lines.in" "$work/without_lines.out"

# the longest file that the program takes, legal and so reduced
tiles 1 1000 >"$work/longest.in"
tiles_report 1 >"$work/longest.out"
size longest 65536
expect longest "$work/longest.in" "$work/longest.out"

# legal files that are longer: by one byte, and the longest, which the entry reads
tiles 1 999 >"$work/longer.in"
size longer 65537
expect longer "$work/longer.in" "$work/too_long.out"
tiles 1 0 >"$work/longest_legal.in"
size longest_legal 66536
expect longest_legal "$work/longest_legal.in" "$work/too_long.out"

# one byte more, whatever it is
{ cat "$work/longest.in"; printf '\000'; } >"$work/too_long.in"
expect too_long "$work/too_long.in" "$work/too_long.out"

# one byte less
head -c 65535 "$work/longest.in" >"$work/cut.in"
echo "no 11 65535" >"$work/cut.out"
expect cut "$work/cut.in" "$work/cut.out"

# 65,537 bytes are too many before anything else is asked, and 65,536 are not: high bits, and bytes left over
head -c 65537 /dev/zero | tr '\000' '\377' >"$work/high_bits_long.in"
expect high_bits_long "$work/high_bits_long.in" "$work/too_long.out"
head -c 65536 "$work/high_bits_long.in" >"$work/high_bits_full.in"
echo "no 12 0" >"$work/high_bits_full.out"
expect high_bits_full "$work/high_bits_full.in" "$work/high_bits_full.out"
head -c 65536 /dev/zero >"$work/left_over_full.in"
echo "no 13 5" >"$work/left_over_full.out"
expect left_over_full "$work/left_over_full.in" "$work/left_over_full.out"

# the longest report: no hop is silent, and all numbers are as long as can be
long_hops='
BEGIN {
    n = 0
    for (f = 1000; f < 1024; f++) for (l = 1000; l < 1024; l++) for (t = 1000; t < 1024 && n < 4096; t++) { from[n] = f; label[n] = l; to[n] = t; n++ }
    show()
}'
awk "$long_hops"'
function number(n) { printf "%d %d ", n % 256, int(n / 256) }
function show(i) {
    printf "10 "; number(1024); number(1024); number(n)
    for (i = 0; i < n; i++) { number(from[i]); number(label[i]); number(to[i]) }
    for (i = 0; i < n; i++) number(65535 - i)
}' | bytes >"$work/longest_report.in"
awk "$long_hops"'
function show(i) {
    print "in 1024", n
    for (i = 0; i < 1024; i++) print "map", i, i
    print "out 1024", n, 0
    for (i = 0; i < n; i++) print "hop", from[i], label[i], to[i], 65535 - i
}' >"$work/longest_report.out"
expect longest_report "$work/longest_report.in" "$work/longest_report.out"

# 4,097 hops
awk '
function number(n) { printf "%d %d ", n % 256, int(n / 256) }
BEGIN {
    printf "2 "; number(1024); number(5); number(4097)
    for (i = 0; i < 4097; i++) { number(int(i / 5)); number(i % 5); number(0) }
}' | bytes >"$work/hops_over.in"
echo "no 1 0" >"$work/hops_over.out"
expect hops_over "$work/hops_over.in" "$work/hops_over.out"

# the most marks: nine states at a time, a silent hop from each to each above it; each nine become one state
clusters='
BEGIN {
    n = 0
    for (s = 0; s < 1024; s++) for (t = s + 1; t < 1024 && int(t / 9) == int(s / 9); t++) { from[n] = s; to[n] = t; n++ }
    show()
}'
awk "$clusters"'
function number(n) { printf "%d %d ", n % 256, int(n / 256) }
function show(i) {
    printf "2 "; number(1024); number(1); number(n)
    for (i = 0; i < n; i++) { number(from[i]); number(0); number(to[i]) }
}' | bytes >"$work/all_marked.in"
awk "$clusters"'
function show(i) {
    print "in 1024", n
    for (i = 0; i < n; i++) print "marked", from[i], to[i]
    for (i = 0; i < 1024; i++) print "map", i, int(i / 9)
    print "out 114 0 0"
}' >"$work/all_marked.out"
expect all_marked "$work/all_marked.in" "$work/all_marked.out"

# an input that does not end
expect endless /dev/zero "$work/too_long.out"

# in_pieces FILE LENGTH: the first LENGTH bytes, and a moment later the others, so that a read takes fewer bytes than there are
in_pieces() {
    head -c "$2" "$1"
    sleep 0.2
    tail -c +"$(($2 + 1))" "$1"
}
expect p1_in_pieces <(in_pieces tests/program/p1.in 10) tests/program/p1.out
expect longest_in_pieces <(in_pieces "$work/longest.in" 30001) "$work/longest.out"
expect longer_in_pieces <(in_pieces "$work/longer.in" 65536) "$work/too_long.out"

# an input that cannot be read is no short file
unread="zundrafipo: standard input could not be read"
"$program" <tests >"$work/printed" 2>"$work/said"
fails folder "$unread"
"$program" <&- >"$work/printed" 2>"$work/said"
fails closed_input "$unread"
"$program" 0>"$work/written" >"$work/printed" 2>"$work/said"
fails input_open_for_writing "$unread"

# the second read of standard input fails: behind a whole file, and behind the front of one
cat >"$work/failing.c" <<'END'
#define _GNU_SOURCE
#include <errno.h>
#include <sys/syscall.h>
#include <unistd.h>

ssize_t read(int fd, void *buffer, size_t length) {
    static int reads;
    if (fd == 0 && ++reads == 2) {
        errno = EIO;
        return -1;
    }
    return syscall(SYS_read, fd, buffer, length);
}
END
gcc -shared -fPIC -O1 -Wall -Wextra -Werror -o "$work/failing.so" "$work/failing.c"
LD_PRELOAD="$work/failing.so" "$program" <tests/program/p1.in >"$work/printed" 2>"$work/said"
fails read_fails_at_the_end "$unread"
LD_PRELOAD="$work/failing.so" "$program" < <(in_pieces tests/program/p1.in 10) >"$work/printed" 2>"$work/said"
fails read_fails_in_the_middle "$unread"

# an output that cannot be written, or not whole
: >"$work/printed"
unwritten="zundrafipo: the report could not be written whole"
"$program" <tests/program/p1.in >/dev/full 2>"$work/said"
fails full_output "$unwritten"
"$program" <tests/program/p1.in >&- 2>"$work/said"
fails closed_output "$unwritten"
# a file may have 1,024 bytes, of which the report takes the last 24, so that its first write takes only a part
head -c 1000 /dev/zero >"$work/limited"
(
    trap '' XFSZ
    ulimit -f 1
    "$program" <tests/program/p1.in >>"$work/limited" 2>"$work/said"
)
fails cut_output "$unwritten"
tail -c +1001 "$work/limited" | cmp - <(head -c 24 tests/program/p1.out)

echo "program: $passed passed, $failed failed"
[ "$failed" -eq 0 ]
