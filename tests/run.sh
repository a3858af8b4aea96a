#!/usr/bin/env bash
# Runs ./run: what it prints, what it says and its exit status. In copies of the repository, with a
# stand-in for rt, when it has the program proved, and what it says and does meanwhile. It needs
# python3, for a terminal.
set -euo pipefail
cd "$(dirname "$0")/.."

work=$(mktemp -d)
trap 'rm -rf "$work"' EXIT
passed=0
failed=0

: >"$work/nothing"

# hold NAME COMMAND..: COMMAND must be true
hold() {
    local name=$1
    shift
    if "$@"; then
        passed=$((passed + 1))
    else
        failed=$((failed + 1))
        echo "$name: not so: $*" >&2
    fi
}

# await FILE TEXT: until FILE has TEXT, which is soon
await() {
    local tries
    for ((tries = 0; tries < 300; tries++)); do
        if grep -qsF -- "$2" "$1"; then return; fi
        sleep 0.1
    done
    echo "run: waited in vain for '$2' in $1" >&2
    return 1
}

# try COMMAND..: keeps the status, what is printed and what is said
try() {
    status=0
    "$@" >"$work/printed" 2>"$work/said" || status=$?
}

# check NAME STATUS PRINTED SAID: what the last command left. PRINTED is a file, SAID a pattern for all that was said
check() {
    # SAID is a pattern
    # shellcheck disable=SC2053
    if [ "$status" -eq "$2" ] && cmp -s "$work/printed" "$3" && [[ $(cat "$work/said") == $4 ]]; then
        passed=$((passed + 1))
    else
        failed=$((failed + 1))
        echo "$1: status $status, expected $2; printed" >&2
        head -n 5 "$work/printed" >&2
        echo "$1: said" >&2
        head -n 5 "$work/said" >&2
        echo "$1: expected to be said: $4" >&2
    fi
}

# proves it where that was not done yet
./run >/dev/null
here=$PWD
p1=tests/program/p1
# the temporary files are gone in the end
mkdir "$work/tmp"
export TMPDIR="$work/tmp"

# a report is 0, a refusal 1
try ./run
check without_file 0 "$p1.out" ""
try ./run $p1.in
check report 0 "$p1.out" ""
try ./run tests/program/empty.in
check refusal 1 tests/program/empty.out ""
try ./run - <$p1.in
check standard_input 0 "$p1.out" ""
cd tests/program
try ../../run p1.in
cd "$here"
check file_beside_the_caller 0 "$p1.out" ""
cd /
try "$here/run"
cd "$here"
check without_file_elsewhere 0 "$p1.out" ""
ln -s "$here/run" "$work/linked"
try "$work/linked" $p1.in
check through_a_link 0 "$p1.out" ""

# the help, and words that are not understood
try ./run --help
cp "$work/printed" "$work/help"
check help 0 "$work/help" ""
try grep -q '^usage: ./run \[FILE\]$' "$work/help"
check help_says_the_usage 0 "$work/nothing" ""
try ./run -h
check short_help 0 "$work/help" ""
hold help_within_80_columns test -z "$(awk 'length > 80' "$work/help")"
for word in --version '^  130 ' ' 143 ' '^  141 ' '(Ctrl-C)' 'goes on from there' 'NAMES are the crates that ended last' 'waits for it' '.aut'; do
    hold "help_names $word" grep -q -e "$word" "$work/help"
done
version=$(sed -n 's/^version = //p' rust/Cargo.toml | tr -d '"')
echo "zundrafipo $version" >"$work/version"
try ./run --version
check version 0 "$work/version" ""
try ./run --version --help
check two_options 2 "$work/nothing" "run: one FILE at the most*"

# how long a first run takes stands once in the script, and in README's table
first_run=$(sed -n "s/^first_run='\(.*\)'$/\1/p" run)
hold first_run_stands_once test "$(grep -c minutes run)" -eq 1
hold first_run_in_the_help grep -qF -- "$first_run" "$work/help"
hold first_run_in_the_readme grep -qF -- "| $first_run once" <(grep -F './run [FILE]' README.md)
try ./run --proved
check unknown_option 2 "$work/nothing" "run: --proved is no option*"
try ./run $p1.in $p1.in
check two_files 2 "$work/nothing" "run: one FILE at the most*"

# an input that cannot be read
try ./run "$work/missing"
check missing_file 2 "$work/nothing" "run: $work/missing cannot be opened: no such file or directory"
try ./run ""
check empty_name 2 "$work/nothing" "run:  cannot be opened: no such file or directory"
try ./run $p1.in/missing
check file_below_a_file 2 "$work/nothing" "run: $p1.in/missing cannot be opened: not a directory"
cp $p1.in "$work/locked"
chmod 000 "$work/locked"
# root may read everything
if [ ! -r "$work/locked" ]; then
    try ./run "$work/locked"
    check locked_file 2 "$work/nothing" "run: $work/locked cannot be opened: permission denied"
fi
try ./run tests
check folder 2 "$work/nothing" "run: tests is a folder"
try ./run - <tests
check folder_as_standard_input 2 "$work/nothing" "run: standard input is a folder"
try ./run /proc/self/mem
check read_fails 2 "$work/nothing" "run: /proc/self/mem cannot be read: input/output error"
try ./run - <&-
check closed_standard_input 2 "$work/nothing" "run: standard input is closed"
try ./run <&-
check without_file_or_standard_input 0 "$p1.out" ""

without_tmp() { TMPDIR="$work/missing" ./run $p1.in; }
try without_tmp
check without_tmp 2 "$work/nothing" "*run: no temporary file can be made"

# a pipe, and inputs of all lengths: the bytes arrive as they are
try ./run - < <(cat $p1.in)
check pipe 0 "$p1.out" ""
try ./run <(cat $p1.in)
check pipe_as_file 0 "$p1.out" ""
echo "no 13 65536" >"$work/too_long"
echo "no 13 5" >"$work/left_over"
try ./run - </dev/zero
check endless 1 "$work/too_long" ""
try ./run - < <(head -c 65537 /dev/zero)
check too_long 1 "$work/too_long" ""
try ./run - < <(head -c 65536 /dev/zero)
check as_long_as_can_be 1 "$work/left_over" ""

# a text is refused as before, and a line says what is read; the files of tests/program are no texts
text() { echo "run: $1 is a text; the program reads binary files (docs/REFERENCE.md, 'The file'), and .aut texts are to come"; }
echo "no 12 0" >"$work/no_map_byte"
printf 'des (0, 1, 2)\n(0, "i", 1)\n' >"$work/p.aut"
try ./run "$work/p.aut"
check aut 1 "$work/no_map_byte" "$(text "$work/p.aut")"
try ./run - <"$work/p.aut"
check aut_as_standard_input 1 "$work/no_map_byte" "$(text "standard input")"
try ./run - < <(cat "$work/p.aut")
check aut_from_a_pipe 1 "$work/no_map_byte" "$(text "standard input")"
try ./run - < <(printf 'des (0, 1, 2)\n(0, "\317\204\000", 1)\n')
check aut_with_other_bytes 1 "$work/no_map_byte" "$(text "standard input")"
try ./run - < <(printf 'a text\tof two\r\nlines')
check any_text 1 "$work/no_map_byte" "$(text "standard input")"
try ./run - < <(printf 'de')
check short_text 1 "$work/no_map_byte" "$(text "standard input")"
try ./run - < <(yes | head -c 100000)
check long_text 1 "$work/too_long" "$(text "standard input")"
try ./run - < <(printf 'a text\000')
check text_with_a_zero 1 "$work/no_map_byte" ""
try ./run - < <(printf 'a text \317\204')
check text_with_high_bytes 1 "$work/no_map_byte" ""
for input in tests/program/*.in; do
    expected=$(grep -c '^no ' "${input%.in}.out" || true)
    try ./run "$input"
    check "$input" "$expected" "${input%.in}.out" ""
done

# an output that cannot be written; what was printed is lost, so only what is said is compared
unwritten="run: the report could not be written whole"
into_full() { "$@" >/dev/full; }
into_closed() { "$@" >&-; }
try into_full ./run $p1.in
check full_output 2 "$work/nothing" "$unwritten"
try into_full ./run tests/program/empty.in
check full_output_for_a_refusal 2 "$work/nothing" "$unwritten"
try into_full ./run --help
check full_output_for_the_help 2 "$work/nothing" "run: the help could not be written whole"
try into_closed ./run $p1.in
check closed_output 2 "$work/nothing" "$unwritten"
# a reader who goes away: whatever the status, nothing is said
first_line() { ./run $p1.in | head -n 1; }
no_line() { ./run $p1.in | true; }
try first_line
status=0
check first_line 0 <(head -n 1 "$p1.out") ""
try no_line
status=0
check no_line 0 "$work/nothing" ""
# a report that no pipe holds, so that the reader has gone away for sure; a caller may have it that
# this is a failure like others
own_signals="--default-signal=HUP,INT,PIPE"
python3 - >"$work/large" <<'END'
import struct, sys
hops = [(a, b, c) for a in range(1000, 1024) for b in range(1000, 1024) for c in range(1000, 1024)][:4096]
sys.stdout.buffer.write(struct.pack("<BHHH", 2, 1024, 1024, len(hops)) + b"".join(struct.pack("<HHH", *hop) for hop in hops))
END
gone() {
    env "$@" ./run "$work/large" | head -n 1
    return "${PIPESTATUS[0]}"
}
echo "in 1024 4096" >"$work/first"
try gone $own_signals
check reader_gone 141 "$work/first" ""
try gone --ignore-signal=PIPE
check reader_gone_and_ignored 2 "$work/first" "$unwritten"

# too little stack
little_stack() (
    ulimit -s 300
    ./run $p1.in
)
try little_stack
check little_stack 2 "$work/nothing" "run: signal 11 ended the program; it needs 512 KiB of stack (ulimit -s)"

# A copy, in a folder with spaces, and an rt that has the program as this one has proved it
copy="$work/a copy of it"
mkdir -p "$copy/docs" "$copy/tests" "$copy/rust" "$work/bin" "$work/bare"
tar --exclude='crates/*/out' -cf - run crates crates.txt | tar -C "$copy" -xf -
sed 's/^version = .*/version = "98.7.6"/' rust/Cargo.toml >"$copy/rust/Cargo.toml"
cat >"$work/bin/rt" <<END
#!/bin/sh
echo "\$*" >>"$work/calls"
[ ! -e "$work/refuse" ] || { echo "a hole is left"; exit 1; }
work="$work" program="$here/crates/zundrafipo/out/zundrafipo"
[ ! -e "$work/meanwhile" ] || . "$work/meanwhile"
mkdir -p out
cp "\$program" out/
./out/zundrafipo
END
chmod +x "$work/bin/rt"
copied() { PATH="$work/bin:$PATH" "$copy/run" $p1.in; }

# settle: as if the last check had been an hour ago, and every file older
settle() {
    find "$copy" -exec touch -d '2 hours ago' {} +
    [ ! -e "$copy/target/run.stamp" ] || touch -d '1 hour ago' "$copy/target/run.stamp"
    : >"$work/calls"
}

# called NAME TIMES: how often rt was called since all was settled
called() {
    local times
    times=$(grep -c '^run$' "$work/calls" || true)
    if [ "$times" -eq "$2" ]; then
        passed=$((passed + 1))
    else
        failed=$((failed + 1))
        echo "$1: rt was called $times times, expected $2" >&2
    fi
}

settle
for tool in awk bash cat dirname find mkdir readlink sed; do ln -s "$(command -v "$tool")" "$work/bare/$tool"; done
without_rt() { PATH="$work/bare" "$copy/run" $p1.in; }
try without_rt
check without_rt 2 "$work/nothing" "run: the program has to be proved first, and the Rattle kit's rt is not on the PATH"
only_asked() { PATH="$work/bare" "$copy/run" "$1"; }
try only_asked --help
check help_without_rt 0 "$work/help" ""
echo "zundrafipo 98.7.6" >"$work/version"
try only_asked --version
check version_without_rt 0 "$work/version" ""
without_flock() { PATH="$work/bin:$work/bare" "$copy/run" $p1.in; }
try without_flock
check without_flock 2 "$work/nothing" "*run: target/run.lock cannot be locked"
rm -r "$copy/target"
: >"$copy/target"
try copied
check target_is_a_file 2 "$work/nothing" "*run: target/ cannot be written"
rm "$copy/target"
: >"$work/calls"

touch "$work/refuse"
try copied
check not_proved 2 "$work/nothing" "run: proving the program*a hole is left*run: the program is not proved*"
rm "$work/refuse"
try copied
can_be_broken_off=$'\nrun: it can be broken off (Ctrl-C) and goes on from there'
first="run: proving the program, once: $first_run on two cores$can_be_broken_off"
changed="run: checking what changed, at most $first_run on two cores$can_be_broken_off"
check first_proof 0 "$p1.out" "$first"
called first_proof 2
try copied
check proved_once 0 "$p1.out" ""
called proved_once 2

settle
touch "$copy/tests/new" "$copy/docs/new" "$copy/crates/zundrafipo/stdin" "$copy/crates/zundrafipo/stdout" "$copy/crates/graph/must-fail"/*.edit
try copied
check no_source_touched 0 "$p1.out" ""
called no_source_touched 0

for source in crates.txt crates/zundrafipo/src/main.rt crates/graph/specs/Lib.antt crates/graph/proofs/Lib.antt; do
    settle
    touch "$copy/$source"
    try copied
    check "touched $source" 0 "$p1.out" "$changed"
    try copied
    check "proved again $source" 0 "$p1.out" ""
    called "$source" 1
done

settle
rm "$copy/crates/graph/specs/Lib.antt"
try copied
check source_removed 0 "$p1.out" "$changed"
called source_removed 1

# a check that fails is no check
settle
touch "$copy/crates.txt" "$work/refuse"
try copied
check not_proved_again 2 "$work/nothing" "$changed*a hole is left*run: the program is not proved*"
try copied
check not_proved_still 2 "$work/nothing" "$changed*a hole is left*run: the program is not proved*"
called not_proved_still 2
rm "$work/refuse"

# A small repository, whose program stands on 24 crates one above the other; two more lines are none
# of them. Its clock starts late, so that minutes are shown. What rt does meanwhile is given.
small=$work/small
mkdir -p "$small/crates/zundrafipo/src" "$small/crates/zundrafipo/specs" "$small/crates/zundrafipo/proofs"
sed 's/SECONDS=0$/SECONDS=130/' run >"$small/run"
chmod +x "$small/run"
{
    echo "# c_: crates"
    echo "c_01:"
    for ((n = 2; n <= 24; n++)); do printf 'c_%02d: c_01 c_%02d\n' "$n" "$((n - 1))"; done
    echo "unused: c_01"
    echo "zundrafipo: c_24"
} >"$small/crates.txt"
in_small() { env $own_signals PATH="$work/bin:$PATH" "$small/run" "$here/$p1.in"; }
afresh() {
    rm -rf "$small/target" "$small/crates/zundrafipo/out" "$work/meanwhile" "$work/pid" "$work/go"
    : >"$work/calls"
}
cat >"$work/emit" <<'END'
# emit FROM TO: those crates are proved
emit() {
    for n in $(seq -w "$1" "$2"); do
        echo "rt: chose --jobs 2 for c_$n"
        echo "logic=proved functions=1 logic-built=trusted"
    done
}
# seen TEXT: until it was said
seen() {
    for tries in $(seq 300); do
        ! grep -q "$1" "$work/said" || return 0
        sleep 0.1
    done
}
END

# how far it is: every ten crates, and on a terminal always
progress() {
    afresh
    cat "$work/emit" - >"$work/meanwhile" <<'END'
echo "statements c_01: modules loaded=0 checked=0"
emit 01 09
sleep 0.5
emit 10 10
seen "proved 10 of 25"
emit 11 19
sleep 0.5
# of a crate that has not changed rt says nothing, here of c_20: it begins the next
echo "rt: chose --jobs 2 for c_21"
seen "proved 20 of 25"
echo "logic=proved functions=1 logic-built=trusted"
emit 22 24
echo "rt: chose --jobs 2 for zundrafipo"
echo "logic=proved functions=1 logic-built=trusted"
echo "rt: running out/zundrafipo; to give it other input, run that file yourself"
END
}
progress
try in_small
check every_ten 0 "$p1.out" "$first
run: proved 10 of 25 crates (c_05, c_06, c_07, c_08, c_09, c_10), [0-9]* min [0-9]* s
run: proved 20 of 25 crates (c_15, c_16, c_17, c_18, c_19, c_20), [0-9]* min [0-9]* s"
progress
on_terminal() { tests/terminal "$@" env PATH="$work/bin:$PATH" "$small/run" "$here/$p1.in"; }
try on_terminal 132 ""
first_here=${first//$'\n'/$'\r\n'}$'\r\n'
check written_over 0 "$p1.out" "$first_here"$'*\r\rrun: proved 10 of 25 crates (c_05, c_06, c_07, c_08, c_09, c_10), [0-9]* min [0-9]* s *\r'
lines() { tr '\r' '\n' <"$work/said" | grep '^run: proved'; }
hold one_line test "$(wc -l <"$work/said")" -eq 2
hold as_wide_as_79_columns test -z "$(lines | awk 'length != 79')"
hold cleared grep -q $'\r'"$(printf '%79s' '')"$'\r$' "$work/said"
progress
try on_terminal 40 ""
check narrow 0 "$p1.out" "*proved 20 of 25 crates (c_15*"
hold as_wide_as_39_columns test -z "$(lines | awk 'length != 39')"

# ended NUMBER: that process ends soon; one that nobody waits for any more may stay as a zombie
ended() {
    local tries
    for ((tries = 0; tries < 100; tries++)); do
        if ! grep -qs '^State:[[:space:]]*[^Z[:space:]]' "/proc/$1/status"; then return; fi
        sleep 0.1
    done
    return 1
}
# an rt that proves one crate and is then busy, in a process of its own
busy() {
    afresh
    cat "$work/emit" - >"$work/meanwhile" <<'END'
sleep 60 &
echo "$$ $! ." >"$work/pid"
emit 01 01
wait
END
}
# begin FILE: a run in the background, whose number is in started; finish FILE NUMBER: it has ended
begin() {
    env $own_signals PATH="$work/bin:$PATH" "$small/run" "$here/$p1.in" >"$work/$1.printed" 2>"$work/$1.said" &
    started=$!
}
finish() {
    status=0
    wait "$2" || status=$?
    cp "$work/$1.printed" "$work/printed"
    cp "$work/$1.said" "$work/said"
}
# end SIGNAL FILE: the run that was started last
end() { { kill -s "$1" "$started" && finish "$2" "$started"; } 2>/dev/null; }
# broken_off NAME STATUS SAID: rt has ended, and the next run goes on
broken_off() {
    check "$1" "$2" "$work/nothing" "$3"
    read -r rt child _ <"$work/pid"
    hold "$1: rt has ended" ended "$rt"
    hold "$1: what rt started has ended" ended "$child"
    rm "$work/meanwhile"
    try in_small
    check "$1: the next run" 0 "$p1.out" "$first"
    called "$1" 2
}
off="run: broken off; what is proved stays proved, and the next run goes on from there"

# it is broken off: Ctrl-C, signals, and a reader of what is said who goes away
busy
try on_terminal 80 "proved 1 of 25"
broken_off interrupted 130 "$first_here*$off"$'\r'
for signal in HUP:129 INT:130 TERM:143; do
    busy
    begin one
    await "$work/pid" .
    end "${signal%:*}" one
    broken_off "signal $signal" "${signal#*:}" "$first"$'\n'"$off"
done
busy
cat "$work/emit" - >"$work/meanwhile" <<'END'
sleep 60 &
echo "$$ $! ." >"$work/pid"
for more in $(seq 100); do
    emit 01 10
    sleep 0.3
done
END
unread() {
    in_small 2>&1 | head -n 2
    return "${PIPESTATUS[0]}"
}
try unread
cp "$work/printed" "$work/said"
: >"$work/printed"
broken_off unread 141 "$first"

# two runs meet: one proves and the other waits, also while the program is there and rt is not done
# yet. A third that waits is broken off.
waits="run: another ./run is proving here: this one waits for it"
afresh
cat "$work/emit" - >"$work/meanwhile" <<'END'
mkdir -p out
cp "$program" out/
emit 01 12
for tries in $(seq 300); do
    [ ! -e "$work/go" ] || break
    sleep 0.1
done
END
begin one
one=$started
await "$work/one.said" "proved 12 of 25"
begin two
two=$started
await "$work/two.said" "proved 12 of 25"
begin three
await "$work/three.said" "proved 12 of 25"
end TERM three
check the_third_is_broken_off 143 "$work/nothing" "$waits"$'\n'"run: proved 12 of 25 crates (*"
hold the_second_waits kill -0 "$two"
touch "$work/go"
finish one "$one"
check the_first_proves 0 "$p1.out" "$first"$'\n'"run: proved 12 of 25 crates (*"
finish two "$two"
check the_second_has_waited 0 "$p1.out" "$waits"$'\n'"run: proved 12 of 25 crates (*"
called two_runs 1

# A run that was killed leaves its rt behind, which another run waits for; what both leave when they
# were killed is no lock
busy
begin one
await "$work/pid" .
read -r rt child _ <"$work/pid"
end KILL one
begin two
two=$started
await "$work/two.said" "$waits"
rm "$work/meanwhile"
kill -s KILL -- "-$rt"
finish two "$two"
check after_a_lost_rt 0 "$p1.out" "$waits"$'\n'"$first"
called after_a_lost_rt 2
busy
begin one
await "$work/pid" .
read -r rt child _ <"$work/pid"
end KILL one
kill -s KILL -- "-$rt"
hold killed ended "$rt"
hold killed_too ended "$child"
hold lock_file_is_left test -e "$small/target/run.lock"
rm "$work/meanwhile"
try in_small
check after_a_lost_run 0 "$p1.out" "$first"
called after_a_lost_run 2

hold temporary_files test -z "$(ls -A "$work/tmp")"

echo "run: $passed passed, $failed failed"
[ "$failed" -eq 0 ]
