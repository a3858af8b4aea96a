#!/usr/bin/env bash
# Does what README.md, docs/REFERENCE.md and rust/README.md show. Compiles and runs the C program (as
# C and as C++) and the Rust program, and compares the reports. Pastes every listing of REFERENCE,
# and every one of rust/README.md that has an output, into a shell and compares what it prints.
set -euo pipefail
cd "$(dirname "$0")/.."
top=$PWD

program=crates/zundrafipo/out/zundrafipo
[ -x "$program" ] || ./run >/dev/null
tests/archive
work=$(mktemp -d)
trap 'rm -rf "$work"' EXIT
passed=0
failed=0

# same NAME EXPECTED FOUND: two files
same() {
    if cmp -s "$2" "$3"; then
        passed=$((passed + 1))
    else
        failed=$((failed + 1))
        echo "$1: expected" >&2
        head -n 12 "$2" >&2
        echo "$1: found" >&2
        head -n 12 "$3" >&2
    fi
}

# block FILE FENCE TEXT: the first fenced block of FILE that opens with FENCE and has TEXT in it
block() {
    awk -v fence="$2" -v text="$3" '
        !inside && /^```/ { inside = 1; opened = $0; held = ""; next }
        inside && /^```$/ {
            inside = 0
            if (opened == fence && index(held, text)) { printf "%s", held; found = 1; exit }
            next
        }
        inside { held = held $0 "\n" }
        END { if (!found) exit 1 }' "$1"
}

# listings FILE TO: each fenced block of FILE that opens with ```sh becomes TO/NN.sh. The next block,
# if it opens with ``` alone, is what it prints: TO/NN.out. Any other block becomes TO/NN.other
listings() {
    mkdir -p "$2"
    awk -v to="$2" '
        !inside && /^```/ {
            inside = 1
            kind = $0 == "```sh" ? "sh" : $0 == "```" && before == "sh" ? "out" : "other"
            before = kind
            if (kind != "out") count++
            file = sprintf("%s/%02d.%s", to, count, kind)
            printf "" >file
            next
        }
        inside && /^```$/ { inside = 0; next }
        inside { print >file }' "$1"
}

# pasted PAGE LISTING DIR: LISTING.sh, a listing of a page, prints in DIR what LISTING.out has; its
# status is 1 where that is a refusal, else 0
pasted() {
    local name status=0 expected=0
    name="$1, listing $(basename "$2")"
    if [ ! -e "$2.out" ]; then
        failed=$((failed + 1))
        echo "$name: the page does not show what it prints" >&2
        return
    fi
    if grep -q '^no ' "$2.out"; then expected=1; fi
    (cd "$3" && bash "$2.sh") >"$2.printed" || status=$?
    if [ "$status" -ne "$expected" ]; then
        failed=$((failed + 1))
        echo "$name: status $status, expected $expected" >&2
    fi
    same "$name" "$2.out" "$2.printed"
}

# shown NAME PRINTED: each line that was printed stands in the README, in backquotes
shown() {
    while IFS= read -r line; do
        if ! grep -qF -- "\`$line\`" README.md; then
            failed=$((failed + 1))
            echo "$1: README.md does not show the line: $line" >&2
            return
        fi
    done <"$2"
    [ -s "$2" ] || { failed=$((failed + 1)) && echo "$1: nothing was printed" >&2 && return; }
    passed=$((passed + 1))
}

# the C program, as C and as C++, and the header by itself
block README.md '```c' 'int main(void)' >"$work/p1.c"
cp "$work/p1.c" "$work/p1.cpp"
flags=(-Wall -Wextra -Werror -pedantic -I include)
gcc -std=c99 "${flags[@]}" "$work/p1.c" -L crates/capi/out -lcapi -o "$work/p1_c"
g++ -std=c++17 "${flags[@]}" "$work/p1.cpp" -L crates/capi/out -lcapi -o "$work/p1_cpp"
for kind in c cpp; do
    "$work/p1_$kind" >"$work/printed"
    shown "the C program ($kind)" "$work/printed"
done
printf '#include "zundrafipo.h"\n#include "zundrafipo.h"\ntypedef int nothing_else;\n' >"$work/alone.c"
cp "$work/alone.c" "$work/alone.cpp"
gcc -std=c99 "${flags[@]}" -c "$work/alone.c" -o "$work/alone.o"
g++ -std=c++17 "${flags[@]}" -c "$work/alone.cpp" -o "$work/alone.o"

# the Rust program, as a crate of its own, and the examples that the README names
mkdir -p "$work/p1/src"
block README.md '```rust' 'fn main()' >"$work/p1/src/main.rs"
cat >"$work/p1/Cargo.toml" <<MANIFEST
[package]
name = "p1"
version = "0.1.0"
edition = "2021"

[dependencies]
zundrafipo = { path = "$top/rust/zundrafipo" }

[workspace]
MANIFEST
(cd "$work/p1" && CARGO_TARGET_DIR="$top/rust/target/readme" cargo run --offline --quiet) >"$work/printed"
shown "the Rust program" "$work/printed"
(cd rust && cargo run --offline --quiet -p zundrafipo --example p1) >"$work/printed"
shown "the Rust example p1" "$work/printed"

# the report
for page in README.md docs/REFERENCE.md; do
    block "$page" '```' 'marked 0 1' >"$work/report"
    same "the report in $page" crates/zundrafipo/stdout "$work/report"
done

# the listings of REFERENCE, which has no other blocks; the files that they write are the tests' own
listings docs/REFERENCE.md "$work/reference"
ln -s "$top/run" "$work/run"
for listing in "$work"/reference/*.sh; do
    pasted docs/REFERENCE.md "${listing%.sh}" "$work"
done
for other in "$work"/reference/*.other; do
    [ -e "$other" ] || continue
    failed=$((failed + 1))
    echo "docs/REFERENCE.md: a block that is no listing: $(head -n 1 "$other")" >&2
done
same "the bytes of P1" crates/zundrafipo/stdin "$work/p1.zf"
[ "$(wc -c <"$work/named.zf")" -eq 38 ]
same "the bytes of P1 with an initial state and a name" tests/program/p1_reference.in "$work/named.zf"
[ "$(wc -c <"$work/lined.zf")" -eq 39 ]
same "the bytes of P1 with lines" tests/program/p1_lines.in "$work/lined.zf"
printf 'in 2 1\nmap 0 0\nmap 1 1\nout 2 1 0\nhop 0 1 1 0\n' >"$work/expected"
"$program" <"$work/two.zf" >"$work/printed"
same "the file written by hand" "$work/expected" "$work/printed"

# rust/README.md: its program is the example p1, and its listings that have an output are run in rust/
tail -n +2 rust/zundrafipo/examples/p1.rs >"$work/expected"
block rust/README.md '```rust' 'fn main()' >"$work/found"
same "the program of rust/README.md" "$work/expected" "$work/found"
listings rust/README.md "$work/rust"
for output in "$work"/rust/*.out; do
    pasted rust/README.md "${output%.out}" "$top/rust"
done

echo "readme: $passed passed, $failed failed"
[ "$failed" -eq 0 ]
