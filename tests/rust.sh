#!/usr/bin/env bash
# Holds everything under rust/ to rustfmt and clippy, with the library and without it, and the crate's documentation to rustdoc; builds the benchmarks; runs
# the examples, of which p1 is the README's program.
set -euo pipefail
cd "$(dirname "$0")/.."

tests/archive
unset ZUNDRAFIPO_ARCHIVE_DIR
cd rust

cargo fmt --all --check
for library in "" library; do
    cargo clippy --offline --quiet --workspace --all-targets --features "$library" -- -D warnings
    cargo build --release --offline --quiet -p bench --features "$library"
done
RUSTDOCFLAGS="-D warnings" cargo doc --offline --quiet --no-deps -p zundrafipo

# expect WHAT EXPECTED PRINTED
expect() {
    if [ "$2" != "$3" ]; then
        printf '%s: expected\n%s\nbut found\n%s\n' "$1" "$2" "$3" >&2
        exit 1
    fi
}

example() {
    cargo run --offline --quiet -p zundrafipo --example "$@"
}

readme=$(awk '/^```rust$/ { on = !seen; next } /^```$/ { seen = seen || on; on = 0 } on' ../README.md)
expect "the README's Rust program" "$readme" "$(tail -n +2 zundrafipo/examples/p1.rs)"
expect "example p1" $'2 states, map [0, 0, 1, 1]\n0 faults' "$(example p1)"
expect "example reduce" $'4 states became 2, faults: 0\n0 1 1 0' "$(example reduce <../tests/program/p1.in)"
expect "example faults" '0 faults
2 faults, the first: hop (0,1,2) "pass", from line 4, at place 1 of graph 1, is lost: graph 2 has no such hop between what 0 and 2 are mapped to
2 faults, the first: hop (1,1,1) "pass", at place 1 of graph 2, is made up: state 2 of graph 1 is mapped to 1 and does not answer it' "$(example faults)"
expect "example shrink" 'R1: 3 states, reduced 2, shrunk 1; reductions: 2, faults: 0, lines [3, 3]
R2: 3 states, reduced 2, shrunk 1; reductions: 2, faults: 0, lines [3, 3]
R3: 3 states, reduced 2, shrunk 1; reductions: 2, faults: 0, lines [3, 3]
R8: 3 states, reduced 1, shrunk 1; reductions: 1, faults: 0, lines [3, 3]' "$(example shrink)"
expect "example lines" "(0,1,1) comes from line 5" "$(example lines)"
expect "example lines, of a file with lines" "(0,1,1) comes from line 3" "$(example lines ../tests/program/several_lines.in)"
expect "example lines, of a file without lines" "(0,1,1) comes from no line" "$(example lines ../tests/program/p1.in)"
expect "example names" "0 pass 1" "$(example names)"
expect "example names, of a file without names" $'0 tau 1\n0 1 2' "$(example names ../tests/program/p5.in)"
echo "rust: formatted, no warnings, benchmarks built, examples as expected"
