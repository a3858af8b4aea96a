#!/usr/bin/env bash
# Compares the proved library, through its archive for C and Rust, with a checker that is written from the scope document's sentences: every answer,
# figure and lent element, refused calls too. Beside it the plain implementation, which stands beside the library in the benchmarks, with fewer random calls.
# A comparison that never met one of an entry's conditions fails. Words given here go to both: --seed N, --small N, --files N, --large N.
set -euo pipefail
cd "$(dirname "$0")/.."

if ! command -v cargo >/dev/null; then
    echo "the differential tests need cargo on the PATH" >&2
    exit 1
fi

work=$(mktemp -d)
trap 'rm -rf "$work"' EXIT

# the plain implementation needs no archive: it is compared beside what follows. cargo makes a target
# folder elsewhere and renames it, over an empty one too, so two that start at once can lose one: they
# find both there
mkdir -p rust/target/differential
(
    cd rust
    CARGO_TARGET_DIR=target/differential cargo run --release --offline --quiet -p differential -- --small 40000 --files 40000 --large 80 "$@"
) >"$work/plain" 2>&1 &
plain=$!

tests/archive
unset ZUNDRAFIPO_ARCHIVE_DIR
(
    cd rust
    cargo test --release --offline --quiet -p checker
    cargo test --offline --quiet -p zundrafipo
    cargo run --release --offline --quiet -p differential --features library -- "$@"
)

status=0
wait "$plain" || status=$?
cat "$work/plain"
exit "$status"
