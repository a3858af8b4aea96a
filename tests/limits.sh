#!/usr/bin/env bash
# Holds the library to what include/zundrafipo.h promises a caller, in C and in C++, and the header's version to that of the Rust crate.
set -euo pipefail
cd "$(dirname "$0")/.."

archive=crates/capi/out/libcapi.a
work=$(mktemp -d)
trap 'rm -rf "$work"' EXIT

tests/archive

strict=(-O2 -Wall -Wextra -Werror -pedantic -I include)
gcc -std=c99 "${strict[@]}" tests/limits.c "$archive" -o "$work/c"
g++ -std=c++17 "${strict[@]}" -x c++ tests/limits.c -x none "$archive" -o "$work/cpp"
"$work/c"
"$work/cpp"

version=$("$work/c" | sed -n 's/^limits \([0-9.]*\):.*/\1/p')
grep -q "^version = \"$version\"\$" rust/Cargo.toml || { echo "limits: rust/Cargo.toml has not the header's version $version" >&2; exit 1; }
