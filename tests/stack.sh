#!/usr/bin/env bash
# What the library and the program take. The entries' stack, measured at full size in threads of 256 KiB and held to the promises of
# include/zundrafipo.h; the archive's size, that it has no data of its own, and that it needs memcpy and memset only; the program's stack, held to
# 512 KiB.
set -euo pipefail
cd "$(dirname "$0")/.."

archive=crates/capi/out/libcapi.a
program=crates/zundrafipo/out/zundrafipo
promised=512
work=$(mktemp -d)
trap 'rm -rf "$work"' EXIT

tests/archive
[ -x "$program" ] || ./run >/dev/null

# bound when it starts, so that no entry's stack has the loader's on it
gcc -std=c99 -O2 -Wall -Wextra -Werror -pedantic -pthread -Wl,-z,now -I include tests/stack.c "$archive" -o "$work/stack"
"$work/stack" "$work/longest.in"

read -r text data bss _ < <(size -t "$archive" | tail -n 1)
echo "archive: $text bytes of code and constants, $((data + bss)) of data"
[ "$((data + bss))" -eq 0 ]
needs=$(nm -u "$archive" | awk '$1 == "U" { print $2 }' | sort -u | tr '\n' ' ')
echo "archive: needs ${needs% }"
for name in $needs; do
    [ "$name" = memcpy ] || [ "$name" = memset ] || { echo "archive: needs $name" >&2; exit 1; }
done

# fits KIB: whether the program prints the whole report of the longest file that it takes with a stack of so many KiB
fits() {
    { (ulimit -s "$1" && exec env -i "$program" <"$work/longest.in" >"$work/printed"); } 2>/dev/null || true
    [ "$(head -n 1 "$work/printed")" = "in 1024 4096" ] && [ "$(wc -l <"$work/printed")" -eq 3330 ]
}
if ! fits "$promised"; then
    echo "program: $promised KiB of stack are too few" >&2
    exit 1
fi
low=0
high=$promised
while [ $((high - low)) -gt 4 ]; do
    middle=$(((low + high) / 2))
    if fits "$middle"; then high=$middle; else low=$middle; fi
done
echo "program: runs with $high KiB of stack on the longest file that it takes, $promised are promised"
