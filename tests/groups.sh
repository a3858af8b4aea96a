#!/usr/bin/env bash
# Holds docs/groups.svg to crates.txt, and each crate to the groups that it may use; then tries that
# tools/groups --check fails when it should. Needs Python 3.
set -euo pipefail
cd "$(dirname "$0")/.."

tools/groups --check
boxes=$(tools/groups --text | wc -l)

work=$(mktemp -d)
trap 'rm -rf "$work"' EXIT

# refused NAME TEXT FILE EXPRESSION: the check must fail, and say TEXT, once sed has edited FILE
refused() {
    rm -rf "$work/tree"
    mkdir -p "$work/tree/docs" "$work/tree/tools"
    cp crates.txt "$work/tree"
    cp tools/groups "$work/tree/tools"
    cp docs/groups.svg "$work/tree/docs"
    sed -i "$4" "$work/tree/$3"
    if "$work/tree/tools/groups" --check >"$work/said" 2>&1 || ! grep -qF -- "$2" "$work/said"; then
        echo "groups: $1: not refused, or without '$2'" >&2
        cat "$work/said" >&2
        exit 1
    fi
}

refused "an old picture" "docs/groups.svg is not what" docs/groups.svg 's/crates</crate</'
refused "an arrow to a group below" "graph uses file_read," crates.txt 's/^graph:/& file_read/'
refused "a crate under another heading" "x_y has not the prefix" crates.txt 's/^graph:/x_y:\n&/'

echo "groups: $boxes boxes as in crates.txt, 3 edits refused"
