#!/usr/bin/env bash
# The repository's rules that a script can check (CONTRIBUTING.md): line lengths, names, numbers that have
# a name, lists of modules, edits, and that the documents name what there is; and, after the gate has
# tried the edits, that each was refused by a fact.
set -euo pipefail
cd "$(dirname "$0")/.."
export LC_ALL=C.UTF-8
failed=0
specs=(crates/*/specs/*.antt crates/*/specs/Internal/*.antt)

# none RULE FOUND: nothing may have been found
none() {
    [ -z "$2" ] && return 0
    printf 'rules: %s:\n%s\n' "$1" "$2" >&2
    failed=1
}

# lines of code and contracts have at most 160 characters, comments 100, and what a function asks stands
# one named line each
none "lines of more than 160 characters" "$(grep -nE '^.{161,}$' crates/*/src/*.rt | grep -vE ':[0-9]+: *\/\/' || true)"
none "comments of more than 100 characters" "$(find crates -path 'crates/*/out' -prune -o \( -name '*.rt' -o -name '*.antt' \) -print0 | sort -z | xargs -0 grep -nE '^ *(//|--|pub mod |mod )' | grep -E '^[^:]*:[0-9]+:.{101,}$' || true)"
none "a requires that asks several things" "$(grep -nE 'requires.*( × | ∗ )' crates/*/src/*.rt || true)"

# specs/ is what a reader must believe: what the entries' contracts and README's theorems cite, down to
# the kit, lies in specs/*.antt, and nothing there is outside it
none "in specs/ and not cited by a promise, or cited and not in specs/" "$(tools/promises --outside)"

# a name of specs/ stands in one crate; the tables worked by hand, which nothing cites, may use the same
declared() {
    grep -hoE '^ *((abbrev|unfoldable)( pub)?|(pub )?(record|data)) [^ ]+' "$@" | awk '{ print $NF }' | sort -u
}
none "names of specs/ that stand in several crates" "$(for crate in crates/*/specs; do
    [[ $crate == crates/test_* ]] || find "$crate" -path "$crate/out" -prune -o -name '*.antt' -print0 | xargs -0 grep -hoE '^ *((abbrev|unfoldable)( pub)?|(pub )?(record|data)) [^ ]+' | awk '{ print $NF }' | sort -u
done | sort | uniq -d)"

# names are the field's, not pictures of our own
none "names that are pictures" "$({
    declared "${specs[@]}"
    grep -hoE '^ *(pub )?(extern "C" )?(fn|struct|enum) [A-Za-z_]+' crates/*/src/*.rt | awk '{ print $NF }'
} | grep -E '(^|[_-])(tick|note|noted|shed|told|tell|shown|room|turn|house|floor)(s|ed)?([_-]|[A-Z]|$)|(^|[a-z])(Tick|Note|Noted|Shed|Told|Tell|Shown|Room|Turn|House|Floor)(s|ed)?([_-]|[A-Z]|$)' | sort -u || true)"

# the numbers of a hop and the limits stand where they are named, and as data in the programs and the tables
# worked by hand
named='^crates/(graph/src/lib\.rt|graph/specs/(Hops|Answers)\.antt|(test_worked|test_report|test_(check|records|hops_of|round_trip))/)'
none "numbers that have a name" "$(grep -nE '(^|[^0-9.])(4 \*|6 \*|16384|1025|4096|20480)([^0-9]|$)' crates/*/src/*.rt "${specs[@]}" |
    grep -vE "$named" | grep -vE ':[0-9]+: *(//|--)' || true)"

# hops are made in one place
none "hops made elsewhere than in graph" "$(grep -nE '(^|[^A-Za-z])Hop \{' crates/*/src/*.rt | grep -vE '^crates/(graph|test_records)/' | grep -vE ':[0-9]+: *//' || true)"

# a hop's line is looked at where hops become one, where they are read, written and printed, and nowhere
# else: not where they are marked or audited
none "a hop's line looked at elsewhere" "$(grep -nE '(^|[^A-Za-z_])(lineAt|line_at|linedHop|lined_hop)([^A-Za-z_]|$)|\.line($|[^A-Za-z_])' crates/*/src/*.rt "${specs[@]}" |
    grep -vE '^crates/(graph|reduce_smallest_line|reduce_sorted_images|reduce_short_graph|file_lines|file_hops|report_rows|mark_entry_records|test_(check|records|hops_of|round_trip)|test_worked_(lines|shrink))/' | grep -vE ':[0-9]+: *(//|--)' || true)"

# the order of two hops is decided by their sums, in graph::order, and not by their numbers one by one.
# (Labels and ends of two hops are compared for equality in marking: docs/DECISIONS.md, "Hops".)
none "hops compared by their numbers" "$(grep -nE '\.(from|label|to)\>[^;]*([<>]|[=!]=)[^;]*\.(from|label|to)\>' crates/*/src/*.rt | grep -vE ':[0-9]+: *(//|requires|ensures)' || true)"

# a hop is looked for by the search of graph, and by nothing else: sums are made there, and in row 4 of check
none "hops looked for elsewhere than in graph" "$(grep -nE '(^|[^a-z_])(sum_of|is_below|is_same|is_hop_at)([^a-z_]|$)' crates/*/src/*.rt | grep -vE '^crates/(graph|graph_check)/' |
    grep -vE ':[0-9]+: *//' || true)"

# every module of a list has a word on it
none "modules without a word" "$(grep -nE '^pub mod [A-Za-z]+ *$' crates/*/specs/Lib.antt crates/*/specs/Internal.antt crates/*/proofs/Lib.antt || true)"

# docs/TRACE.md: each edit is there, and each name that it gives to a crate is in that crate
none "edits that docs/TRACE.md does not name" "$(for edit in crates/*/must-fail/*.edit; do
    grep -q "\`$(basename "$edit" .edit)\`" docs/TRACE.md || echo "$edit"
done)"
none "names of docs/TRACE.md that are not there" "$(grep -oE '[a-z_]+: `[^`|;]+`(, `[^`|;]+`)*' docs/TRACE.md | while IFS= read -r group; do
    crate=${group%%:*}
    [ -d "crates/$crate" ] || continue
    grep -oE '`[^`]+`' <<<"$group" | tr -d '`' | while IFS= read -r name; do
        [ -f "crates/$crate/must-fail/$name.edit" ] || grep -rqF -- "$name" "crates/$crate/specs" "crates/$crate/proofs" "crates/$crate/src" || echo "$crate: $name"
    done
done | sort -u)"

# the other documents: what stands there as `crate: name` or `crate::name`
none "names of documents that are not there" "$(grep -ohE '`[a-z_]+(: |::)[^` ]+`' README.md CONTRIBUTING.md docs/DECISIONS.md docs/TRUST.md | tr -d '`' | sort -u | while IFS= read -r word; do
    crate=${word%%:*}
    name=${word##*:}
    [ -d "crates/$crate" ] || continue
    grep -rqwF -- "${name# }" "crates/$crate/specs" "crates/$crate/proofs" "crates/$crate/src" 2>/dev/null || [ -n "$(find "crates/$crate" -name "${name# }.antt")" ] || echo "$word"
done)"

none "edits of docs/TRACE.md that are in another crate" "$(sed -nE 's/^\| `([a-z_]+)` \| `([a-z_0-9]+)` \|.*/crates\/\1\/must-fail\/\2.edit/p' docs/TRACE.md | while IFS= read -r edit; do
    [ -f "$edit" ] || echo "$edit"
done)"

# an edit is refused because a fact fails, and not because a name is not there (where the gate has tried
# the edits: what rt ci said). rt ci shows the first error that is not about a name. Where that one only
# says what was not checked for an earlier error, the name was all. (Not seen: an answer to a goal that has
# another name with the edit.)
if [ -e target/ci.log ]; then
    none "edits refused for a name" "$(grep -a '^rt: must-fail .*: refused' target/ci.log |
        grep -aE 'is not in scope|unknown-name|can be named from here|has no function|only because a proof file names|declarations? that depends? on' || true)"
fi

[ "$failed" -eq 0 ] || exit 1
echo "rules: kept"
