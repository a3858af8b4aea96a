#!/usr/bin/env bash
# Tries that the gate fails when it should, and says why: .ci/run in a folder of its own, with a stand-in for rt whose last line and status are given.
set -euo pipefail
cd "$(dirname "$0")/.."

work=$(mktemp -d)
trap 'rm -rf "$work"' EXIT
passed=0
failed=0

mkdir "$work/bin"
cat >"$work/bin/rt" <<'STANDIN'
#!/usr/bin/env bash
case $1 in
version) echo "stand-in" ;;
ci)
    [ $# -eq 1 ] || { echo "rt ci was given words: $*"; exit 1; }
    [ -e .ci/run ] || { echo "rt ci was not called at the top"; exit 1; }
    printf '%b' "${CI_PRINTS-first line\nrt: ok; must-fail edits: 2 refused; all done\n3 passed, 0 failed\n}"
    exit "${CI_STATUS:-0}"
    ;;
*)
    echo "an unknown command: $*"
    exit 2
    ;;
esac
STANDIN
chmod +x "$work/bin/rt"

# a folder with the gate and one test that passes
fresh() {
    rm -rf "$work/tree"
    mkdir -p "$work/tree/.ci" "$work/tree/tests"
    cp .ci/run "$work/tree/.ci/run"
    printf '#!/bin/sh\necho "one: ran"\n' >"$work/tree/tests/one.sh"
    printf '#!/bin/sh\necho "archive: made $*"\n' >"$work/tree/tests/archive"
    chmod +x "$work/tree/tests/one.sh" "$work/tree/tests/archive"
}

# gate NAME passes|fails TEXT [VARIABLE=VALUE ..]: the gate must end so, print TEXT, and end with the verdict exactly where it passes
gate() {
    local name=$1 wanted=$2 text=$3 ended=passes verdict=no
    shift 3
    env PATH="$work/bin:$PATH" "$@" bash "$work/tree/.ci/run" >"$work/printed" 2>&1 </dev/null || ended=fails
    if tail -n 1 "$work/printed" | grep -qE '^[0-9]+ passed, 0 failed$'; then verdict=yes; fi
    if [ "$ended" = "$wanted" ] && grep -qF -- "$text" "$work/printed" && { [ "$wanted" = passes ] || [ "$verdict" = no ]; } &&
        { [ "$wanted" = fails ] || [ "$verdict" = yes ]; }; then
        passed=$((passed + 1))
    else
        failed=$((failed + 1))
        echo "$name: $ended, wanted: $wanted with '$text'; printed" >&2
        cat "$work/printed" >&2
    fi
}

fresh
gate "all passes" passes "one: ran"
gate "the kit is named" passes "kit: stand-in"
gate "each part has its time" passes "tests/one.sh: "
gate "a crate is not proved" fails "2 passed, 1 failed" CI_STATUS=1 CI_PRINTS='a fact fails\n2 passed, 1 failed\n'
gate "the fact that fails is shown" fails "a fact fails" CI_STATUS=1 CI_PRINTS='a fact fails\n2 passed, 1 failed\n'
gate "rt says one line and stops" fails "rt: crates.txt has no crate" CI_STATUS=2 CI_PRINTS='rt: crates.txt has no crate\n'
gate "nothing was tried" fails "0 passed, 0 failed" CI_PRINTS='rt: ok\n0 passed, 0 failed\n'
gate "rt prints nothing" fails "rt ci ended without its line" CI_PRINTS=
gate "the last line is no verdict" fails "rt ci ended with 'something else'" CI_PRINTS='rt: ok\nsomething else\n'
gate "a failure that rt lets pass" fails "1 failed" CI_PRINTS='rt: ok\n2 passed, 1 failed\n'
gate "a file is not formatted" fails "run rt fmt in the crate" CI_STATUS=1 CI_PRINTS="run rt fmt in the crate's folder\n2 passed, 1 failed\n"
gate "an edit is bad" fails "rt ci tried 1 bad must-fail edits" CI_PRINTS='rt: must-fail c/e.edit: BAD EDIT: nothing\nrt: ok; must-fail edits: 2 refused, 1 bad; all done\n3 passed, 0 failed\n'
gate "the bad edit is shown" fails "c/e.edit: BAD EDIT" CI_PRINTS='rt: must-fail c/e.edit: BAD EDIT: nothing\nrt: ok; must-fail edits: 0 refused, 1 bad; all done\n3 passed, 0 failed\n'
gate "many edits are bad" fails "rt ci tried 20 bad must-fail edits" CI_PRINTS='rt: ok; must-fail edits: 2 refused, 20 bad; all done\n3 passed, 0 failed\n'
gate "the archive is made after rt ci" passes "archive: made --after-ci"

fresh
printf '#!/bin/sh\nexit 3\n' >"$work/tree/tests/archive"
gate "the archive is not made" fails "the archive cannot be made"

fresh
printf '#!/bin/sh\nexit 3\n' >"$work/tree/tests/one.sh"
gate "a test fails" fails "tests/one.sh failed"

fresh
chmod -x "$work/tree/tests/one.sh"
gate "a test is not executable" fails "tests/one.sh is not executable"

fresh
rm "$work/tree/tests/one.sh"
gate "there are no tests" fails "tests/ has no test"

echo "gate: $passed passed, $failed failed"
[ "$failed" -eq 0 ]
