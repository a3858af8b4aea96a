#!/usr/bin/env bash
# docs/PROMISES.md, and the line counts of README's table of entries, are what tools/promises makes of the
# sources. (tests/rules.sh holds that specs/ has what they rest on and no more.)
set -euo pipefail
cd "$(dirname "$0")/.."
export LC_ALL=C.UTF-8

tools/promises --check
echo "promises: docs/PROMISES.md and README.md are what the sources give"
