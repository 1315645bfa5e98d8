#!/usr/bin/env bash
# The one test command. `rt ci` proves every crate, tries the must-fail edits and runs the programs; what an earlier run on this machine
# proved of the same files it takes from there. A must-fail edit that is bad fails here, though it fails nothing in `rt ci`.
# The Python tests come after it, in two processes, and use what it has proved; where they fail, that is one failure more.
# The last line is 'N passed, M failed' whatever happens, and M is 0 only where all has passed.
set -uo pipefail
cd "$(dirname "$0")/.." || exit 1
log=$(mktemp)
trap 'rm -f "$log"' EXIT

rt ci | tee "$log" | sed '$d'
status=${PIPESTATUS[0]}
last=$(tail -n 1 "$log")
if [[ $last =~ ^([0-9]+)\ passed,\ ([0-9]+)\ failed$ ]]; then
    passed=${BASH_REMATCH[1]} failed=${BASH_REMATCH[2]}
else
    echo "$last"
    passed=0 failed=1
fi
if ((status != 0 && failed == 0)); then
    failed=1
fi
if ((failed == 0)) && grep -Eq '^rt: ok\b.*, [0-9]+ bad\b' "$log"; then
    echo "some must-fail edits are bad"
    failed=1
fi
if ((failed == 0)) && ! BUILT_BY_CI=1 python3 tests/halves.py; then
    failed=1
fi
echo "$passed passed, $failed failed"
((failed == 0))
