#!/usr/bin/env bash
# All tests: each suite's last line is 'N passed, M failed', and so is this script's, with the sums.
# A suite that ends in another way counts as one failure.
set -u
cd "$(dirname "$0")/.." || exit 2

passed=0 failed=0
logs=$(mktemp -d) || exit 2
trap 'rm -rf "$logs"' EXIT

# Adds the counts of the last line of what a suite printed.
count() { # LOG STATUS
    local last
    last=$(tail -n 1 "$1")
    if [[ $last =~ ^([0-9]+)\ passed,\ ([0-9]+)\ failed(\ \(.*\))?$ ]]; then
        passed=$((passed + BASH_REMATCH[1])) failed=$((failed + BASH_REMATCH[2]))
        if [ "$2" -ne 0 ] && [ "${BASH_REMATCH[2]}" -eq 0 ]; then failed=$((failed + 1)); fi
    else
        failed=$((failed + 1))
    fi
}

# Runs one suite, shows what it prints, and adds its counts.
suite() { # COMMAND..
    echo "== $*"
    "$@" 2>&1 | tee "$logs/suite"
    count "$logs/suite" "${PIPESTATUS[0]}"
}

# rt ci comes first, on the checkout as it is. It passes must-fail edits that it cannot apply or read, and counts them in its line 'rt: ok ..' as
# ', N bad': here each of them is a failure, and so is a run that passes without that line.
suite rt ci
ok=$(grep '^rt: ok' "$logs/suite" | tail -n 1)
if [[ $ok =~ ,\ ([0-9]+)\ bad ]]; then
    echo "rt ci: ${BASH_REMATCH[1]} bad must-fail edits"
    failed=$((failed + BASH_REMATCH[1]))
elif [[ ! $ok =~ must-fail\ edits:\ [0-9]+\ refused ]] && [ "$failed" -eq 0 ]; then
    echo "rt ci: no line 'rt: ok' that counts the must-fail edits"
    failed=$((failed + 1))
fi
suite bash harness/run-tests.sh

# The audit is one test: it ends with 'audit: ok'.
audit() {
    if bash tools/audit.sh; then echo "1 passed, 0 failed"; else echo "0 passed, 1 failed"; fi
}
suite audit

# The edits of the definition come last: each begins with what the checks before have kept of the three crates.
suite bash tools/definition-edits.sh

echo "$passed passed, $failed failed"
[ "$failed" -eq 0 ] && [ "$passed" -gt 0 ]
