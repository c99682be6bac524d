#!/usr/bin/env bash
# Builds the harness and runs all its tests, without network. Prints what failed; the last line
# says how many tests passed and failed. A build that fails counts as one failed test.
# The proved libraries and programs are built first where they are missing or older than a source.
set -u
cd "$(dirname "${BASH_SOURCE[0]}")" || exit 1

log=$(mktemp) || exit 1
trap 'rm -f "$log"' EXIT

../tools/library.sh
../tools/library.sh texture_surface_discards
../tools/library.sh columns
../tools/program.sh deskcheck to_columns to_rows

RUST_BACKTRACE=0 cargo test --offline --locked --workspace --no-fail-fast >"$log" 2>&1
status=$?

# The sum of one column of all "test result:" lines.
sum() {
    sed -n "s/^test result: .* \([0-9][0-9]*\) $1;.*/\1/p" "$log" | awk '{ n += $1 } END { print n + 0 }'
}

passed=$(sum passed)
failed=$(sum failed)
if [ "$status" -ne 0 ] && [ "$failed" -eq 0 ]; then
    failed=1
fi
if [ "$failed" -ne 0 ]; then
    grep -vE '^(test .* ok|running [0-9]+ tests?|test result: ok\..*|[[:space:]]*(Compiling|Running|Finished|Doc-tests) .*|)$' "$log"
fi
echo "$passed passed, $failed failed"
[ "$failed" -eq 0 ]
