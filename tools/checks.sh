#!/usr/bin/env bash
# Checks each crate by itself, what lies below being proved: seconds and megabytes, printed and written to docs/measured. Needs GNU time.
# rt lets a check begin with what another checkout on this machine has kept of the crate; a line says where it did, and is then no check from nothing.
set -euo pipefail
cd "$(dirname "${BASH_SOURCE[0]}")/.."
mkdir -p docs/measured
rt all check > /dev/null 2>&1
work=$(mktemp -d)
trap 'rm -rf "$work"' EXIT
sed -n 's/^\([a-z_]*\)[ :].*/\1/p' crates.txt | while read -r name; do
    rm -rf "crates/$name/out/incremental"
    (cd "crates/$name" && /usr/bin/time -o "$work/cost" -f '%e %M' rt check) > "$work/check" 2>&1 < /dev/null
    read -r seconds kilobytes < "$work/cost"
    kept=
    if grep -q ': begins with what a check kept' "$work/check"; then kept='  (begun with kept work)'; fi
    printf '%-26s %6.1f s %6d MB%s\n' "$name" "$seconds" $((kilobytes / 1024)) "$kept"
done | tee docs/measured/checks.txt
