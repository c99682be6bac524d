#!/usr/bin/env bash
# Instructions of the C functions, by callgrind: the same number in every run on one library, whatever else the machine does. Needs valgrind.
# Without a word: a line for each call that harness/runs names (`instructions` there). With FILE..: over whole sessions, a line a file;
# LIBRARY and HEADERS then name another library and its headers.
set -euo pipefail
cd "$(dirname "${BASH_SOURCE[0]}")/.."
[ -n "${LIBRARY:-}" ] || tools/library.sh

# What a function and all that it calls take in a program's run.
collected() { # FUNCTION PROGRAM WORD
    valgrind --tool=callgrind --toggle-collect="$1" --callgrind-out-file=/dev/null "$2" "$3" 2>&1 | sed -n 's/.*Collected : //p'
}

if [ $# -eq 0 ]; then
    (cd harness && cargo build --offline --locked --release --quiet --package runs --bin instructions)
    calls=harness/target/release/instructions
    "$calls" | while read -r function name; do
        printf '%-26s %-26s %10s\n' "$function" "$name" "$(collected "$function" "$calls" "$name")"
    done
    exit
fi

work=$(mktemp -d)
trap 'rm -rf "$work"' EXIT
gcc -O1 -I "${HEADERS:-include}" harness/c/instructions.c "${LIBRARY:-target/staticlib/libdesk.a}" -o "$work/instructions"
printf '%-28s %15s %17s %18s\n' session deskcheck_pass deskcheck_submit deskcheck_session
for file in "$@"; do
    printf '%-28s %15s %17s %18s\n' "$(basename "$file" .session)" "$(collected deskcheck_pass "$work/instructions" "$file")" \
        "$(collected deskcheck_submit "$work/instructions" "$file")" "$(collected deskcheck_session "$work/instructions" "$file")"
done
