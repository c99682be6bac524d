#!/usr/bin/env bash
# Proves and builds programs, puts each at target/bin/NAME, unless it is there and newer than every source: tools/program.sh NAME.. What rt ci
# has built of these sources is taken as it is.
set -euo pipefail
cd "$(dirname "${BASH_SOURCE[0]}")/.."

# Whether a file is there and newer than every source.
current() { # FILE
    [ -f "$1" ] && [ -z "$(find crates crates.txt -name out -prune -o -type f -newer "$1" -print -quit)" ]
}

mkdir -p target/bin
for name in "$@"; do
    program=target/bin/$name made=crates/$name/out/$name
    if current "$program"; then continue; fi
    rm -f "$program"
    if ! current "$made"; then
        # This builds the program and runs it once, on what rt ci runs it on.
        (cd "crates/$name" && rt run < stdin) | cmp - "crates/$name/stdout"
    fi
    cp "$made" "$program"
done
