#!/usr/bin/env bash
# Proves and writes the static library of a crate, by itself desk, to target/staticlib/libNAME.a, unless it is there and newer than every source.
# What C callers link is in a crate of its own, NAME_c, whose functions call those of NAME.
set -eu
cd "$(dirname "${BASH_SOURCE[0]}")/.."
name=${1:-desk}
library=target/staticlib/lib$name.a
if [ ! -f "$library" ] || [ -n "$(find crates crates.txt -name out -prune -o -type f -newer "$library" -print -quit)" ]; then
    rm -f "$library"
    (cd "crates/${name}_c" && rt lib)
    mkdir -p target/staticlib
    cp "crates/${name}_c/out/lib${name}_c.a" "$library"
fi
