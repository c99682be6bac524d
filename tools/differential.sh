#!/usr/bin/env bash
# The long comparison of the proved library with the Rust: all systematic sets and two million random passes. Words are handed on and come
# first: --seed S, --passes N. Its counts are written to docs/measured.
set -euo pipefail
cd "$(dirname "${BASH_SOURCE[0]}")/.."
mkdir -p docs/measured
tools/library.sh
cd harness
cargo run --offline --locked --release --quiet --package runs --bin differential -- "$@" --enumerated --passes 2000000 | tee ../docs/measured/differential.txt
