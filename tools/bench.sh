#!/usr/bin/env bash
# Times the proved library and the Rust in one run, then its reader and submission: prints the tables, and writes them and the plots to
# docs/measured.
set -euo pipefail
cd "$(dirname "${BASH_SOURCE[0]}")/.."
mkdir -p docs/measured
tools/library.sh
cd harness
cargo run --offline --locked --release --quiet --package runs --bin bench -- --plots ../docs/measured | tee ../docs/measured/bench.txt
cargo run --offline --locked --release --quiet --package readers --bin speed | tee ../docs/measured/speed.txt
