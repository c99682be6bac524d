#!/usr/bin/env bash
# Fuzzes the C functions: tools/fuzz.sh [INPUTS], ten million if none are named. With clang's libFuzzer (Debian's clang and libclang-rt-dev),
# which starts from the example sessions; and then with the harness's own mutator, which holds every answer to the model. What they print is
# written to docs/measured.
set -euo pipefail
cd "$(dirname "${BASH_SOURCE[0]}")/.."
mkdir -p docs/measured
inputs=${1:-10000000}
log=$PWD/docs/measured/fuzz.txt
tools/library.sh
work=$(mktemp -d)
trap 'rm -rf "$work"' EXIT
if echo 'int LLVMFuzzerTestOneInput(const char *d, unsigned long n) { return 0; }' |
    clang -x c - -fsanitize=fuzzer -o "$work/probe" 2> /dev/null; then
    clang -O2 -Wall -fsanitize=fuzzer -Iinclude harness/c/fuzz.c target/staticlib/libdesk.a -o "$work/fuzz"
    mkdir "$work/corpus"
    # An input is eight control bytes and a session.
    find examples -name '*.session' -size -16k | while read -r file; do
        { printf '\0\377\0\0\0\0\0\0'; cat "$file"; } > "$work/corpus/$(basename "$file")"
    done
    (cd "$work" && ./fuzz -runs="$inputs" -seed=9 -max_len=4096 -print_final_stats=1 -verbosity=0 corpus) 2>&1 | grep -v -e '^"' -e '^###' | tee "$log"
else
    echo "clang has no libFuzzer here: only the harness's mutator runs" | tee "$log"
fi
cd harness
cargo run --offline --locked --release --quiet --package runs --bin fuzz -- --inputs "$inputs" --seed 9 | tee -a "$log"
