#!/usr/bin/env bash
# Times the proved rearrangement of pass rows and a plain Rust one in one run, then compresses sessions of a hundred nearly equal passes as they
# are and as `to_columns` writes them: prints the tables, and writes them to docs/measured. It needs gzip, zstd and xz (Debian's packages gzip,
# zstd and xz-utils).
set -euo pipefail
cd "$(dirname "${BASH_SOURCE[0]}")/.."

missing=()
for tool in gzip zstd xz; do
    command -v "$tool" > /dev/null || missing+=("$tool")
done
if [ "${#missing[@]}" -ne 0 ]; then
    echo "not installed: ${missing[*]} (Debian's packages gzip, zstd and xz-utils); nothing is measured" >&2
    exit 1
fi

mkdir -p docs/measured
work=$(mktemp -d)
trap 'rm -rf "$work"' EXIT
tools/library.sh columns
tools/program.sh to_columns to_rows

# Runs the program of the measurements.
measure() {
    (cd harness && cargo run --offline --locked --release --quiet --package columns --bin measure -- "$@")
}

# A row of the table: a name, and the bytes of both files.
row() { # NAME PLAIN COLUMNS
    awk -v name="$1" -v plain="$2" -v columns="$3" \
        'BEGIN { printf "%-20s %12d %12d %10.1f %%\n", name, plain, columns, 100 * (plain - columns) / plain }'
}

# The same of both files compressed.
compressed() { # FILE COMMAND..
    local file=$1
    shift
    row "$*" "$("$@" -c < "$file.session" | wc -c)" "$("$@" -c < "$file.columns" | wc -c)"
}

# The table of a session, whose file by columns comes back as it was.
sizes() { # NAME WORDS
    local file=$work/$1
    target/bin/to_columns < "$file.session" > "$file.columns"
    target/bin/to_rows < "$file.columns" | cmp - "$file.session"
    printf '\n%s\n%-20s %12s %12s %12s\n' "$2" "" "plain" "by columns" "smaller"
    row "not compressed" "$(wc -c < "$file.session")" "$(wc -c < "$file.columns")"
    compressed "$file" gzip
    compressed "$file" gzip -9
    compressed "$file" zstd
    compressed "$file" zstd -19
    compressed "$file" xz
    compressed "$file" xz -9
}

# Both tables, and the versions of the tools.
compression() {
    printf '\nBytes of a session of a hundred passes as it is and with its passes by columns\n'
    printf 'smaller: by how much the second is, of the first; below 0 it is larger\n'
    sizes nearly-equal "Passes that differ in one clear value, a resolve target and few operations"
    sizes fading "The same passes, with other clear values for every colour"
    printf '\n'
    for tool in gzip zstd xz; do
        "$tool" --version | sed -n 1p
    done
}

measure --files "$work"
{
    measure
    compression
} | tee docs/measured/columns.txt
