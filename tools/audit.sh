#!/usr/bin/env bash
# What is promised, what it rests on and what is assumed, with file and line: reads the sources and asks the kit, which proves what is not proved
# yet. Fails on a hole, an axiom, a C function of a crate's own, a `requires` of an exported function, a theorem without proof, and a file that the
# promises rest on and docs/DEFINITION.md does not name. The last line says 'audit: ok', or how many things failed.
set -u
cd "$(dirname "$0")/.." || exit 2
logs=$(mktemp -d) || exit 2
trap 'rm -rf "$logs"' EXIT

failed=0
fail() { echo "FAILED: $*"; failed=$((failed + 1)); }

# ── the promises, as the sources have them

mapfile -t definitions < <(find crates/*/specs -name '*.antt' | sort)
mapfile -t proofs < <(find crates/*/proofs -name '*.antt' | sort)
mapfile -t code < <(find crates/*/src -name '*.rt' | sort)
awk -f tools/audit.awk "${definitions[@]}" "${proofs[@]}" "${code[@]}" docs/DEFINITION.md | tee "$logs/promises"
[ "${PIPESTATUS[0]}" -eq 0 ] || fail "tools/audit.awk did not end"
failed=$((failed + $(grep -c '^FAILED: ' "$logs/promises")))

# ── nothing is left open and nothing is assumed in the sources

# Lines of a text without its comments and byte strings, each with its place.
texts() {
    awk '{ sub(FILENAME ~ /\.rt$/ ? "//.*" : "--.*", ""); gsub(/b"[^"]*"|b.\?./, ""); print FILENAME ":" FNR ":  " $0 }' "$@"
}

# Counts the lines that a pattern finds; there should be none.
none() { # WHAT PATTERN FILES..
    local what=$1 pattern=$2 n
    shift 2
    texts "$@" | grep -E "^[^ ]* .*($pattern)" > "$logs/found"
    n=$(wc -l < "$logs/found")
    echo "  $n $what in $# files"
    [ "$n" -eq 0 ] || { cat "$logs/found"; fail "$n $what"; }
}
echo
echo "What is left open or assumed in the sources:"
none "holes (?, {! !})" '\?|\{!' "${definitions[@]}" "${proofs[@]}"
# (behind a value, ? is the code's own operator)
none "holes in clauses" '[[:space:](]\?|\{!' "${code[@]}"
none "axioms" '(^|[^[:alnum:]_-])axiom([^[:alnum:]_-]|$)|Prim\.Axiom' "${definitions[@]}" "${proofs[@]}" "${code[@]}"
none "C functions that a crate declares" 'extern "C" *\{' "${code[@]}"

# ── what the kit says

echo
echo "What the kit says:"

# Where the kit declares a C function, as libc::read or libc::heap::rattle_alloc.
kit=$(dirname "$(rt doc)")/rattle
declared() { # CRATE::..::FUNCTION
    grep -rn "fn ${1##*::}(" "$kit/${1%%::*}/src" | head -n 1 | sed -e "s|^$kit/||" -e 's/:\([0-9]*\):.*/:\1/'
}

# Proves a crate, over what earlier checks kept, and leaves its last line in `line`, which is no verdict where the crate is not proved.
# Of a program and of a static library the check also lists the C functions whose contracts the verdict rests on, in all the crates that it reaches.
proved() { # WHAT NAME
    (cd "crates/$2" && rt check --list-axioms) > "$logs/check" 2>&1
    line=$(grep '^logic=' "$logs/check" | tail -n 1)
    case $line in
    "logic=proved "*foreign=* | "logic=proved "*pinned=no*) fail "$1 $2: $line" ;;
    "logic=proved "*) return 0 ;;
    *)
        grep -E '^fn .*: (not proved|no proof)|error' "$logs/check" | head -n 5
        fail "$1 $2: ${line:-rt check gave no verdict}"
        ;;
    esac
    return 1
}

# What a program, or a library that C callers link, assumes of C functions.
assumes() { # WHAT NAME
    local word
    proved "$1" "$2" || return
    echo "  $1 $2 assumes $(sed -n 's/.* axioms=\([0-9]*\).*/\1/p;t;s/.*/no/;p' <<< "$line") C functions"
    sed -n '/^axioms /,$ s/^  \([A-Za-z0-9_:]*\)  *reached$/\1/p' "$logs/check" | while read -r word; do
        echo "    $word  (kit) $(declared "$word")"
    done
    if [ "$1" = "the library" ] && [[ $line == *axioms=* ]]; then fail "$1 $2 rests on axioms"; fi
    last=$line
}

# The crates of crates.txt, lowest first: the last line of a library that is proved names no C function that is assumed. What reads and writes by std
# rests on the kit's C functions, which a program's own check lists below, and that of a static library, which C callers link, too.
libraries=0 functions=0 programs=() exporting=() last=
while IFS=: read -r name _; do
    read -r name kind <<< "$name"
    if [ -f "crates/$name/src/main.rt" ]; then
        programs+=("$name")
        continue
    fi
    if [[ $kind == *staticlib* ]]; then
        exporting+=("$name")
        continue
    fi
    if grep -rqsE '^(pub )?(unsafe )?extern "C" fn ' "crates/$name/src"; then fail "the library $name exports a C function, and is no static library"; fi
    if proved "the library" "$name"; then
        if [[ $line == *axioms=* ]]; then fail "the library $name: $line"; fi
        libraries=$((libraries + 1)) functions=$((functions + $(expr "$line" : '.*functions=\([0-9]*\)')))
    fi
done < <(sed 's/#.*//' crates.txt | grep :)
echo "  $libraries libraries proved, $functions functions, with no hole and no axiom"
for name in "${exporting[@]}"; do assumes "the library" "$name"; done
for name in "${programs[@]}"; do assumes "the program" "$name"; done
echo "  the words of a last line (docs/PROVING.md): $last"

# ── the kit

echo
here=$(rt version) measured=$(cat docs/measured/kit.txt)
if [ "$here" = "$measured" ]; then
    echo "The kit is the one that docs/measured was made with: $here"
else
    echo "The kit is another than the one that docs/measured was made with: $here, and not $measured"
fi

if [ "$failed" -ne 0 ]; then
    echo "audit: $failed failed"
    exit 1
fi
echo "audit: ok"
