#!/usr/bin/env bash
# Edits of `definition` that the proof of the theorems must refuse: tools/definition-edits.sh [FOLDER/NAME..], all of them if none is named.
# `rt must-fail` tries an edit on its own crate alone, so each edit of crates/noninterference/definition-edits is made on a copy of the three
# crates, without the computed checks and the code, and the fact that the edit names must be the first that fails there. An edit has one or
# more pairs of old and new text, as must-fail edits have. EDIT_JOBS run at a time (default 2).
# Last line: 'N passed, M failed'. What each check says stays in EDIT_LOGS (default target/definition-edits).
set -u
cd "$(dirname "$0")/.." || exit 2

edits=crates/noninterference/definition-edits
logs=${EDIT_LOGS:-$PWD/target/definition-edits}
work=$(mktemp -d) || exit 2
trap 'rm -rf "$work"' EXIT
mkdir -p "$logs" || exit 2
if [ $# -eq 0 ]; then set -- "$edits"/*/*.edit; else set -- "${@/#/$edits/}" && set -- "${@/%/.edit}"; fi

# The crates as every edit finds them, proved: without must-fail edits, without the files of computed checks, and without the code, whose proofs an edit may break first.
mkdir "$work/base" "$work/base/crates" || exit 2
cp -r crates/definition crates/laws crates/noninterference "$work/base/crates/" || exit 2
rm -rf "$work"/base/crates/*/out
grep -E '^(definition|laws|noninterference):' crates.txt > "$work/base/crates.txt"
rm -rf "$work"/base/crates/*/must-fail "$work/base/$edits"
rm -f "$work"/base/crates/definition/specs/{Corners,Sessions,Files}.antt "$work/base/crates/noninterference/proofs/Examples.antt"
rm -rf "$work"/base/crates/definition/{src/verdicts.rt,src/by_refusal.rt,proofs}
sed -i -E '/^pub mod (Corners|Sessions|Files|Examples|(verdicts|by_refusal);)$/d' \
    "$work"/base/crates/definition/{specs/Lib.antt,src/lib.rt} "$work/base/crates/noninterference/proofs/Lib.antt"
(cd "$work/base/crates/noninterference" && rt check) > "$logs/base" 2>&1 || { echo 'the crates are not proved before any edit' >&2 && exit 2; }

# The fact that an edit names.
fact_of() { # EDIT
    sed -n 's/^fact: //p' "$1"
}

# Makes the edit in a crate's folder: each old text occurs once, and the new one takes its place. In both, ⏎ stands for the end of a line.
apply() { # EDIT FOLDER
    local line file='' old='' new text rest pairs=0
    while IFS= read -r line; do
        case $line in
        'file: '*) file=$2/${line#file: } ;;
        'old: '*) old=${line#old: } old=${old//⏎/$'\n'} ;;
        'new: '*)
            new=${line#new: } new=${new//⏎/$'\n'}
            [ -f "$file" ] && [ -n "$old" ] || return 1
            text=$(< "$file")
            rest=${text/"$old"/}
            [ "$rest" != "$text" ] && [ "${rest/"$old"/}" = "$rest" ] || return 1
            printf '%s\n' "${text/"$old"/"$new"}" > "$file"
            old='' pairs=$((pairs + 1))
            ;;
        esac
    done < "$1"
    [ "$pairs" -gt 0 ]
}

# What a check says where a text cannot be read, or names what is not there.
unread='error: .*(not in scope|can be named|has no field|has no `|is no name|operand is missing|expected the end|cannot continue)'

# Tries one edit: prints a line, and leaves the word passed or failed. The check is that of noninterference, which checks definition and laws
# before; its lines on one crate follow those on the crate below.
try() { # EDIT
    local name copy log fact first at place said
    name=$(basename "$1" .edit)
    copy=$work/$name log=$logs/$name
    cp -r "$work/base" "$copy"
    fact=$(fact_of "$1")
    said='NOT REFUSED: the theorem still holds'
    if [ -z "$fact" ] || ! apply "$1" "$copy/crates/definition"; then
        said='BAD EDIT: it names no fact, or its text does not occur once'
    elif ! (cd "$copy/crates/noninterference" && rt check) > "$log" 2>&1; then
        first=$(grep -m 1 -E '^(\./)?[^ ]+:[0-9]+:[0-9]+: error: ' "$log")
        at=${first%%: error: *} place=noninterference/${at#./}
        if grep -q '^rt: the library laws did not build' "$log"; then place=laws/${at#./}; fi
        if ! grep -q '^crate laws: ' "$log"; then
            said='BAD EDIT: it is no definition'
        elif grep -q -E "$unread" "$log"; then
            said='BAD EDIT: a name is missing'
        elif [[ $first != "$at: error: \`$fact\`: "* ]]; then
            said="REFUSED ELSEWHERE: not at $fact, but first at $place"
        else
            said="refused at $fact ($place)"
        fi
    fi
    echo "$name: $said"
    case $said in refused*) echo passed ;; *) echo failed ;; esac > "$work/$name.result"
    rm -rf "$copy"
}

for edit in "$@"; do
    while [ "$(jobs -rp | wc -l)" -ge "${EDIT_JOBS:-2}" ]; do wait -n; done
    try "$edit" &
done
wait

passed=$(cat "$work"/*.result | grep -c passed) failed=$(($# - passed))
echo "$passed passed, $failed failed"
[ "$failed" -eq 0 ]
