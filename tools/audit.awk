# Reads contracts, definitions and proofs as text, for tools/audit.sh: awk -f tools/audit.awk FILES, the files being all of crates/*/specs and
# crates/*/proofs, the code, and docs/DEFINITION.md. Prints the three promises with their places, the theorems about columns, and what they rest on. A line that starts
# with 'FAILED: ' says what does not hold.

# The file of a module of specs/, as of Rattle.lists.specs.Lists; of any other module nothing.
function file_of(module,    crate, path) {
    if (module !~ /^Rattle\.[^.]*\.specs\./) return ""
    sub(/^Rattle\./, "", module)
    crate = path = module
    sub(/\..*/, "", crate)
    sub(/^[^.]*\.specs\./, "", path)
    gsub(/\./, "/", path)
    return "crates/" crate "/specs/" path ".antt"
}

# Notes what a `use` line brings into a file: names of a module, or the module under another name.
function takes(file, line,    module, names, n, i, parts) {
    gsub(/^(ghost )?use |;$/, "", line)
    if (line ~ / as /) {
        split(line, parts, " as ")
        if (file_of(parts[1]) != "") named[file, parts[2]] = file_of(parts[1])
        return
    }
    module = names = line
    sub(/\.\{.*/, "", module)
    sub(/^[^{]*\{/, "", names)
    sub(/\}.*/, "", names)
    if (file_of(module) == "") return
    n = split(names, parts, /, */)
    for (i = 1; i <= n; i++) {
        from[file, parts[i]] = file_of(module)
        full[file, bare(parts[i])] = parts[i]
    }
}

# The word by which a text cites a name: `then` for `◌then◌`.
function bare(name) {
    gsub(/^◌|◌$/, "", name)
    return name
}

# A name of a file that is to be visited: a constructor stands for its type.
function visit(file, name) {
    if ((file, name) in type_of) name = type_of[file, name]
    if (((file, name) in at) && !((file, name) in seen)) {
        seen[file, name] = 1
        queue[++queued] = file SUBSEP name
    }
}

# Visits what a text of a file cites.
function cites(file, line,    n, i, words, parts) {
    gsub(/[(){};,]/, " ", line)
    n = split(line, words, " ")
    for (i = 1; i <= n; i++) {
        if (words[i] ~ /^\./) continue
        split(words[i], parts, ".")
        if (((file, parts[1]) in named) && parts[2] != "") visit(named[file, parts[1]], parts[2])
        else if ((file, parts[1]) in full) visit(from[file, full[file, parts[1]]], full[file, parts[1]])
        else if ((file, parts[1]) in own) visit(file, own[file, parts[1]])
    }
}

# Empties what was visited; then visits what is cited, and what that cites.
function restart(    k) {
    for (k in seen) delete seen[k]
    queued = 0
}
function follow(    done, parts) {
    for (done = 1; done <= queued; done++) {
        split(queue[done], parts, SUBSEP)
        cites(parts[1], text[parts[1], parts[2]])
    }
}

# The names that are visited, in the order of the visit; below a record of promises, what its fields cite besides.
function show(    i, j, first, last, parts) {
    last = queued
    for (i = 1; i <= last; i++) {
        split(queue[i], parts, SUBSEP)
        printf "    %s  %s:%d\n", parts[2], parts[1], at[parts[1], parts[2]]
        if (!((parts[1], parts[2]) in is_record)) continue
        first = queued + 1
        cites(parts[1], text[parts[1], parts[2]])
        for (j = first; j <= queued; j++) {
            split(queue[j], parts, SUBSEP)
            printf "      %s  %s:%d\n", parts[2], parts[1], at[parts[1], parts[2]]
        }
    }
}

# The statements of theorems with their proofs: those of pass rows by columns, or the others.
function theorems(of_columns,    i, part) {
    for (i = 1; i <= stated; i++) {
        split(statements[i], part, SUBSEP)
        if ((part[1] ~ /^crates\/column/) != of_columns) continue
        printf "  %s  %s:%d\n", part[2], part[1], at[part[1], part[2]]
        if (part[2] in proof) printf "    %s\n", proof[part[2]]
        else print "FAILED: no proof of " part[2]
        found[part[2]] = 1
    }
}

FNR == 1 { current = function_at = ""; type = 0; there[FILENAME] = 1 }

# ── definitions

FILENAME ~ /\/specs\/.*\.antt$/ {
    line = $0
    sub(/--.*/, "", line)
    if (line ~ /^use /) { takes(FILENAME, line); next }
    if (line ~ /^(pub )?mod / || line ~ /^infix/) next
    # A name with its type starts a definition: at the margin, or below `module .. where` with its mark.
    if (line ~ /^[^ ]/ || line ~ /^ +(abbrev|unfoldable) /) {
        head = line
        gsub(/^ *(abbrev |unfoldable |pub )+/, "", head)
        type = head ~ /^(record|data) /
        if (type || head ~ /^[^ ]+ :/) {
            promises = head ~ /^record /
            sub(/^(record|data) /, "", head)
            current = head
            sub(/[ ({].*/, "", current)
            at[FILENAME, current] = FNR
            own[FILENAME, bare(current)] = current
            if (promises) is_record[FILENAME, current] = 1
            if (FILENAME ~ /\/Theorem\.antt$/ && head ~ /^[^ ]+ : Type [01]$/) statements[++stated] = FILENAME SUBSEP current
        }
    } else if (type && line ~ /^  [^ ]+ :/) {
        head = line
        sub(/^ +/, "", head)
        sub(/ .*/, "", head)
        type_of[FILENAME, head] = current
        own[FILENAME, head] = head
    }
    text[FILENAME, current] = text[FILENAME, current] " " line
}

# ── proofs: a theorem's type is the statement's name

FILENAME ~ /\/proofs\/.*\.antt$/ && /^pub [^ ]+ : [A-Z][A-Za-z]*$/ { proof[$4] = $2 "  " FILENAME ":" FNR }

# ── code: the contracts of functions

FILENAME ~ /\.rt$/ {
    if ($0 ~ /^ghost use /) takes(FILENAME, $0)
    if ($0 ~ /^(pub )?(extern "C" )?fn /) {
        name = $0
        sub(/[(<].*/, "", name)
        sub(/.* /, "", name)
        exported = $0 ~ /^pub extern "C" fn /
        handed = FILENAME ~ /^crates\/columns\// && $0 ~ /^pub fn /
        if (exported || handed || FILENAME ~ /^crates\/(report|deskcheck|column_files)\//) {
            function_at = FILENAME SUBSEP name
            functions[++contracts] = function_at
            line_of[function_at] = FNR
            is_exported[function_at] = exported
            is_handed[function_at] = handed
        }
    }
    if (function_at != "") {
        line = $0
        sub(/\/\/.*/, "", line)
        if (line ~ /^[^"]*requires/) asked[function_at]++
        if (line ~ /^ *ensures/) promised[function_at]++
        contract[function_at] = contract[function_at] " " line
        if (line ~ /^\{$/ || line ~ /^(pub|fn|\)).*\{$/) function_at = ""
    }
}

# ── docs/DEFINITION.md: in its tables of files a row's file, and the names that it has of it

FILENAME ~ /DEFINITION\.md$/ && !/^\|/ { of_files = 0 }
FILENAME ~ /DEFINITION\.md$/ && /^\| File \|/ { of_files = 1; next }
FILENAME ~ /DEFINITION\.md$/ && of_files && /^\| / {
    n = split($0, cell, " *\\| *")
    if (cell[2] != "") {
        row_file = cell[2] ~ /\// ? cell[2] : "definition/" cell[2]
        crate = row_file
        sub(/\/.*/, "", crate)
        sub(/^[^\/]*\//, "", row_file)
        row_file = "crates/" crate "/specs/" row_file ".antt"
        in_rows[row_file] = 1
    }
    n = split(cell[3], words, "`")
    for (i = 2; i <= n; i += 2) row_name[row_file, words[i]] = FNR
}

# ── what is said

END {
    print "1. Every byte string and every pass gets a reply: no exported function has a `requires`."
    for (i = 1; i <= contracts; i++) {
        f = functions[i]
        if (!is_exported[f]) continue
        split(f, part, SUBSEP)
        printf "  %s:%d: %s: %d requires\n", part[1], line_of[f], part[2], asked[f]
        count++
        if (asked[f]) print "FAILED: " part[2] " has a requires"
    }
    if (!count) print "FAILED: no exported function"
    for (i = 1; i <= contracts; i++) if (is_exported[functions[i]]) { split(functions[i], part, SUBSEP); exported_name[part[2]] = 1 }
    # The C functions stand in crates of their own, and each calls the function of its name below: its contract is told once.
    for (i = 1; i <= contracts; i++) { split(functions[i], part, SUBSEP); if (part[2] in exported_name) is_handed[functions[i]] = 0 }

    print "\n2. It answers as the definition says: what the contract of each exported function cites, of each that hands a part back to Rattle callers, and of each function of a program that promises its text."
    for (i = 1; i <= contracts; i++) {
        f = functions[i]
        split(f, part, SUBSEP)
        restart()
        cites(part[1], contract[f])
        if (!is_exported[f] && !is_handed[f]) {
            follow()
            if (!(("crates/report/specs/Output.antt", "output") in seen)) continue
            restart()
            cites(part[1], contract[f])
        }
        printf "  %s:%d: %s: %d ensures\n", part[1], line_of[f], part[2], promised[f]
        show()
        if (!promised[f] || !queued) print "FAILED: " part[2] " promises nothing"
        roots[++root] = f
    }

    print "\n3. No unwritten or discarded memory ever becomes visible: each theorem as a statement, and its proof."
    theorems(0)
    print "\nPass rows by columns come back: each theorem as a statement, and its proof."
    theorems(1)
    n = split("DemandThree NeverSix DemandThreeOfCalls NeverSixOfCalls Inverse CallsInverse FilesBack", must, " ")
    for (i = 1; i <= n; i++) if (!(must[i] in found)) print "FAILED: no statement " must[i]

    print "\nWhat has to be believed: the definitions that these contracts and statements rest on, by file."
    restart()
    for (i = 1; i <= root; i++) { split(roots[i], part, SUBSEP); cites(part[1], contract[roots[i]]) }
    for (i = 1; i <= stated; i++) { split(statements[i], part, SUBSEP); visit(part[1], part[2]) }
    follow()
    for (i = 1; i <= queued; i++) {
        split(queue[i], part, SUBSEP)
        if (!definitions[part[1]]++) files[++filed] = part[1]
    }
    for (i = 2; i <= filed; i++)
        for (j = i; j > 1 && files[j] < files[j - 1]; j--) { f = files[j]; files[j] = files[j - 1]; files[j - 1] = f }
    for (i = 1; i <= filed; i++) {
        printf "  %-50s %3d\n", files[i], definitions[files[i]]
        if (!(files[i] in in_rows)) print "FAILED: docs/DEFINITION.md has no row of " files[i]
    }
    printf "  %d definitions in %d files\n", queued, filed
    for (k in in_rows) if (!(k in there)) print "FAILED: docs/DEFINITION.md has a row of " k ", which is not there"
    for (k in row_name) {
        split(k, part, SUBSEP)
        if ((part[1] in there) && !((part[1], part[2]) in at) && !((part[1], part[2]) in type_of)) print "FAILED: docs/DEFINITION.md:" row_name[k] " names " part[2] ", which " part[1] " does not have"
    }
}
