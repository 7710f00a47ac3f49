#!/bin/sh
# contracts.sh [TOP]: every callable function of TOP/crates has its entry in a record of crates/contracts/specs, and
# crates/contracts/proofs has the record. Callable is each `pub fn`, and each function of an `impl TRAIT for TYPE` whose crate keeps
# neither TRAIT nor TYPE to itself (what a derive writes is none of these). An entry has the function's name, or that with _lem,
# or that of a type's function behind its type, as in contour_type_from, and cites all of one contract:
# `Says F.ended F.Reads.Asked F.Reads.Learnt` or, by the clauses themselves, `SaysByHand F.ended (λ M 𝓤. F.clauses)`, where F is
# the function, in a crate that the file names by `use Rattle.CRATE.specs.contracts as ALIAS`, and for what the prover reads by
# `use Rattle.CRATE.proofs as ALIAS`. There a method is TYPE.NAME, and a function of a trait is TYPETRAIT.NAME with the argument of
# the trait in between, as ContourTypeFromU8.from.
# No crate can cite a static library, NAME_c: each function that it exports has instead, word for word, the parameters and the
# contract of the function of that name in the library NAME, and none of NAME's is left out.
set -eu

cd "${1:-$(dirname "$0")/..}"
awk '
function bad(what) { print what; failed = 1 }

# the function that a word names whose last part is the given one, as CRATE::NAME, that of a type as CRATE::TYPE.NAME
function named(word, last,    parts, n) {
    n = length(word) - length(last)
    if (n < 1 || substr(word, n + 1) != last) return ""
    word = substr(word, 1, n)
    n = split(word, parts, ".")
    if (!(parts[1] in crate)) { bad(FILENAME ": no crate is named " parts[1]); return "" }
    return crate[parts[1]] "::" (n > 2 && parts[n - 1] ~ /^[A-Z]/ ? parts[n - 1] "." : "") parts[n]
}

# the impl that a line begins: its name as contracts have it, with its type and its trait
function begin_impl(line,    parts) {
    if (line !~ /^impl(<[^<>]*>)? ([A-Za-z0-9]+(<[A-Za-z0-9]+>)? for )?[A-Za-z0-9]+(<[^<>]*>)? \{\}?$/) {
        bad(FILENAME ": " line ": an impl of another form than is read here")
        return
    }
    sub(/^impl(<[^<>]*>)? /, "", line)
    of_trait = of_argument = ""
    if (split(line, parts, " for ") == 2) {
        of_trait = parts[1]; line = parts[2]
        if (match(of_trait, /<.*>/)) {
            of_argument = toupper(substr(of_trait, RSTART + 1, 1)) substr(of_trait, RSTART + 2, RLENGTH - 3)
            of_trait = substr(of_trait, 1, RSTART - 1)
        }
    }
    of_type = line; sub(/[ <].*/, "", of_type)
    impl = toupper(substr(of_type, 1, 1)) substr(of_type, 2) of_trait of_argument "."
    if (line ~ /\}$/) impl = ""
}

# an entry of the record that is open: its name, and the words after it
function end_entry(    f, name, whole, its, before) {
    whole = 0
    if (words[1] == "Says" || words[1] == "SaysByHand") {
        f = named(words[2], ".ended")
        if (f != "" && words[1] == "Says")
            whole = named(words[3], ".Reads.Asked") == f && named(words[4], ".Reads.Learnt") == f
        else if (f != "")
            whole = words[3] words[4] words[5] == "(λM𝓤." && sub(/\)$/, "", words[6]) && named(words[6], ".clauses") == f
        name = f; sub(/^.*::/, "", name)
        its = before = ""
        if (match(name, /^.*\./)) { its = tolower(substr(name, 1, RLENGTH - 1)); name = substr(name, RLENGTH + 1) }
        if (its != "") { before = entry; if (sub("_" name "$", "", before)) gsub(/_/, "", before); else before = "" }
        if (!whole) bad(FILENAME ": " entry " does not cite one contract whole")
        else if (entry != name && entry != name "_lem" && !(before != "" && index(its, before) == 1))
            bad(FILENAME ": " entry " is the entry of " name)
        else if (!(record in proved)) bad(FILENAME ": crates/contracts/proofs has no " record)
        else said[f]++
    }
    count = 0; delete words
}

# the head of a function, from its parameters on, without what only lays it out
function end_head() {
    gsub(/[ \t]/, "", head); gsub(/,\)/, ")", head)
    heads[own "::" name] = head
    open = 0
}

FILENAME ~ /^crates\/contracts\/proofs\// {
    if (NF == 3 && $2 == ":" && $3 ~ /^Of/) proved[$3] = 1
    next
}
FILENAME ~ /^crates\/contracts\/specs\// {
    if (FNR == 1) { end_entry(); delete crate; record = "" }
    if ($1 == "use" && $3 == "as") {
        name = $2
        if (sub(/^Rattle\./, "", name) && sub(/\.(proofs|specs\.contracts)$/, "", name)) crate[$4] = name
    }
    if ($1 == "pub" && $2 == "record") { end_entry(); record = $3; next }
    if ($0 !~ /^  /) { end_entry(); next }
    first = 1
    if ($1 == "pub" && $3 == ":") { end_entry(); entry = $2; first = 4 }
    for (i = first; i <= NF; i++) words[++count] = $i
    next
}
FNR == 1 { end_entry(); open = 0; impl = ""; own = FILENAME; sub(/^crates\//, "", own); sub(/\/.*/, "", own) }
match($0, /^ *(pub\([a-z]+\) )?(struct|enum|trait) [A-Za-z0-9]+/) {
    name = substr($0, RSTART, RLENGTH); sub(/^.* /, "", name)
    hidden[own "::" name] = 1
}
/^ *(unsafe )?impl[ <]/ { begin_impl($0); next }
/^\}/ { impl = "" }
impl != "" && of_trait != "" && match($0, /^    ((const|unsafe) )*fn [a-z_0-9]+/) {
    name = substr($0, RSTART, RLENGTH); sub(/^.* /, "", name)
    f = own "::" impl name
    needs[f]++; its_trait[f] = own "::" of_trait; its_type[f] = own "::" of_type
    next
}
match($0, /^ *pub (extern "C" )?fn [a-z_0-9]+/) {
    name = substr($0, RSTART, RLENGTH); sub(/^.* /, "", name)
    name = impl name
    open = 1; head = substr($0, RSTART + RLENGTH)
    if (own ~ /_c$/) exported[own "::" name] = 1
    else {
        callable++
        if (++seen[own "::" name] > said[own "::" name]) bad(own "::" name ": no entry in crates/contracts/specs")
    }
    if (sub(/ \{$/, "", head)) end_head()
    next
}
open && /^ *\{$/ { end_head() }
open { head = head $0 }
END {
    for (f in needs) if (!(its_trait[f] in hidden) && !(its_type[f] in hidden)) {
        callable += needs[f]
        if (needs[f] > said[f]) bad(f ": no entry in crates/contracts/specs")
    }
    for (f in exported) {
        library = f; sub(/_c::/, "::", library)
        own = f; sub(/::.*/, "", own); static[own] = 1
        if (heads[f] != heads[library]) bad(f ": not the parameters and the contract of " library)
        exports++
    }
    for (f in seen) {
        own = f; sub(/::.*/, "", own)
        name = f; sub(/^.*::/, "", name)
        if ((own "_c") in static && !((own "_c::" name) in exported)) bad(f ": no export in " own "_c")
    }
    if (!failed) print callable " callable functions, the contract of each cited whole in crates/contracts" \
        (exports ? "; " exports " exports, each with the contract of its library" : "")
    exit failed
}' crates/contracts/proofs/*.antt crates/contracts/specs/*.antt crates/*/src/*.rt
