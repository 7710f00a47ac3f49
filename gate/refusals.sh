#!/bin/sh
# refusals.sh [TOP]: holds what each wrong program says of its refusal against the facts that tries.py left in TOP/target.
#
# A sweep, crates/NAME/must-fail/*.edit, tries many wrong programs at once, and rt is content if anything in it is refused. So
# each wrong program stands there under its name, `wrong: NAME`, and behind each of its replacements a line `refused: PLACE FACT`
# says which fact of which function or file of proofs the prover must refuse. (rt reads neither line; each may begin with `# `.)
# It fails unless every fact named is refused, no two of a sweep name the same one, and docs/PROMISES.md has the name. In a sweep
# of bodies each replacement is refused in the function that it changes, and no function is changed by two wrong programs;
# replacements share a line only where they make one change of one function or statement. Goals and steps are named after the
# code: where a wrong program has other names, replacements in its function's proof, and only there, put them in place of the
# right ones, or leave out of a list what it has not, and change nothing else: so the proof is tried on the wrong program, and
# does not fail for a name.
set -eu

cd "${1:-$(dirname "$0")/..}"
awk '
function bad(what) { print sweep ": " wrong ": " what; failed = 1 }

# the facts that are refused of a sweep, as refused[PLACE FACT]
function read_facts(name,    line) {
    delete refused
    while ((getline line < name) > 0) refused[line] = 1
    close(name)
}

# the facts refused at the place of this one
function others(fact,    place, it, all) {
    place = fact; sub(/ .*/, "", place)
    for (it in refused) if (index(it, place " ") == 1) all = all " " substr(it, length(place) + 2)
    return all == "" ? " none" : all
}

# the function of a source file in which a text stands
function holder(name, text,    line, found, last) {
    while ((getline line < name) > 0) {
        if (match(line, /^ *(pub(\([a-z]+\))? )?(extern "C" )?fn [a-z_0-9]+/)) {
            last = substr(line, RSTART, RLENGTH)
            sub(/^.*fn /, "", last)
        }
        if (index(line, text)) found = last
    }
    close(name)
    return found
}

function end_wrong() {
    if (wrong != "" && open != 0) bad(open " replacements and no refusal")
    if (wrong != "" && told == 0) bad("no refusal")
    open = told = 0
}

FNR == 1 {
    end_wrong()
    wrong = ""; sweeps++
    sweep = FILENAME
    crate = sweep; sub(/\/must-fail\/.*/, "", crate)
    label = sweep; sub(/.*\//, "", label); sub(/\.edit$/, "", label)
    read_facts("target/must-fail/" substr(crate, 8) "/" label ".facts")
    delete used; delete changed
    of_bodies = (label !~ /^statements/)
}
/^(# )?wrong: / {
    end_wrong()
    wrong = $0; sub(/^(# )?wrong: /, "", wrong); wrongs++; told = 0
    if (!(wrong in promised)) bad("docs/PROMISES.md does not name it")
}
/^file: / { file = substr($0, 7) }
# a line of a proof without the names of goals and steps
function nameless(text) {
    gsub(/c\.[a-z_0-9]+(-[A-Za-z_0-9]+)*|[A-Za-z_0-9]+(-[A-Za-z_0-9]+)+/, "@", text)
    gsub(/@\.[a-z_.]+, /, "", text)
    return text
}

/^old: / && file ~ /^proofs\// {
    was = substr($0, 6)
    if (!of_bodies || !open || index(file, "proofs/" own "/") != 1) bad(file " is no proof of what it changes")
    next
}
/^new:/ && file ~ /^proofs\// {
    if ($0 != "new:" && nameless(substr($0, 6)) != nameless(was)) bad("it changes more than names: " was)
    next
}
/^old: / {
    if (wrong == "") bad("a replacement that has no name")
    if (of_bodies) {
        own = holder(crate "/" file, substr($0, 6))
        if (open > 0 && own != before) bad("one refusal for " before " and " own)
        if ((own in changed) && changed[own] != wrong) bad(changed[own] " changes " own " too")
        changed[own] = wrong; before = own
    }
    open++
}
/^(# )?refused: / {
    fact = $0; sub(/^(# )?refused: /, "", fact)
    if (open == 0) bad("a refusal of nothing")
    if (!(fact in refused)) bad("not refused at " fact "; there refused:" others(fact))
    if (fact in used) bad("another wrong program is refused at " fact)
    if (of_bodies && !index("/" fact, "/" own " ")) bad("it is in " own ", not in " fact)
    used[fact] = 1; told++; open = 0
}
END {
    end_wrong()
    if (!failed) print wrongs " wrong programs in " sweeps " sweeps, each refused at its own fact"
    exit failed
}
BEGIN {
    while ((getline line < "docs/PROMISES.md") > 0) {
        n = split(line, words, /[^a-z0-9_]+/)
        for (i = 1; i <= n; i++) promised[words[i]] = 1
    }
}' crates/*/must-fail/*.edit
