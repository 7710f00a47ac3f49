#!/bin/sh
# words.sh CRATE: what `rattle check` and `rattle build` are told of a crate of crates.txt, a word a line: its name and root file,
# its kind, and where its libraries lie, those of the repository as rt built them in crates/*/out/rlib. They are the words that
# `rt check` and `rt ci` give them; a script needs them where rt has no command for what it does.
set -eu

top=$(cd "$(dirname "$0")/../.." && pwd -P)
kit=$("$top/hosts/native/kit.sh")
line=$(sed 's/#.*//' "$top/crates.txt" | grep "^$1\( [^:]*\)\{0,1\}:") || { echo "words.sh: crates.txt has no $1" >&2; exit 2; }
root=src/lib.rt
[ ! -e "$top/crates/$1/src/main.rt" ] || root=src/main.rt
printf '%s\n' --crate-name "$1" "$root" --extern "std=$kit/rlibs/std.rlib" -L "dependency=$kit/rlibs"
for name in ${line#*:}; do
    if [ -d "$top/crates/$name" ]; then library=$top/crates/$name/out/rlib/$name.rlib; else library=$kit/rlibs/$name.rlib; fi
    printf '%s\n' --extern "$name=$library"
done
for folder in "$top"/crates/*/out/rlib; do printf '%s\n' -L "dependency=$folder"; done
printf '%s\n' --antt-project "$kit/rattle/logic/antt-project.json" --logic-built "$kit/logic_built" --links "$1="
case ${line%%:*} in *' staticlib'*) printf '%s\n' --crate-type staticlib ;; esac
