#!/bin/sh
# archive.sh [--covered|--counted] NAME..: proves crates/NAME_c, the exports of the library NAME, and writes its archive as
# target/staticlib/libNAME.a. --covered writes target/covered/libNAME.a, which counts which of its code is reached, and --counted
# target/counted/libNAME.a, in which each root calls a function of the caller's (roots.txt).
#
# rt builds the libraries below where they have changed. Where JAMBOLIVE_GATED is set, `rt ci` has just built them all here, and they are
# taken as they are, unless rt had built some before: then those stand there again. The archives that count are built over the same
# libraries by the same rattle; only the compiler that its code goes to is another, clang.sh, in a folder of links to the kit's tools.
set -eu

cd "$(dirname "$0")/../.."
top=$(pwd -P)
kit=$(hosts/native/kit.sh)
kind=staticlib counting='' only=''
case ${1:-} in
--covered) kind=covered counting=-fsanitize-coverage=inline-8bit-counters; shift ;;
# at -O0 no root is merged into its caller
--counted) kind=counted counting='-O0 -fsanitize-coverage=func,trace-pc-guard' only=$top/hosts/native/roots.txt; shift ;;
--*) echo "archive.sh: $1 is no kind of archive" >&2; exit 2 ;;
esac
scratch=$(mktemp -d)
trap 'rm -rf "$scratch"' EXIT

tools=$kit/toolchain
if [ "$kind" != staticlib ]; then
    # (in the checkout rt takes no links)
    tools=$scratch/tools
    mkdir -p "$tools/bin"
    for part in "$kit"/toolchain/* "$kit"/toolchain/bin/*; do
        case $part in */toolchain/bin | */bin/clang) ;; *) ln -s "$part" "$tools/${part#"$kit"/toolchain/}" ;; esac
    done
    { printf '#!/bin/sh\nreal="%s" counting="%s" only="%s"\n' "$kit/toolchain/bin/clang" "$counting" "$only"; cat hosts/native/clang.sh; } \
        >"$tools/bin/clang"
    chmod +x "$tools/bin/clang"
fi

if [ -n "${JAMBOLIVE_GATED:-}" ] && ! ls crates/*/out/rlib/stamp >/dev/null 2>&1; then gated=yes; else gated=; fi
for name in "$@"; do
    echo "archive.sh: $kind/lib$name.a"
    if [ -z "$gated" ]; then
        # (rt sets no status of its own where it is piped)
        (cd "crates/${name}_c" && rt lib) >"$scratch/log" 2>&1 || { cat "$scratch/log"; exit 1; }
    fi
    if [ "$kind" = staticlib ] && [ -z "$gated" ]; then
        cp "crates/${name}_c/out/lib${name}_c.a" "$scratch/lib$name.a"
    else
        set -- "$kit/bin/rattle" build
        while IFS= read -r word; do set -- "$@" "$word"; done <<WORDS
$(hosts/native/words.sh "${name}_c")
WORDS
        (cd "crates/${name}_c" && "$@" --jobs 2 --backend llvm --toolchain "$tools" -o "$scratch/lib$name.a") >"$scratch/log" 2>&1 \
            || { cat "$scratch/log"; exit 1; }
    fi
    tail -n 1 "$scratch/log"
    mkdir -p "target/$kind"
    mv "$scratch/lib$name.a" "target/$kind/"
done
