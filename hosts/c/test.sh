#!/bin/sh
# Builds list.c over the archive. What it prints, and what the program cutlist prints where it is built, is held against the
# list of each example card, and against the refusal of no bytes and of more than any card has; list.c also on the card that asks
# for the grid with other bytes there. Then bridges.c on a contour of an example, and feed.c, stack.c and roots.c over the cards of
# the fixed list, roots.c over an archive that counts.
set -eu

cd "$(dirname "$0")/../.."
command -v cc >/dev/null || { echo 'C host: left out, no cc on this machine'; exit 0; }
list=target/staticlib/list
# -lm: the remainder of two floats is the C library's fmod
cc -std=c11 -O2 -Wall -Wextra -Werror -pedantic -o "$list" hosts/c/list.c target/staticlib/libhost.a -lm
bridges=target/staticlib/bridges
cc -std=c11 -O2 -Wall -Wextra -Werror -pedantic -o "$bridges" hosts/c/bridges.c target/staticlib/libhost.a -lm
feed=target/staticlib/feed
cc -std=gnu11 -O2 -Wall -Wextra -Werror -pedantic -pthread -o "$feed" hosts/c/feed.c target/staticlib/libhost.a -lm
stack=target/staticlib/stack
cc -std=gnu11 -O2 -Wall -Wextra -Werror -pedantic -pthread -o "$stack" hosts/c/stack.c target/staticlib/libhost.a -lm
hosts/native/archive.sh --counted host
roots=target/counted/roots
cc -std=gnu11 -O2 -Wall -Wextra -Werror -pedantic -o "$roots" hosts/c/roots.c target/counted/libhost.a -lm

prints() { # WORDS..: the program, run on every input
    cards=0
    for card in examples/*.card; do
        "$@" <"$card" | cmp - "${card%.card}.list"
        cards=$((cards + 1))
    done
    echo 'REFUSED 1 AT 0' >target/staticlib/due
    "$@" </dev/null | cmp - target/staticlib/due
    echo "REFUSED 1 AT $over" >target/staticlib/due
    head -c 1000000 /dev/zero | "$@" | cmp - target/staticlib/due
}

# the place of what is longer than any card: one byte more than the header's most
over=$(($(echo 'JL_CARD_BYTES + 1' | cc -E -P -xc -include hosts/c/jambolive.h - | tail -n 1)))
prints "$list"
echo "C host: $cards cards print their lists, no bytes and a million are refused"
# the card that asks for the grid, with another byte where it asks, and the check that its head then has: byte p counts p + 1
# times
grid_at=$(($(echo JL_GRID_AT | cc -E -P -xc -include hosts/c/jambolive.h - | tail -n 1)))
asking() { # BYTE
    sum=$(($(od -An -tu4 -j508 -N4 examples/grid.card) + (grid_at + 1) * ($1 - 1)))
    head -c $grid_at examples/grid.card
    printf "\\$(printf %o "$1")"
    head -c 508 examples/grid.card | tail -c +$((grid_at + 2))
    for shift in 0 8 16 24; do printf "\\$(printf %o $((sum >> shift & 255)))"; done
    tail -c +513 examples/grid.card
}
asking 1 | cmp - examples/grid.card
asking 2 | "$list" >target/staticlib/printed
echo 'REFUSED 4 AT 8' | cmp - target/staticlib/printed
asking 0 | "$list" >target/staticlib/printed
if cmp -s target/staticlib/printed examples/grid.list; then
    echo 'C host: the same length where the grid is not asked for'
    exit 1
fi
grep -v RAPID examples/grid.list >target/staticlib/lines
grep -v RAPID target/staticlib/printed | cmp - target/staticlib/lines
echo 'C host: another length where the grid is not asked for, and a byte above 1 is refused'
# as samples.rs writes it
"$bridges" 0 2 0 30.5 100 <examples/sheet.card | cmp - examples/sheet.bridges
echo 'REFUSED 18 AT 4' >target/staticlib/due
"$bridges" 0 2 0 30.5 1e6 <examples/sheet.card | cmp - target/staticlib/due
echo 'C host: the bridges of a contour, and a centre that is refused'
"$feed" <crates/replay/data/cards
"$stack" <crates/replay/data/cards
"$roots" <crates/replay/data/cards
cutlist=crates/cutlist/out/cutlist
if [ -x $cutlist ]; then
    prints $cutlist
    echo "cutlist: $cards cards print their lists, no bytes and a million are refused"
else
    echo "cutlist: left out, $cutlist is not there (rt ci and make job build it)"
fi
