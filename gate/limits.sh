#!/bin/sh
# limits.sh [TOP]: the limits of a card and of bridges where they are said once more for those who cannot take them from the
# code, the C header and docs/CARD.md, are the numbers that the code names.
set -eu

cd "${1:-$(dirname "$0")/..}"
code() { # NAME: the number that the code names
    sed -n "s/^pub const $1: usize = \([0-9]*\);\$/\1/p" crates/closure/src/lib.rt crates/fields/src/lib.rt crates/block/src/lib.rt \
        crates/bridge/src/lib.rt
}
status=0
due() { # FILE LINE: a line of the file begins so
    grep -q "^$2" "$1" || { echo "$1: no line begins «$2»"; status=1; }
}
for name in CONTOURS PAIRS VERTICES BRIDGES BLOCK PAIRS_A_BLOCK; do
    due hosts/c/jambolive.h "#define JL_$name $(code $name)\$"
done
card=docs/CARD.md
bytes=$(code CARD_BYTES)
blocks=$((bytes / $(code BLOCK)))
due $card "A card is one file of 1 to $blocks blocks of $(code BLOCK) bytes"
due $card "| 4 | n, contours, 2 bytes | at most $(code CONTOURS) |"
due $card "| 6 | m, pairs, 2 bytes | at most $(code PAIRS) |"
due $card "| 8 | c, candidates of a contour, 2 bytes | 1 to $(code PER_CONTOUR), and n times c at most $(code CANDIDATES) |"
due $card "| 10 | passes of the search, 2 bytes | at most $(code PASSES);"
due $card "| 8 | v, vertices, 2 bytes | 1 to $(code VERTICES) |"
longer="its length; $((bytes + 1)) for all that is longer than $bytes |"
due $card "| 1 | the file is empty, has a broken block or more than $blocks | $longer"
due $card "| 13 | then: a piece with bytes, or the asking, with a byte room that is smaller than the longest card | $bytes |"
due $card "| 13 | there are more than $(code BRIDGES) centres | $(code BRIDGES) |"
due $card "up to $(code BRIDGES) centres, each a distance"
due $card "| 6 | the contour has no vertex, or more than $(code VERTICES);"
# what the header works out from its own
if [ "$bytes" -ne $(($(code BLOCK) * (1 + $(code CONTOURS) + ($(code PAIRS) + $(code PAIRS_A_BLOCK) - 1) / $(code PAIRS_A_BLOCK)))) ]; then
    echo 'the longest card is not the one with the most contours and pairs'
    status=1
fi
[ "$status" -ne 0 ] || echo "limits: the header and docs/CARD.md say the code's"
exit $status
