#!/bin/sh
# test.sh: refusals.sh must pass a sweep whose wrong programs are each refused at their own fact, and name what is wrong with
# one that has a harmless replacement in it, one refused elsewhere, one told twice, a name that docs/PROMISES.md lacks, one
# that changes more of a proof than names, and so on. The log that tries.py reads the facts from is one of crates/block, cut
# short. And contracts.sh must pass a crate whose callable functions all have their entries, and name one that has none, one
# that cites another's contract, and a record not proved; and likewise for methods and a trait's functions. And limits.sh must
# name a header, a table and a longest card that have another number than the code.
set -eu

here=$(cd "$(dirname "$0")" && pwd -P)
tree=$(mktemp -d)
trap 'rm -rf "$tree"' EXIT
mkdir -p "$tree/docs" "$tree/crates/block/src" "$tree/crates/block/must-fail" "$tree/target/must-fail/block"
cat >"$tree/docs/PROMISES.md" <<'END'
| byte_at | first_byte_for_any (`returns`) | is_checked | check_read_early (`returns-2`) | harmless |
END
cat >"$tree/crates/block/src/lib.rt" <<'END'
pub fn byte_at(s: &[u8], at: usize) -> u8
{
        return s[at];
}

pub fn is_checked(s: &[u8], at: usize) -> bool
{
    check_at(s, at) == u32_at(s, at + CHECK)
}
END
"$here/tries.py" --facts >"$tree/target/must-fail/block/bodies_1.facts" <<'END'
./proofs/is_checked/Answers.antt:20:66: error: `returns`: as printed, the two types differ
./proofs/is_checked/Answers.antt:24:78: error: `spec`: `returns` was not admitted
./proofs/is_checked/Answers.antt:26:31: error: `bounds-at`: record `block.proofs.is_checked.Lts` has no field `if-at` (nearest: .if-s)
note: src/lib.rt:3:9: it is not proved that what the function ensures holds when it returns (`returns-then-at-s`); `search` gave up
fn block::byte_at: not proved
note: src/lib.rt:9:9: it is not proved that the index is below the length (`bounds-s-at`); the facts known there allow values
fn block::wide: no proof: expected answers in ./proofs/wide/Answers.antt; `search` did not prove `bounds-s-at`
fn block::half: proved
END

sweep() { # NAME-OF-THE-SECOND NEW-TEXT REFUSED: a sweep of two wrong programs
    cat >"$tree/crates/block/must-fail/bodies_1.edit" <<END
wrong: first_byte_for_any
file: src/lib.rt
old:         return s[at];
new:         return s[0];
refused: byte_at returns-then-at-s

wrong: $1
old:     check_at(s, at) == u32_at(s, at + CHECK)
new: $2
refused: $3
END
}
script=refusals.sh
says() { # STATUS TEXT: how the script ends on the tree, and what is in the lines that it prints
    status=0
    said=$("$here/$script" "$tree") || status=$?
    case $status:$said in "$1:"*"$2"*) ;; *) echo "gate/test.sh: due was $1 and «$2», got $status and «$said»"; exit 1 ;; esac
}

sweep check_read_early '    check_at(s, at) == u32_at(s, at + 504)' 'is_checked returns'
says 0 '2 wrong programs in 1 sweeps, each refused at its own fact'
sweep harmless '    u32_at(s, at + CHECK) == check_at(s, at)' 'is_checked returns-3'
says 1 'harmless: not refused at is_checked returns-3'
sweep harmless '    u32_at(s, at + CHECK) == check_at(s, at)' 'is_checked spec'
says 1 'harmless: not refused at is_checked spec'
sweep harmless '    u32_at(s, at + CHECK) == check_at(s, at)' 'is_checked bounds-at'
says 1 'harmless: not refused at is_checked bounds-at'
sweep harmless '    u32_at(s, at + CHECK) == check_at(s, at)' 'is_checked returns-then-at-s'
says 1 'harmless: not refused at is_checked returns-then-at-s'
sweep harmless '    u32_at(s, at + CHECK) == check_at(s, at)' 'byte_at returns-then-at-s'
says 1 'harmless: another wrong program is refused at byte_at returns-then-at-s'
says 1 'harmless: it is in is_checked, not in byte_at returns-then-at-s'
sweep unheard_of '    check_at(s, at) == u32_at(s, at + 504)' 'is_checked returns'
says 1 'unheard_of: docs/PROMISES.md does not name it'

# one refusal for two functions, one function changed twice, a replacement without a name, and no log
sweep check_read_early '    check_at(s, at) == u32_at(s, at + 504)' 'is_checked returns'
edit=$tree/crates/block/must-fail/bodies_1.edit
whole=$(cat "$edit")
echo "$whole" | sed '/^refused: byte_at/d; /^wrong: check_read_early/d' >"$edit"
says 1 'first_byte_for_any: one refusal for byte_at and is_checked'
echo "$whole" | sed 's/^old:     check_at.*/old: return s[at];/' >"$edit"
says 1 'check_read_early: first_byte_for_any changes byte_at too'
echo "$whole" | sed '/^wrong: /d' >"$edit"
says 1 ': a replacement that has no name'
# a wrong program with other names, which its own proof is given, and no other change of a proof
named() { # FILE NEW-LINE: the same sweep, the second program with a replacement in this file of a proof
    echo "$whole" | sed "s|^refused: is_checked|file: $1\nold: returns c = held c.if-s.true\nnew: $2\n&|" >"$edit"
}
named proofs/is_checked/Answers.antt 'returns c = held c.if-s-at.true'
says 0 '2 wrong programs in 1 sweeps, each refused at its own fact'
named proofs/is_checked/Answers.antt 'returns c = other c.if-s-at.true'
says 1 'check_read_early: it changes more than names: returns c = held c.if-s.true'
named proofs/byte_at/Answers.antt 'returns c = held c.if-s-at.true'
says 1 'check_read_early: proofs/byte_at/Answers.antt is no proof of what it changes'
echo "$whole" >"$edit"
rm "$tree/target/must-fail/block/bodies_1.facts"
says 1 'first_byte_for_any: not refused at byte_at returns-then-at-s'

# ---- contracts.sh
script=contracts.sh
mkdir -p "$tree/crates/contracts/specs" "$tree/crates/contracts/proofs" "$tree/crates/contracts/src" "$tree/crates/block_c/src"
cat >"$tree/crates/block/src/lib.rt" <<'END'
pub fn byte_at(s: &[u8], at: usize) -> u8
    ensures { result ≡ byte_at s.now at }
{
pub(crate) fn inner(s: &[u8]) -> u8
fn private(s: &[u8]) -> u8
    pub fn door(s: &[u8]) -> u8
    ensures { result ≡ door_of s.now }
{
pub fn next<'a>(r: Reader<'a>) -> u8 {
END
echo '// no code' >"$tree/crates/contracts/src/lib.rt"
entries() { # ENTRY-OF-DOOR: the statements, with this line for the second
    cat >"$tree/crates/contracts/specs/Words.antt" <<END
use Rattle.block.specs.contracts as Block
use Rattle.block.proofs as Proof

pub record OfBlock : Type 0 where
  pub byte_at_lem : Says Block.byte_at.ended Proof.byte_at.Reads.Asked
      Proof.byte_at.Reads.Learnt
      (λ _ s at r. r ≡ byte_at s.now at)
$1
  pub next : SaysByHand Proof.next.ended (λ M 𝓤. Block.next.clauses) (λ _ r f. f ≡ field_at r.src.now r.at)

abbrev pub Claim : Type 0
Claim = OfBlock
END
}
door='  pub door : Says Block.door.ended Proof.door.Reads.Asked Proof.door.Reads.Learnt (λ _ s r. r ≡ door_of s.now)'
echo 'of_block : OfBlock' >"$tree/crates/contracts/proofs/Words.antt"
entries "$door"
says 0 '3 callable functions, the contract of each cited whole in crates/contracts'
entries ''
says 1 'block::door: no entry in crates/contracts/specs'
entries "$(echo "$door" | sed 's/Proof.door.Reads.Learnt/Proof.byte_at.Reads.Learnt/')"
says 1 'door does not cite one contract whole'
says 1 'block::door: no entry in crates/contracts/specs'
entries "$(echo "$door" | sed 's/pub door/pub gate/')"
says 1 'gate is the entry of door'
entries "$(echo "$door" | sed 's/Block/Card/g')"
says 1 'no crate is named Card'
entries "$door" && sed -i 's/λ M 𝓤. Block.next/λ M 𝓤. Block.door/' "$tree/crates/contracts/specs/Words.antt"
says 1 'next does not cite one contract whole'
entries "$door"
echo 'of_card : OfCard' >"$tree/crates/contracts/proofs/Words.antt"
says 1 'crates/contracts/proofs has no OfBlock'
echo 'of_block : OfBlock' >"$tree/crates/contracts/proofs/Words.antt"

# functions of types: a trait's, one that the crate keeps to itself, and two of one name
free=$(cat "$tree/crates/block/src/lib.rt")
cat >>"$tree/crates/block/src/lib.rt" <<'END'
pub enum Kind {
enum Inner {
trait Place {
impl From<u8> for Kind {
    fn from(b: u8) -> Kind {
        fn within(b: u8) -> Kind {
}
impl From<u8> for Inner {
    fn from(b: u8) -> Inner {
}
impl Place for u8 {
    fn place(self) -> usize {
}
impl<'a> Page<'a> {
    pub fn at(&self) -> usize {
}
impl Walk {
    pub fn at(&self) -> usize {
}
END
kind='  pub kind_from : Says Block.KindFromU8.from.ended Proof.KindFromU8.from.Reads.Asked
      Proof.KindFromU8.from.Reads.Learnt (λ _ b r. r ≡ kind b)'
page='  pub page_at : Says Block.Page.at.ended Proof.Page.at.Reads.Asked Proof.Page.at.Reads.Learnt (λ _ p r. r ≡ p.now.at)'
walk=$(echo "$page" | sed 's/page_at/at/; s/Page/Walk/g')
typed() { entries "$door
$1
$2
$3"; }
typed "$kind" "$page" "$walk"
says 0 '6 callable functions, the contract of each cited whole in crates/contracts'
typed '' "$page" "$walk"
says 1 'block::KindFromU8.from: no entry in crates/contracts/specs'
typed "$(echo "$kind" | sed 's/KindFromU8/InnerFromU8/g')" "$page" "$walk"
says 1 'block::KindFromU8.from: no entry in crates/contracts/specs'
typed "$(echo "$kind" | sed 's/Proof.KindFromU8/Proof.InnerFromU8/')" "$page" "$walk"
says 1 'kind_from does not cite one contract whole'
typed "$(echo "$kind" | sed 's/kind_from/kind/')" "$page" "$walk"
says 1 'kind is the entry of from'
typed "$kind" "$page" "$(echo "$walk" | sed 's/pub at/pub page_at/')"
says 1 'page_at is the entry of at'
typed "$kind" "$page" "$page"
says 1 'block::Walk.at: no entry in crates/contracts/specs'
typed "$kind" "$page" "$walk"
echo '    impl From<u16> for Kind {' >>"$tree/crates/block/src/lib.rt"
says 1 'an impl of another form than is read here'
echo "$free" >"$tree/crates/block/src/lib.rt"
entries "$door"
exports() { # CONTRACT-OF-DOOR: the static library, with this contract for its second export
    cat >"$tree/crates/block_c/src/lib.rt" <<END
pub extern "C" fn byte_at(
    s: &[u8],
    at: usize,
) -> u8
    ensures { result ≡ byte_at s.now at }
{
    block::byte_at(s, at)
}
pub extern "C" fn door(s: &[u8]) -> u8
    $1
{
pub extern "C" fn next<'a>(r: Reader<'a>) -> u8 {
END
}
exports 'ensures { result ≡ door_of s.now }'
says 0 '3 callable functions, the contract of each cited whole in crates/contracts; 3 exports, each with the contract of its library'
exports 'ensures { result ≤ 255 }'
says 1 'block_c::door: not the parameters and the contract of block::door'
exports 'ensures { result ≡ door_of s.now }' && sed -i 's/at: usize/at: u32/' "$tree/crates/block_c/src/lib.rt"
says 1 'block_c::byte_at: not the parameters and the contract of block::byte_at'
exports 'ensures { result ≡ door_of s.now }' && sed -i '/fn next/d' "$tree/crates/block_c/src/lib.rt"
says 1 'block::next: no export in block_c'
rm -r "$tree/crates/block_c"

# ---- limits.sh
script=limits.sh
says_limits() { # STATUS TEXT WHERE OLD NEW: how it ends where a file of the tree says another number
    for file in crates/closure/src/lib.rt crates/fields/src/lib.rt crates/block/src/lib.rt crates/bridge/src/lib.rt \
        hosts/c/jambolive.h docs/CARD.md; do
        mkdir -p "$(dirname "$tree/$file")"
        cp "$here/../$file" "$tree/$file"
    done
    sed -i "s/$4/$5/" "$tree/$3"
    says "$1" "$2"
}
most=$(sed -n 's/^pub const CONTOURS: usize = \([0-9]*\);$/\1/p' "$here/../crates/closure/src/lib.rt")
says_limits 0 "say the code's" hosts/c/jambolive.h none none
says_limits 1 "hosts/c/jambolive.h: no line begins «#define JL_CONTOURS $most" hosts/c/jambolive.h "JL_CONTOURS $most" 'JL_CONTOURS 79'
says_limits 1 "docs/CARD.md: no line begins «| 4 | n, contours" docs/CARD.md "at most $most |" 'at most 79 |'
says_limits 1 'docs/CARD.md: no line begins «| 13 | then' docs/CARD.md 'the longest card | [0-9]*' 'the longest card | 1'
says_limits 1 'docs/CARD.md: no line begins «up to 17 centres' crates/bridge/src/lib.rt 'BRIDGES: usize = 16' 'BRIDGES: usize = 17'
says_limits 1 'docs/CARD.md: no line begins' crates/fields/src/lib.rt 'PASSES: usize = 1' 'PASSES: usize = 2'
says_limits 1 'the longest card is not the one with the most' crates/closure/src/lib.rt 'PAIRS: usize = ' 'PAIRS: usize = 9'
