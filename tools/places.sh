#!/usr/bin/env bash
# Lists the places that docs/DESIGN-PASS.md counts, point by point: tools/places.sh [POINT], at the top of the repository.
# Tests are listed too. A place that stays has a comment `Kept:` beside it; `tools/places.sh kept` lists those.
set -euo pipefail
cd "$(dirname "$0")/.."
src() { find crates/*/src -name '*.rt' | sort; }
say() { grep -nE "$1" $(src) /dev/null || true; }
# enums of one variant, which are structs or Options
single_variants() {
    awk '/enum [A-Za-z]+ \{/ { name = FILENAME ":" FNR ":" $0; n = 0; open = 1; next }
         open && /^}/ { if (n == 1) print name; open = 0 }
         open && /^    [A-Z]/ { n++ }' $(src)
}
# facts of `requires` clauses that stand in three or more contracts, with how often
facts() {
    grep -hE '^ *requires' $(src) | sed -E 's/^ *requires( [a-z_]+)? \{ (.*) \}$/\2/' \
        | sed -E 's/ × /\n/g' | sed -E 's/[()]//g; s/^ +| +$//g' | sort | uniq -c | awk '$1 >= 3'
}
case "${1:-all}" in
1) single_variants
   say 'fn number\(|gap: usize|kind: u32|has: &|upto: usize|step: 0,|settings, 0, memory|-> \(usize, \[|fn rs16_.*_word|refused\(|\) -> \(u64, u64, usize\)|ended: bool|, sync_right: bool|_right: bool|enum (Sign|Stop)|struct Stop|altered: &mut usize' ;;
2) grep -hoE 'fn [a-z_0-9]+' $(grep -L 'cfg(test)' $(src)) | sort | uniq -c | awk '$1 > 1 && $3 !~ /^(new|from|depth|rows|source|mask|fade|write_line|store_line|information|reach|encode|mend|number|main|fmt|next)$/ { print "in two files: fn " $3 }'
   grep -hoE '^pub (struct|enum) [A-Za-z]+' $(src) | sort | uniq -d
   say '^ *(pub|pub\(crate\)) fn (block|stepped|randomized|bare|rs16|encode|mend|note)_[a-z_0-9]+|^pub struct (BlockMapping|SteppedMapping)|^fn main\(rt: HostRuntime\)|^fn next\(|^pub struct (Row|Marker)Record' | grep -vE 'exports|note_report|note_next|encode_frame|mend_rows|mend_row\b' ;;
3) say '^ *(while|loop)\b|^ *for [a-z_]+ in .*\.\.' ;;
4) say 'fn (number|same|at_word|at_row|sign)\b|65_536|/ 256|& 255|format!\(|2_654_435_761' ;;
5) facts
   say '^ *requires.* × ' ;;
6) say 'held: usize|count: usize,$|used: usize|\], usize\)|places: \[|octets: \[u8; (6|32)\]|has: &|count: usize, start' ;;
7) say '\bdyn |Fn(Mut|Once)?\(|: fn\(|kind: u32' ;;
8) grep -hE '^pub [^ ]+ : goal\.' $(find crates/*/proofs -name Answers.antt) | wc -l ;;
kept) say 'Kept:' ;;
all) for p in 1 2 3 4 5 6 7; do echo "point $p: $("$0" "$p" | wc -l) places"; done; echo "point 8: $("$0" 8) answers"; echo "kept: $("$0" kept | wc -l)" ;;
esac
