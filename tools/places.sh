#!/usr/bin/env bash
# The places that docs/DESIGN-PASS.md counts: one line for each kind, with its count; with a kind's name, its places.
# It looks at src/ of every crate, and for the proofs at proofs/.
set -euo pipefail
cd "$(dirname "$0")/.."
code() { grep -rnE --include=*.rt "$1" crates/*/src | grep -vE '^[^:]*:[0-9]*: *//' || true; }
# fields and variants in a struct, without a function's parameters
fields() { awk -v want="$1" 'FNR == 1 { s = 0 } /^(pub(\(crate\))? )?struct /{ s = 1 } /^}/{ s = 0 } s && $0 ~ want { print FILENAME ":" FNR ":" $0 }' crates/*/src/*.rt; }
places() {
    case $1 in
        1-numbers) fields '^    (pub(\(crate\))? )?number: u8' ;;
        1-flags) fields ': bool,' ;;
        1-enums) code '^(pub(\(crate\))? )?enum ' ;;
        1-answers) code 'fn .*(number|refus|unplaced|unbanned|unread|unlined|missing|nothing|told).*\).*->|\((.*, )?(number|k): u8.*\) ->' ;;
        1-tests) code '[!=]= ACCEPTED|\.number\(\) [!=]=' ;;
        1-constants) grep -rnoE --include=*.rt "\b($(git show 2ee3e27:crates/refusal/src/lib.rt | sed -n 's/^pub const \([A-Z_]*\): u8.*/\1/p' | paste -sd'|'))\b" crates/*/src || true ;;
        3-while) code '^ *while ' ;;
        3-range) code "^ *('[a-z]+: )?for .* in .*\.\." ;;
        4-casts) code ' as (u8|u16|u32|u64|usize)\b' ;;
        4-empty) code '\.len\(\) == 0' ;;
        4-refused) code '^        return false;' ;;
        5-requires) grep -rhoE --include=*.rt 'requires \{.*\}' crates/*/src | sort | uniq -c | awk '$1 > 2' ;;
        5-text) code '\((text|line): &\[u8\], m: Message' ;;
        5-table) code 't: Head, bans: ' ;;
        5-session) code '^    (records|answers): &mut \[u8\],' ;;
        6-place) code '(out|line|text): &mut \[u8\], at: usize|^    at: usize,' ;;
        6-lengths) fields '(len|count): usize,' ;;
        7-words) code 'if (is_word|check::same)\(|capitals: bool|last: bool' ;;
        8-answers) cat crates/*/proofs/Answers.antt /dev/null > /dev/null 2>&1; find crates/*/proofs -name Answers.antt -print0 | xargs -0 cat ;;
        8-invariants) find crates/*/proofs -name Invariants.antt -print0 | xargs -0 cat ;;
        8-proofs) find crates/*/proofs -name '*.antt' -print0 | xargs -0 cat ;;
        kept) grep -rnE --include=*.rt '// Kept \([1-8]' crates/*/src || true ;;
    esac
}
kinds='1-numbers 1-flags 1-enums 1-answers 1-tests 1-constants 3-while 3-range 4-casts 4-empty 4-refused 5-requires 5-text 5-table 5-session 6-place 6-lengths 7-words 8-answers 8-invariants 8-proofs kept'
if [ $# -eq 1 ]; then
    places "$1"
else
    for k in $kinds; do printf '%-14s %s\n' "$k" "$(places "$k" | wc -l)"; done
fi
