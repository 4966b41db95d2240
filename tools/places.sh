#!/usr/bin/env bash
# Lists the places in src/ that docs/DESIGN-PASS.md counts: tools/places.sh POINT [COMMIT]. Without COMMIT, the working tree.
set -euo pipefail
cd "$(dirname "$0")/.."

case $1 in
    # a refusal or a fault as an Option, an enum with a variant for the refusal, a Result in a Result, a number for a place or a kind, a number
    # given back by what gives nothing
    1) pattern='Option<(Refusal|Fault)>|enum Answer|Result<Result<|Option<Answer>|, usize> *$|-> u8$|fn action_of|action: u8' ;;
    # functions of the same shape
    2) exec python3 -B tools/twins.py "${2:-}" ;;
    # loops that count, and indices counted along
    3) pattern='^ *(while|loop)|^ *for [a-z_]+ in [^{]*\.\.|\.enumerate\(\)' ;;
    # comparing, ordering, copying, converting and printing by hand; what is left by hand is written by `fn` or by such an impl
    4) pattern='impl.* (PartialEq|Eq|PartialOrd|Ord|Clone|Default|From<.*>) for|fn (before|has_key|is_pending|later_of|finished|from_parts|parts|is_word|action_of|kind_of|file_failure)\(|fn number\(self\)|fn (push_[a-z_]+|done_line|rule_line)\(|fn (read|write|digit)\(.*(heap|b: u8)' ;;
    # a fact that contracts ask for: of an argument, or of the store or the book
    5) pattern='^ *requires [^F]*$|ensures .*(S\.Reading\.sound (self|store|book)\.(old|now)|Sound S[^ ]* )' ;;
    # an array with a length, a set or a sentinel beside it, a value taken out and put back
    6) pattern='\[[A-Za-z0-9_]+; [A-Z0-9a-z_]+\]|mem::replace|blank|count: u32,$' ;;
    # a trait whose one method tells which step to run, a command looked for in one function after another, a table of functions
    7) pattern='trait Keeper|impl.* Keeper|fn on_(blocks|table)\(|\bdyn\b' ;;
esac
git grep -nE -e "$pattern" ${2:-} -- 'crates/*/src/*.rt' | grep -vE ':[0-9]+: *//' || true
