#!/usr/bin/env bash
# Lists the places of src/ that docs/DESIGN-PASS.md counts, point by point.
# usage: tools/places.sh [COMMIT]     (with no commit: the files as they are)
set -u
cd "$(dirname "$0")/.." || exit 2
commit=${1:-}
find_places() {
    local found
    found=$(git grep -nE "$2" $commit -- ':(glob)crates/*/src/**' | sed "s/^$commit://")
    printf '== %s: %s\n' "$1" "$(printf '%s' "$found" | grep -c .)"
    [ -z "$found" ] || printf '%s\n' "$found" | cut -c1-150
}
find_places '1a a cause answered as an Option' '(-> Option<(Fault|Refusal)>)'
find_places '1b a cause or a fault handed on by hand' '(Err\(\w+\) => (return )?(Err|Some|fault_listing|match)|None => (return )?(Err|Some)\(|(Err\(_\)|None) => return,|if let Some\((fault|cause)\) =|let Some\((card|book|total|first|t)\) = )'
find_places '1c a bool for success beside what was written, or beside a value' '(fn (read_into|write|write_group)\(.*-> bool|(same|founder): bool)'
find_places '1d numbers for kinds and causes' 'fn (number|kind_byte|book_kind|width_in_bytes|card_sort|book_sort)\('
find_places '1e an enum of an empty case and a full one' '^pub enum (Kind|Body)<'
find_places '3a a loop with an index or a count' '(for _?\(?\w+(, \w+\))? in .*(\.\.|enumerate)|while )'
find_places '3b a count beside a loop' 'let mut (byte|left|i|rest|behind|all|sum) ='
find_places '3c an element by its index' '\[(i|k|at|j)( - 1)?\]'
find_places '3d a loop that leaves early with a bool' '^            return (true|false);'
find_places '4a a wrapper opened to be compared' '(\.0 (==|!=|<|<=|>|>=) |\.bits\(\) (==|!=|&) |\.0\.max\()'
find_places '4b a conversion by hand' 'fn (from_bits|bits|low_byte|high_byte|from_parts|card_sort|book_sort|number|letter|hex_digit)[<(]'
find_places '4d a cast' ' as (u8|u16|u32|usize)\b'
find_places '4c printing by hand' 'fn (push_\w+|hex_digit|fault_line|open_line|day_line|call_line|copy_line)[<(]'
find_places '5a both tables as parameters' 'messages: &(mut )?\[Message<C>\]'
find_places '5b bytes that are never too many, in a requires' 'requires .*≤ longest'
find_places '5c founder and first card (or terminals) together' 'founder: (Terminal|u32|u16),'
find_places '6 an array or a table with a count beside' '(count: usize,|waiting: usize,|places: usize,|\[0u8; )'
find_places '7 a switch on which step, question or kind' 'match (family|\(self, status\)|kinds_of|call |\(operation, call\))'
