#!/usr/bin/env bash
# The places of docs/DESIGN-PASS.md, counted at a commit: bash tools/places.sh COMMIT. Each line: the point, how many lines of
# crates/*/src match, and what is searched for.
set -euo pipefail
cd "$(dirname "$0")/.."
at=${1:-HEAD}

count() { # POINT WHAT PATTERN [PATHS..]
  local point=$1 what=$2 pattern=$3
  shift 3
  printf '%-4s %4d  %s\n' "$point" "$(git grep -nE "$pattern" "$at" -- "${@:-crates/*/src/*.rt}" | wc -l)" "$what"
}

count 1a "numbers of refusals, as constants" '^pub const [A-Z_]+: u16 = [0-9]+;' crates/record_fields/src/refusal.rt
count 1b "functions that answer a number for a refusal, 0 for none" 'fn [a-z]+_number\(.*(-> u16)?$|^fn (shape|room)_number\('
count 1c "answers with a refusal beside other values" '^ +pub refusal: Refusal,'
count 1d "own enums with a variant for a refusal" 'Refused\(Refusal\)'
count 1e "numbers that mean none" 'NOWHERE|BEYOND|NO_BYTE|0x1_0000_0000|=> 16,|return 256;|return 10;|let none ='
count 1f "sides as numbers" 'side: u16'
count 1g "holds as letters" 'hold: u8'
count 1h "flags and choices as numbers" '(settled|least): u32|which: u16'
count 2a "functions for the left and the right, for an array and a record, for u16 and u32" 'fn ([a-z_]*_(left|right|at|in|entries|entries_line|seen|paired|displaced)|free_side|next_table|signed_entry|near_ends|far_ends)[(<]'
count 3 "loops that count an index by hand" '^ *while '
count 4a "casts" ' as (u8|u16|u32|u64|usize|i32|i64)\b'
count 4b "own conversions" 'fn (wide|narrowed|in_16_bits|in_8_bits|size|apart|side_in|row_in)\('
count 4c "answers for C put together by hand" '^ +(TangleRefusal|Tangle[A-Za-z]+) \{$'
count 4d "own comparisons, copies and tests as numbers" 'fn (agree|same|copied|bytes_in|is_mark|earlier|at_most|falls_to|crossed|space)\('
count 5a "clauses that say again that a record is accepted, or rows good" 'requires.*(RecordOver|GoodRows)'
count 5b "functions that take both layouts, both trees or five lists" '(leftlay|leftlayout): &'
count 5c "marks and seen places as bare arrays" '\[u64; 8\]|\[u8; 1024\]|\[u8; OBJECTS\]'
count 6a "an array and how many of its entries count" '\[u16; 512\], n: usize|n: usize, [a-z]+: &(mut )?\[u16; 512\]|\[u16; LEAVES\], n: usize'
count 6b "row arrays with n in the last place, notes with counts in the last three" '\[u16; (1023|1025)\]'
count 7 "flags that choose the step to run" 'check: bool'
