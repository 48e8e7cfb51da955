#!/usr/bin/env bash
# Counts, for docs/DESIGN-PASS.md, the places in src/ where an older form may stand, one search a line.
# tools/places.sh [COMMIT] counts at a commit, and else in the work tree; with -l before it, the places are listed too.
set -euo pipefail
cd "$(dirname "$0")/.."
list=0
if [ "${1:-}" = -l ]; then
  list=1
  shift
fi
commit=${1:-}

# search LABEL PATTERN [PATHSPEC..]: lines of src/ that match.
search() {
  local label=$1 pattern=$2 found
  shift 2
  found=$(git grep -nE "$pattern" ${commit:+"$commit"} -- "${@:-crates/*/src/*.rt}" || true)
  printf '%4d  %s\n' "$(grep -c . <<<"$found" || true)" "$label"
  if [ "$list" = 1 ] && [ -n "$found" ]; then
    sed "s/^${commit:-no commit}://; s/^/        /" <<<"$found"
  fi
}

search '1  own enums with a case for "no value"' '^ +(Struck|Nothing|Missing|No[A-Z][a-z]*),$'
search '1  flags in structs' '^    (pub(\(crate\))? )?(near|kept|going|odd|done|valid|found|ok|has_[a-z]+|is_[a-z]+): bool,$'
search '1  functions that answer a number, refusals and patterns among them' '\) -> u32( \{)?$' 'crates/*/src/*.rt' ':!crates/threshlantern*'
search '1  fields and parameters for a refusal by number' 'refusal: u32'
search '1  comparisons with the number of no refusal' '(==|!=) (stage::NONE|0)\b.*\{$|refusal == 0' 'crates/*/src/*.rt'
search '1  parameters for a kind by number' '\b(which|call|number|kind): u32'
search '2  functions named after a type or a layout' '\bfn [a-z_0-9]+_(f32|f64|mono|pairs|split|inverted|odd|four|bytes|plain|planes|[iq])\b' 'crates/*/src/*.rt' ':!crates/threshlantern*'
search '2  records of an answer' 'pub struct [A-Za-z]*(Done|Decimated|Received)\b'
search '2  functions of one name in several crates: smaller of two, answer, rule of taps or lengths' '\bfn (least|shorter|answer|answer_of|none_made|taps_allowed|lengths_fit|magnitude|fours|ones|at_most|without_number|fail|none)\b' 'crates/*/src/*.rt'
search '3  while' '^ *while '
search '3  an index stepped by hand' '^ *[a-z]+ \+= [0-9a-z][^;]*;$'
search '4  copying, filling, comparing and converting by hand' '\bfn (copy|copy_all|copy_in|overwrite|shift|clear|put|put_four|least|shorter|flag|digit|two|byte|byte_at|without_number|is_pattern|patterns_agree|store|waiting)\b'
search '4  zeros of a record by hand' '^ +[a-z_]+: (0|0\.0|false),$'
search '5  facts of one name in clauses' '^ +(requires|ensures).*\b(Ready|Row|Few|OddReady|Plane|Block|Room)\b'
search '5  parameters that are lent, in functions with five or more' '^    (taps|history|q_history|i_history|input|output|z|e): &'
search '6  arrays of a fixed length' '\[(u8|f32|f64|u64); *[0-9A-Z_]+\]'
search '7  a switch on a number or a flag' '\bmatch which\b|\bif which\b|\bif is_usb\b|match [a-z.]*call\b'
