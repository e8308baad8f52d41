#!/usr/bin/env bash
# Shows that the laws refuse wrong definitions. In a copy of what is committed it makes one definition of al_core wrong
# at a time and checks the law that must then fail. A refusal counts only where the check came to that law and did not
# prove it, and where the crates below it are still proved. Each takes some minutes. Ends with 'N of N refused'.
set -u
for tool in rt git tar grep; do
  command -v "$tool" >/dev/null || { echo "wrong-definitions.sh: $tool is not here"; exit 2; }
done
top=$(cd "$(dirname "$0")/.." && pwd) || exit 2
copy=$(mktemp -d) || exit 2
trap 'rm -rf "$copy"' EXIT
all=0 refused=0

# puts a text in place of one that must stand once in a file of the copy
replace() {
  local file=$copy/$1 old=$2 new=$3 text
  [ -f "$file" ] || { echo "$1 is not there"; exit 2; }
  [ "$(grep -cF -- "$old" "$file")" = 1 ] || { echo "$1 does not have once: $old"; exit 2; }
  text=$(cat "$file")
  printf '%s\n' "${text/"$old"/"$new"}" > "$file"
}

begin() {
  rm -rf "${copy:?}"/*
  git -C "$top" archive HEAD | tar x -C "$copy" || exit 2
  rm -rf "$copy"/crates/*/must-fail
}

# checks a law of a crate: its function must be one that the check tried and did not prove
refuses() {
  local what=$1 crate=$2 law=$3 log=$copy/log
  all=$((all + 1))
  (cd "$copy/crates/$crate" && rt check --only "$law") > "$log" 2>&1
  local said
  said=$(grep -E "^fn $crate::$law: " "$log" | tail -1)
  case $said in
    *": proved") echo "NOT REFUSED: $what ($crate::$law is proved)" ;;
    *": not proved"* | *": no proof"*) refused=$((refused + 1)); echo "refused: $what (${said#fn })" ;;
    *) echo "UNCLEAR: $what: the check did not come to $crate::$law"; tail -3 "$log" ;;
  esac
}

begin
replace crates/al_core/specs/Access.antt \
  'with_head accesses (Word o w) = with_read accesses (Head o)' 'with_head accesses (Word o w) = accesses'
refuses "an access to a word reads no head" al_laws chunks::record_has_heads

begin
replace crates/al_core/specs/Reductions.antt 'red_identity Mul = pos 1' 'red_identity Mul = pos 0'
replace crates/al_core/src/reductions.rt 'RedOp::Mul => 1,' 'RedOp::Mul => 0,'
refuses "the identity of * is 0" al_laws reductions::reductions_join

begin
replace crates/al_core/specs/Verdicts.antt \
  'is_in_order choice.order && earlier.failed' 'is_in_order choice.order && false'
refuses "in order, a chunk after a failed one may commit" al_rounds_laws order::commits_are_first

echo "wrong-definitions: $refused of $all refused"
[ "$refused" -eq "$all" ]
