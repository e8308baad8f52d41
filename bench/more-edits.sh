#!/usr/bin/env bash
# Tries the edits in crates/NAME/more-edits, which the checks must refuse as they refuse those in must-fail; the gate
# leaves them out, since each costs a check. In a copy: bench/more-edits.sh, or bench/more-edits.sh NAME.. for some
# crates. What the gate has proved on this machine is not proved again. Ends with a line of how many were refused.
set -eu
command -v rt >/dev/null || { echo "more-edits.sh: rt is not here"; exit 2; }
top=$(cd "$(dirname "$0")/.." && pwd)
copy=$(mktemp -d)
trap 'rm -rf "$copy"' EXIT
git -C "$top" archive HEAD | tar x -C "$copy"
cd "$copy"
names=("$@")
[ $# -gt 0 ] || mapfile -t names < <(ls -d crates/*/more-edits | cut -d/ -f2)
for name in "${names[@]}"; do
  rm -rf "crates/$name/must-fail"
  mv "crates/$name/more-edits" "crates/$name/must-fail"
done
rt ci "${names[@]}" > log 2>&1 || true
tail -1 log
all=0 refused=0
for name in "${names[@]}"; do
  for edit in crates/"$name"/must-fail/*.edit; do
    all=$((all + 1))
    said=$(grep -F "must-fail $name/${edit##*/}: " log || echo "$name/${edit##*/}: not tried")
    case $said in
      *": refused, as it must be"*) refused=$((refused + 1)); [[ $said != *"(only "* ]] || echo "$said" ;;
      *) echo "$said" ;;
    esac
  done
done
echo "more-edits: $refused of $all refused"
[ "$refused" -eq "$all" ]
