#!/usr/bin/env bash
# Measures what a fork of the workers costs, empty: 1,000 boards of four lanes are filled with nothing by one, two and
# four threads, in five runs by turns. It prints the microseconds that one board takes, the least of the five: of user
# time, of the system's time and on the clock; and what the forks of two and of four cost more than one thread.
set -uo pipefail
for tool in rt awk; do
  command -v "$tool" >/dev/null || { echo "fork.sh: $tool is not here" >&2; exit 2; }
done
top=$(cd "$(dirname "$0")/.." && pwd) || exit 1
crate=$top/crates/fork_speed
(cd "$crate" && rt run -- 1 2 4) >&2 || exit $?

TIMEFORMAT='%U %S %R'
for run in 1 2 3 4 5; do
  for threads in 1 2 4; do
    told=$({ time "$crate/out/fork_speed" "$threads" >/dev/null; } 2>&1) || { echo "$told" >&2; exit 1; }
    echo "$threads $told"
  done
done | awk '
function least(threads, column) { return 1000 * best[threads, column] }
{
  for (column = 2; column <= 4; column++)
    if (!(($1, column) in best) || $column < best[$1, column]) best[$1, column] = $column
}
END {
  for (threads = 1; threads <= 4; threads *= 2)
    printf "threads %d: user %.0f, system %.0f, clock %.0f\n", threads, \
      least(threads, 2), least(threads, 3), least(threads, 4)
  for (threads = 2; threads <= 4; threads *= 2)
    printf "fork of %d: user %.0f, system %.0f, clock %.0f\n", threads, \
      least(threads, 2) - least(1, 2), least(threads, 3) - least(1, 3), least(threads, 4) - least(1, 4)
}'
