#!/bin/sh
# Makes 10,000 random sequences of calls of stores, sets and maps, beside those of the standard library.
top=$(cd "$(dirname "$0")/.." && pwd) || exit 1
crate=$top/crates/random_stores
(cd "$crate" && rt run -- 200) >&2 || exit $?
"$crate/out/random_stores" "${1:-10000}" | tee /dev/stderr | grep -q ', 0 differ$'
