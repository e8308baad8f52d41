#!/bin/sh
# Measures what loads and stores cost through a chunk's view of a page store, beside the same directly: 500 chunks of
# 4,096 steps that add words of an object up in a word of another (sums: three accesses a step), or copy words of an
# object into another (copies: two); and 100,000 chunks that do nothing. It prints, in five runs, nanoseconds an access
# and, for an empty chunk, in all; the start of the program is left out.
top=$(cd "$(dirname "$0")/.." && pwd) || exit 1
crate=$top/crates/view_speed
(cd "$crate" && rt run -- empty sums sums-chunks copies copies-chunks) >&2 || exit $?

seconds() {
    begin=$(date +%s%N)
    "$crate/out/view_speed" "$@" >/dev/null || exit $?
    end=$(date +%s%N)
    echo $(($end - $begin))
}

for run in 1 2 3 4 5; do
    start=$(seconds)
    for word in empty:100000 sums:6144000 sums-chunks:6144000 copies:4096000 copies-chunks:4096000; do
        whole=$(seconds ${word%:*})
        awk "BEGIN { printf \"%s %.1f  \", \"${word%:*}\", ($whole - $start) / ${word#*:} }"
    done
    echo
done
