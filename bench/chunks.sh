#!/bin/sh
# Measures what a step of an annotated loop costs in a chunk, beside the same directly on the store: for each source all
# chunks of each execution are run, of which nothing is kept, and then the execution plain. It prints, for chunks of 16
# and of 1024 iterations, and of one where iterations are large, the least nanoseconds a step of five runs, in chunks
# and directly, and the one by the other. What an empty chunk costs, bench/chunk.sh tells.
# bench/chunks.sh [SOURCE..]: without sources, those of bench/nine.
top=$(cd "$(dirname "$0")/.." && pwd) || exit 1
crate=$top/crates/chunk_speed
(cd "$crate" && rt run) >&2 || exit $?
[ $# -gt 0 ] || set -- "$top"/bench/nine/*.c
for source in "$@"; do
    case $source in
    *mandel* | *matmul* | *big_memory*) factors="1 16" ;;
    *) factors="16 1024" ;;
    esac
    for factor in $factors; do
        for run in 1 2 3 4 5; do
            "$crate/out/chunk_speed" $factor "$source" || exit $?
        done | awk -v factor=$factor '$3 > 0 && $5 > 0 {
            chunk = $2 / $3; direct = $4 / $5
            if (!least || chunk < least) least = chunk
            if (!plain || direct < plain) plain = direct
            name = $1
        }
        END {
            sub(".*/", "", name)
            if (least) printf "%s in chunks of %d: %.1f, direct %.1f, by it %.2f\n", name, factor, least, plain, least / plain
        }'
    done
done
