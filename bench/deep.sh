#!/bin/sh
# Runs the two deepest programs that are accepted, and tells the least of some sizes of the stack with which each ends
# well: one in which 256 calls are active, each inside 127 nested statements and in an expression of 127 operators, which
# prints 7, and one of 128 nested statements around an expression of 128 operators, which prints 1.
top=$(cd "$(dirname "$0")/.." && pwd) || exit 1
folder=$(mktemp -d) || exit 1
trap 'rm -rf "$folder"' EXIT
awk 'BEGIN {
    printf "int f(int n) {\n  if (n == 0) return 7;\n  "
    for (i = 0; i < 127; i++) printf "if (1) "
    printf "return "
    for (i = 0; i < 126; i++) printf "- "
    printf "f(n - 1);\n}\nint main(void) { printf(\"%%ld\\n\", f(254)); }\n"
}' >"$folder/calls.c"
awk 'BEGIN {
    printf "int main(void) {\n  "
    for (i = 0; i < 127; i++) printf "if (1) "
    printf "printf(\"%%ld\\n\", "
    for (i = 0; i < 128; i++) printf "- "
    printf "1);\n}\n"
}' >"$folder/nested.c"
"$top/alter" check "$top/examples/p1.c" >/dev/null || exit $?
for name in calls nested; do
    for size in 8192 4096 2048 1024 512 256; do
        (ulimit -s $size && exec "$top/crates/alter/out/alter" run "$folder/$name.c") >"$folder/out" 2>&1 || break
        answer=$(cat "$folder/out") least=$size
    done
    echo "$name: $answer, in $least KiB of stack"
done
