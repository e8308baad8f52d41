#!/bin/sh
# Measures how long the built program takes to lex and parse a source of 1,048,576 bytes of ordinary code: a program
# of 35 lines, again and again, and line feeds to the end. It prints the seconds of five runs. Then it says how much
# processor time of the user it takes to refuse such a source that goes wrong on its last line, beside accepting one:
# the least of five runs each, one after the other in turn. It needs rt, awk and python3.
for tool in rt awk python3; do
    command -v "$tool" >/dev/null || {
        echo "bench/front.sh: no $tool" >&2
        exit 1
    }
done
top=$(cd "$(dirname "$0")/.." && pwd) || exit 1
crate=$top/crates/front_speed
program=$crate/out/front_speed
folder=$(mktemp -d) || exit 1
trap 'rm -rf "$folder"' EXIT

(cd "$crate" && rt run -- data/p15.c) >&2 || exit $?

# written LAST: a source of 1,048,576 bytes with this last line
written() {
    awk -v last="$1" '{ text = text $0 "\n" }
    END {
        left = 1048576 - length(last) - 1
        while (length(text) <= left) { printf "%s", text; left -= length(text) }
        while (left-- > 0) printf "\n"
        print last
    }' "$crate/data/p15.c"
}
written "" >"$folder/whole.c"
written "}" >"$folder/broken.c"
wc -c <"$folder/whole.c"
test "$(wc -c <"$folder/whole.c")" = "$(wc -c <"$folder/broken.c")" || exit 1
test "$("$program" "$folder/whole.c")" = parsed || exit 1
"$program" "$folder/broken.c" | grep -q '^bad token ' || exit 1

for run in 1 2 3 4 5; do
    begin=$(date +%s%N)
    "$program" "$folder/whole.c" >/dev/null || exit $?
    end=$(date +%s%N)
    awk "BEGIN { printf \"%.3f\\n\", ($end - $begin) / 1000000000 }"
done

# user FILE: the seconds of the user that the program takes over a file
user() {
    python3 -c 'import resource, subprocess, sys
subprocess.run(sys.argv[1:], stdout=subprocess.DEVNULL, check=True)
print(resource.getrusage(resource.RUSAGE_CHILDREN).ru_utime)' "$program" "$1"
}
for run in 1 2 3 4 5; do
    echo "$(user "$folder/whole.c") $(user "$folder/broken.c")"
done | awk '
    NR == 1 || $1 < whole { whole = $1 }
    NR == 1 || $2 < broken { broken = $2 }
    END { printf "refused %.3f, accepted %.3f: %.2f times\n", broken, whole, broken / whole }'
