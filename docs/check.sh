#!/bin/sh
# Runs every command of README, GUIDE and the manual page that stands behind a `$ ` with what it writes below it, at the
# top of a checkout, and compares. It builds alter first, where that is to be done.
top=$(cd "$(dirname "$0")/.." && pwd) || exit 1
cd "$top" || exit 1
./alter check examples/p1.c >/dev/null || exit $?
folder=$(mktemp -d) || exit 1
trap 'rm -rf "$folder"' EXIT

# the examples of a document: a file for each command, and one for what it writes
for document in README.md docs/GUIDE.md docs/alter.1; do
    sed 's/\\-/-/g; s/\\e/\\/g' "$document" | awk -v folder="$folder" -v document="$(basename "$document")" '
        /^\$ / { n++; name = sprintf("%s/%s.%02d", folder, document, n)
                 print substr($0, 3) > (name ".command"); printf "" > (name ".wanted"); reading = 1; next }
        /^```/ || /^\.EE/ { reading = 0 }
        reading { print > (name ".wanted") }'
done

failed=0
tried=0
for file in "$folder"/*.command; do
    example=$(basename "$file" .command)
    command=$(sed 's|^alter |./alter |' "$file")
    tried=$((tried + 1))
    sh -c "$command" >"$folder/given" 2>&1
    if cmp -s "$folder/given" "$folder/$example.wanted"; then
        echo "ok: $example: $command"
    else
        echo "FAILED: $example: $command"
        diff "$folder/$example.wanted" "$folder/given"
        failed=1
    fi
done
echo "$tried examples"
exit $failed
