#!/bin/sh
# Tries what EDITORS.md says on the lines of a refused source, a trap and a refused input: vim's form in vim, where it is
# there, and the other two as regular expressions. It builds alter first, where that is to be done.
top=$(cd "$(dirname "$0")/.." && pwd) || exit 1
cd "$top" || exit 1
command -v python3 >/dev/null || { echo "editors.sh: python3 is not here" >&2; exit 2; }
./alter check examples/p1.c >/dev/null || exit $?
folder=$(mktemp -d) || exit 1
trap 'rm -rf "$folder"' EXIT
printf '1\ntwo\n' >"$folder/words.txt"
./alter check examples/p14.c 2>>"$folder/lines"
./alter run examples/p11.c 2>>"$folder/lines"
./alter run examples/p9.c "$folder/words.txt" 2>>"$folder/lines"
printf '%s\n' 'examples/p14.c 3 loop is left' 'examples/p11.c 6 trap: word of the other kind' \
    "$folder/words.txt 2 not a number" >"$folder/wanted"

failed=0
compare() {
    if cmp -s "$folder/given" "$folder/wanted"; then echo "ok: $1"; else
        echo "FAILED: $1"
        diff "$folder/wanted" "$folder/given"
        failed=1
    fi
}

if command -v vim >/dev/null; then
    form=$(sed -n 's/^set errorformat=//p' docs/EDITORS.md)
    vim -Nu NONE -es -c "set errorformat=$form" -c "cgetfile $folder/lines" \
        -c "call writefile(map(filter(getqflist(), 'v:val.valid'), 'bufname(v:val.bufnr) . \" \" . v:val.lnum . \" \" . v:val.text'), '$folder/given')" \
        -c 'qa!' </dev/null >/dev/null 2>&1
    compare vim
else
    echo "editors.sh: vim is not here"
fi
for editor in emacs code; do
    python3 - "$editor" docs/EDITORS.md "$folder/lines" >"$folder/given" <<'PY'
import json, re, sys
editor, page, lines = sys.argv[1:]
text = open(page).read()
if editor == "emacs":
    form = re.search(r"""'\("((?:[^"\\]|\\.)*)" 1 2\)""", text).group(1).replace("\\\\", "\\")
    # in emacs \( \) are groups
    form = form.replace("\\(", "(").replace("\\)", ")") + "(.*)$"
else:
    form = json.loads(re.search(r'"regexp": ("(?:[^"\\]|\\.)*")', text).group(1))
for line in open(lines):
    found = re.match(form, line.rstrip("\n"))
    if found:
        print(*found.groups())
PY
    compare "$editor"
done
exit $failed
