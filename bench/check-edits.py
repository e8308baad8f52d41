#!/usr/bin/env python3
"""Sees that the edits in crates/NAME/must-fail and crates/NAME/more-edits can be tried, and proves nothing.

An edit is a file NAME.edit: a line 'file: PATH' (below src/, specs/ or proofs/ of its crate), then pairs of lines
'old: TEXT' and 'new: TEXT'; another such line begins the pairs of another file. Each old text stands exactly once in its
file, as the pairs before it left it, and the pairs change something. No two edits of a crate are the same. A crate has
three to five edits in must-fail, where it has bodies to turn: docs/DECISIONS.md names those that have none, and the
crates under `# tests` and `# bench` in crates.txt need none.

Ends with a line of counts, and with status 1 where an edit is bad, or a crate has too few or too many.
"""
import os, re, sys

TOP = os.path.join(os.path.dirname(os.path.abspath(__file__)), "..")
FOLDERS = ("must-fail", "more-edits")
UNTURNED = ("tests", "bench")
FEWEST, MOST = 3, 5


def text_of(*path):
    with open(os.path.join(TOP, *path), encoding="utf-8") as it:
        return it.read()


def crates():
    """Returns the crates that crates.txt lists, each with the section in which it stands."""
    section, listed = "", {}
    for line in text_of("crates.txt").splitlines():
        if line.startswith("#"):
            section = line.strip("# ")
        elif ":" in line:
            listed[line.split(":")[0].split()[0]] = section
    return listed


def named_in_decisions():
    """Returns the words of docs/DECISIONS.md where it names the crates that have no body to turn."""
    said = next(it for it in text_of("docs", "DECISIONS.md").splitlines() if "must-fail edit turns the body" in it)
    return set(re.findall(r"\w+", said))


def steps_of(edit):
    """Returns the steps of an edit, each a file with an old and a new text, or raises ValueError where it has another form."""
    path, old, steps = None, None, []
    for line in filter(str.strip, edit.splitlines()):
        word, _, text = line.partition(":")
        text = text.removeprefix(" ")
        if word == "file" and old is None:
            path = text.strip()
            if not path.startswith(("src/", "specs/", "proofs/")) or os.path.normpath(path) != path:
                raise ValueError("it names no file below src/, specs/ or proofs/")
        elif word == "old" and path and old is None and text:
            old = text
        elif word == "new" and old is not None:
            steps.append((path, old, text))
            old = None
        else:
            raise ValueError(f"this line is out of place: {line}")
    if old is not None or not steps:
        raise ValueError("it has no pair, or ends within one")
    return steps


def apply(crate, steps):
    """Tries an edit on its files, and raises ValueError where it cannot be applied."""
    texts, was = {}, {}
    for path, old, new in steps:
        if path not in texts:
            if not os.path.isfile(os.path.join(TOP, "crates", crate, path)):
                raise ValueError(f"there is no file {path}")
            texts[path] = was[path] = text_of("crates", crate, path)
        if texts[path].count(old) != 1:
            raise ValueError(f"an old text stands in {path} {texts[path].count(old)} times: {old}")
        texts[path] = texts[path].replace(old, new)
    if texts == was:
        raise ValueError("it changes nothing")


def faults_of(crate, counts):
    """Yields what is wrong with the edits of a crate, and counts them by folder."""
    seen = {}
    for folder in FOLDERS:
        at = os.path.join(TOP, "crates", crate, folder)
        for name in sorted(os.listdir(at)) if os.path.isdir(at) else []:
            label = f"{crate}/{folder}/{name}"
            if not re.fullmatch(r"[A-Za-z0-9_-][A-Za-z0-9_.-]*\.edit", name):
                yield f"{label}: it is no edit"
                continue
            counts[folder] += 1
            try:
                steps = steps_of(text_of("crates", crate, folder, name))
                apply(crate, steps)
            except ValueError as error:
                yield f"{label}: {error}"
                continue
            twin = seen.setdefault(tuple(steps), label)
            if twin != label:
                yield f"{label}: it is the same as {twin}"


def main():
    named, faults, all_counts = named_in_decisions(), [], dict.fromkeys(FOLDERS, 0)
    listed, with_edits = crates(), 0
    for crate, section in listed.items():
        counts = dict.fromkeys(FOLDERS, 0)
        faults += faults_of(crate, counts)
        number = counts["must-fail"]
        with_edits += number > 0
        if number > MOST or number < FEWEST and crate not in named and section not in UNTURNED:
            faults.append(f"{crate}: {number} edits in must-fail, not {FEWEST} to {MOST}")
        for folder in FOLDERS:
            all_counts[folder] += counts[folder]
    for crate in sorted(set(os.listdir(os.path.join(TOP, "crates"))) - set(listed)):
        if any(os.path.isdir(os.path.join(TOP, "crates", crate, it)) for it in FOLDERS):
            faults.append(f"{crate}: it has edits, and crates.txt does not list it")
    print("".join(f"{it}\n" for it in faults), end="")
    counted = ", ".join(f"{all_counts[it]} in {it}" for it in FOLDERS)
    print(f"check-edits: {counted}, of {with_edits} crates with edits in must-fail; {len(faults)} bad")
    return 1 if faults else 0


if __name__ == "__main__":
    sys.exit(main())
