#!/usr/bin/env python3
"""Prints the sizes of the tree, and what stands out in it: the longest clauses, the widest lines, the lines that are too
wide, and the public functions that ensure nothing. It reads the crates of crates.txt, and proves nothing.

An import may be wider than other lines, as an attribute, which the formatter writes on one line.
"""
import os, re, sys

TOP = os.path.join(os.path.dirname(os.path.abspath(__file__)), "..")
PARTS = {"specs": ".antt", "src": ".rt", "proofs": ".antt"}
WIDEST = {"specs": 120, "src": 120, "proofs": 160}
IMPORT = re.compile(r"\s*(pub(\([a-z]+\))? )?(ghost )?use ")
TRIED = re.compile(r"(^al_tests|_tests|_cases|_speed|^al_samples)$")


def crates():
    """Yields each crate with the part of crates.txt in which it stands."""
    part = ""
    with open(os.path.join(TOP, "crates.txt"), encoding="utf-8") as it:
        for line in it:
            if line.startswith("#"):
                part = line.strip("# \n")
            elif line.strip():
                yield part, line.split(":")[0].split()[0]


def files(crate, part):
    at = os.path.join(TOP, "crates", crate, part)
    for folder, inner, names in os.walk(at):
        inner.sort()
        for name in sorted(names):
            if name.endswith(PARTS[part]):
                path = os.path.join(folder, name)
                with open(path, encoding="utf-8") as it:
                    yield os.path.relpath(path, TOP), it.read()


def closing(text, at):
    """Returns where the brace that opens at a place is closed."""
    depth = 0
    for place in range(at, len(text)):
        depth += {"{": 1, "}": -1}.get(text[place], 0)
        if depth == 0:
            return place
    return len(text)


def next_step(text, at):
    """Returns the next word of a clause, brace or semicolon behind a function's name that stands in no parentheses."""
    depth = 0
    for found in re.compile(r"\b(?:requires|ensures)\b|[][(){;]").finditer(text, at):
        depth += {"(": 1, "[": 1, ")": -1, "]": -1}.get(found[0], 0)
        if depth == 0 and found[0] not in ")]":
            return found
    return None


def functions(text):
    """Yields each function: its line, whether it is public, its name, and its clauses, each with its word, text and line."""
    text = re.sub(r"//[^\n]*", lambda it: " " * len(it[0]), text)
    line_at = lambda place: text.count("\n", 0, place) + 1
    traits = [(it.end(), closing(text, it.end() - 1)) for it in re.finditer(r"\bpub trait [^{;]*\{", text)]
    for found in re.finditer(r"(pub )?(?:const )?fn (\w+)", text):
        clauses, at = [], found.end()
        while (step := next_step(text, at)) and step[0] in ("requires", "ensures"):
            opens = text.find("{", step.end())
            ends = closing(text, opens)
            clauses.append((step[0], " ".join(text[opens + 1 : ends].split()), line_at(step.start())))
            at = ends + 1
        is_public = bool(found[1]) or any(begins < found.start() < ends for begins, ends in traits)
        yield line_at(found.start()), is_public, found[2], clauses


def is_test(path):
    return os.path.basename(path) == "tests.rt" or "/tests/" in path


def main():
    sizes = dict.fromkeys(PARTS, 0)
    clauses, wide, silent = [], {it: [] for it in PARTS}, []
    for group, crate in crates():
        for part in PARTS:
            for path, text in files(crate, part):
                sizes[part] += len(text)
                for number, line in enumerate(text.splitlines(), 1):
                    if not IMPORT.match(line) and not line.lstrip().startswith("#["):
                        wide[part].append((len(line), f"{path}:{number}"))
                if part != "src":
                    continue
                for line, is_public, name, said in functions(text):
                    clauses += [(len(it), f"{path}:{at}", word, name) for word, it, at in said]
                    if is_public and not TRIED.search(crate) and not is_test(path) and all(it[0] != "ensures" for it in said):
                        silent.append(f"{path}:{line}: {name}")
    print("characters:", ", ".join(f"{it} {size:,}" for it, size in sizes.items()))
    print("longest clauses:")
    for size, at, word, name in sorted(clauses, reverse=True)[:5]:
        print(f"  {size:,} characters: {at}: {word} of {name}")
    for part in PARTS:
        size, at = max(wide[part])
        print(f"widest line of {part}: {size} columns: {at}")
    for part in PARTS:
        over = [it for it in wide[part] if it[0] > WIDEST[part]]
        print(f"lines of {part} over {WIDEST[part]} columns: {len(over)}")
        for size, at in over:
            print(f"  {size}: {at}")
    print(f"public functions that ensure nothing: {len(silent)}")
    for it in silent:
        print(f"  {it}")


if __name__ == "__main__":
    sys.exit(main())
