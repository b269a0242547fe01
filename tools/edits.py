#!/usr/bin/env python3
"""Hold docs/MAP.md and the must-fail edits together.

  tools/edits.py     say what is wrong, and exit with 1 where something is

An edit is named in docs/MAP.md as `CRATE/EDIT`, and stands in crates/CRATE/must-fail/EDIT.edit. Each one that is named must be there, each one that is
there must be named, and each text that an edit replaces must stand exactly once in its file. The gate would find a bad edit too, but at its end.
"""
import os
import re
import sys

ROOT = os.path.join(os.path.dirname(os.path.abspath(__file__)), "..")


def read(*path):
    with open(os.path.join(ROOT, *path), encoding="utf8") as file:
        return file.read()


def edits():
    crates = os.path.join(ROOT, "crates")
    for crate in sorted(os.listdir(crates)):
        folder = os.path.join(crates, crate, "must-fail")
        for name in sorted(os.listdir(folder)) if os.path.isdir(folder) else []:
            yield f"{crate}/{name.removesuffix('.edit')}"


def misplaced(edit):
    """What an edit replaces that doesn't stand exactly once in its file, the replacements before it made."""
    crate, name = edit.split("/")
    texts, file, old = {}, "", ""
    for line in read("crates", crate, "must-fail", f"{name}.edit").splitlines():
        word, _, rest = line.partition(":")
        rest = rest.removeprefix(" ")
        if word == "file":
            file = rest
            texts.setdefault(file, read("crates", crate, file))
        elif word == "old":
            old = rest
        elif word == "new":
            if texts[file].count(old) != 1:
                yield f"{edit}: stands {texts[file].count(old)} times in {file}: {old}"
            texts[file] = texts[file].replace(old, rest)


def main():
    there = list(edits())
    named = set(re.findall(r"`([a-z0-9_]+/[a-z0-9_]+)`", read("docs", "MAP.md")))
    wrong = [f"{edit}: named in docs/MAP.md, and not there" for edit in sorted(named - set(there))]
    wrong += [f"{edit}: not named in docs/MAP.md" for edit in there if edit not in named]
    wrong += [line for edit in there for line in misplaced(edit)]
    for line in wrong:
        print(line)
    print(f"{len(there)} edits, {len(wrong)} faults" if wrong else f"{len(there)} edits, each named in docs/MAP.md")
    return 1 if wrong else 0


if __name__ == "__main__":
    sys.exit(main())
