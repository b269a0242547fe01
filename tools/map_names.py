#!/usr/bin/env python3
"""Hold docs/MAP.md to the tree: every name in it exists.

  tools/map_names.py     say what is wrong, and exit with 1 where something is

A name stands between backquotes: `crate Module.name` (in crates/CRATE/specs/Module.antt, a law also in crates/CRATE/proofs), `crate Module`, `crate::function` (public, in crates/CRATE/src), a crate, `CRATE/EDIT`, or a name alone, which is of the module or of the crate
named before it in the cell. Words in parentheses behind a name of a module are names of that module. A `list` is a file of a program's data. Each rule of docs/SCOPE.md has its row, and each row its rule.
"""
import functools
import glob
import os
import re
import sys

ROOT = os.path.join(os.path.dirname(os.path.abspath(__file__)), "..")
NAME = r"[^\s`(){}\[\],;.]+"


@functools.cache
def read(*path):
    with open(os.path.join(ROOT, *path), encoding="utf8") as file:
        return file.read()


def is_crate(name):
    return os.path.isdir(os.path.join(ROOT, "crates", name))


def module(crate, name):
    """The text of a module of definitions or laws."""
    paths = [("crates", crate, part, name + ".antt") for part in ("specs", "proofs")]
    texts = [read(*path) for path in paths if os.path.exists(os.path.join(ROOT, *path))]
    return "\n".join(texts) if texts else None


@functools.cache
def source(crate):
    files = glob.glob(os.path.join(ROOT, "crates", crate, "src", "**", "*.rt"), recursive=True)
    return "\n".join(read(os.path.relpath(f, ROOT)) for f in sorted(files))


def defines(text, name):
    """A definition, law, type, constructor or field of this name."""
    return re.search(r"(?m)^\s*(?:(?:unfoldable|abbrev|pub|record|data)\s+)*%s(?=[\s:])" % re.escape(name), text) is not None


def has_function(crate, name, public=True):
    return re.search(r"\b%sfn %s\b" % (r"pub (?:extern \"C\" )?" if public else "", re.escape(name)), source(crate)) is not None


def has_type(crate, name):
    return re.search(r"\bpub (?:struct|enum) %s\b" % re.escape(name), source(crate)) is not None


class Cell:
    """A cell of a row: names are looked up one after the other, since a name alone is of the one before it."""

    def __init__(self):
        self.crate = self.module = None

    def module_named(self, crate, name):
        text = module(crate, name) if is_crate(crate) else None
        if text is not None:
            self.crate, self.module = crate, text
        return text

    def missing(self, name, before):
        """Whether a name between backquotes is there; `before` is the text in front of it."""
        if name in WORDS:
            return False
        if "/" in name and is_crate(name.split("/")[0]):
            return not os.path.exists(os.path.join(ROOT, "crates", name.split("/")[0], "must-fail", name.split("/")[1] + ".edit"))
        if re.search(r"\blists?(?: `[^`]*`,)* $", before):
            return not glob.glob(os.path.join(ROOT, "crates", "*", "data", name))
        said = re.fullmatch(r"([a-z0-9_]+) ([A-Z]\w*)(?:\.(%s))?" % NAME, name)
        if said:
            text = self.module_named(said[1], said[2])
            return text is None or (said[3] is not None and not defines(text, said[3]))
        method = re.fullmatch(r"(?:([a-z0-9_]+) )?([A-Z]\w*)::(\w+)", name)
        if method:
            self.crate = method[1] or self.crate
            return self.crate is None or not (has_type(self.crate, method[2]) and re.search(r"\bfn %s\b" % method[3], source(self.crate)))
        call = re.fullmatch(r"([a-z0-9_]+)::(\w+)", name)
        if call:
            self.crate, self.module = call[1], None
            return not is_crate(call[1]) or not has_function(call[1], call[2])
        return self.alone_missing(name)

    def alone_missing(self, name):
        if is_crate(name):
            self.crate, self.module = name, None
            return False
        if self.module is not None and defines(self.module, name):
            return False
        if self.crate is not None and (has_function(self.crate, name, public=False) or has_type(self.crate, name) or self.module_named(self.crate, name) is not None):
            return False
        return not known(name)


def known(name):
    """What stands by itself: a type of a crate, a folder or file of the tree, a C entry's or the original's name, a word of the language."""
    if os.path.exists(os.path.join(ROOT, name)):
        return True
    if any(has_type(c, name) or has_function(c, name) or has_function(c, "selvaigo_" + name) for c in os.listdir(os.path.join(ROOT, "crates"))):
        return True
    return False


# of the original and of the language, not of this tree
WORDS = {"hash_key", "io::Read", "RecordStats", 'extern "C"', "&mut CounterMaintenance", "selvaigo_", "Got.count", "Found.idx", "CRATE/EDIT", "crate Module.name", "crate::function", "crates/*/specs", "invariant-loop-k", "step", "Order", "Layouts", "Rules", "Worked", "Lines"}


def cells(line):
    return [c for c in line.strip().strip("|").split(" | ")]


def faults():
    text = read("docs", "MAP.md")
    for number, line in enumerate(text.splitlines(), 1):
        for cell in cells(line) if line.startswith("|") else [line]:
            look = Cell()
            for found in re.finditer(r"`([^`]+)`(?: \(([\w-]+(?:, [\w-]+)*)\))?", cell):
                if look.missing(found[1], cell[: found.start()]):
                    yield f"docs/MAP.md:{number}: not there: {found[1]}"
                elif found[2] and look.module is not None:
                    yield from (f"docs/MAP.md:{number}: not in the module of {found[1]}: {f}" for f in found[2].split(", ") if not defines(look.module, f))
    rows = re.findall(r"(?m)^\| ([A-Z]\d+) \|", text)
    rules = re.findall(r"\*\*([A-Z]\d+)\*\*", read("docs", "SCOPE.md"))
    yield from (f"docs/MAP.md: a row {r} that is no rule of docs/SCOPE.md" for r in rows if r not in rules)
    yield from (f"docs/SCOPE.md: a rule {r} without a row in docs/MAP.md" for r in rules if r not in rows)
    yield from (f"{r}: stands twice" for r in sorted(set(rows) | set(rules)) if rows.count(r) > 1 or rules.count(r) > 1)


def main():
    wrong = list(faults())
    for line in wrong:
        print(line)
    print(f"docs/MAP.md: {len(wrong)} faults" if wrong else "docs/MAP.md: every name is there")
    return 1 if wrong else 0


if __name__ == "__main__":
    sys.exit(main())
