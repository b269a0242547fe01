#!/usr/bin/env python3
"""Respells the repository's own definitions and lemmas as Rattle's style pages want them.

usage: python3 tools/respell.py [ROOT]     once, after /opt/rattle/port/port.py; prints each old name beside the new one

Facts and types are in upper camel case; all else is in snake case. A dash stays in the name of a lemma, where it joins two names.
Functions of src/, exported C names, strings, inputs and outputs keep their names.
"""

import collections
import glob
import os
import re
import sys

TOKEN = re.compile(r"[^\s(){}\[\].,;:«»|\"`⌜⌝]+")
DECLARED = re.compile(r"^(\s*)((?:(?:pub|abbrev|unfoldable|opaque)\s+)*)([^\s(){}:.,;«»|\"]+)((?:\s+(?:\([^()]*(?:\([^()]*\)[^()]*)*\)|\{[^{}]*\}))*)\s*:\s+(.*)$")
HEAD = re.compile(r"^\s*(?:pub\s+)?(data|record)\s+(?:pub\s+)?([^\s(){}:]+)")
# Lemmas that port.py had turned, and whose names would fall together with those of definitions: their dash comes back.
LEMMAS = "cell_in count_at entry_row front_of in_bounds laid_out no_items nothing_left one_more read_back runs_up set_all sets_end small_of too_long too_short".split()


def snake(name):
    name = re.sub(r"(?<=[a-z0-9])(?=[A-Z])", "_", name.replace("getD", "get_or"))
    return name.lower()


def camel(name):
    return "".join(p[:1].upper() + p[1:] for p in re.split(r"[-_]", name) if p)


def declarations(root):
    """(file, name, kind, type): kind is 'field', 'case' or 'name'."""
    found = []
    files = sorted(glob.glob(f"{root}/crates/*/specs/**/*.antt", recursive=True)) + sorted(glob.glob(f"{root}/crates/*/proofs/*.antt"))
    for path in files:
        lines = open(path, encoding="utf-8").read().split("\n")
        inside, depth = None, 0
        for i, line in enumerate(lines):
            if line.strip().startswith("--") or not line.strip():
                continue
            indent = len(line) - len(line.lstrip())
            head = HEAD.match(line)
            if head:
                inside, depth = head.group(1), indent
                continue
            if inside and indent <= depth:
                inside = None
            m = DECLARED.match(line)
            if not m or m.group(3) in ("module", "use", "open", "let", "|", "→", "mod"):
                continue
            kind = {"record": "field", "data": "case", None: "name"}[inside]
            text = m.group(5)
            j = i + 1
            while j < len(lines) and lines[j].strip() and len(lines[j]) - len(lines[j].lstrip()) > indent and "=" not in lines[j]:
                text += " " + lines[j].strip()
                j += 1
            found.append((path, m.group(3), kind, text))
    return found


def imported(root):
    """Names that come from the library."""
    out = set()
    for path in glob.glob(f"{root}/crates/**/*", recursive=True):
        if not path.endswith((".antt", ".rt")):
            continue
        for m in re.finditer(r"use ((?:Rattle\.(?:std|core|io|os|libc)|mathlib|native|lib|borrow|Prim|logic)[\w.·'-]*)\.\{([^}]*)\}", open(path, encoding="utf-8").read()):
            for it in m.group(2).split(","):
                out.update(w.strip() for w in it.split(" as "))
    return out


def renamed(root):
    found = declarations(root)
    kinds = collections.defaultdict(set)
    for path, name, kind, text in found:
        target = re.split(r"→", text)[-1].strip()
        if kind == "name" and re.match(r"Type\s*(0|1|\{|$|ℓ)", target):
            kinds[name].add("fact")
        else:
            kinds[name].add(kind)
    library = imported(root)
    mapping = {}
    for name, kind in sorted(kinds.items()):
        if name in LEMMAS:
            mapping[name] = name.replace("_", "-")
            continue
        if name in library or not re.match(r"[A-Za-z]", name):
            continue
        if kind == {"fact"}:
            new = name if re.match(r"[A-Z][A-Za-z0-9']*$", name) else camel(name)
        elif "fact" in kind:
            print(f"two kinds: {name} {kind}")
            continue
        elif re.match(r"[A-Z]", name):
            continue
        elif "name" in kind:
            new = snake(name)
        else:
            new = snake(name.replace("-", "_"))
        if new != name:
            mapping[name] = new
    taken = collections.defaultdict(set)
    for name in kinds:
        taken[mapping.get(name, name)].add(name)
    for olds in [o for o in taken.values() if len(o) > 1]:
        for name in olds:
            if "name" not in kinds[name]:
                mapping.pop(name, None)
    taken = collections.defaultdict(set)
    for name in kinds:
        taken[mapping.get(name, name)].add(name)
    for new, olds in sorted(taken.items()):
        if len(olds) > 1 or (new in library and new not in olds):
            print(f"fall together: {new} from {sorted(olds)}{' and the library' if new in library else ''}")
    return mapping, {n for n, k in kinds.items() if "field" in k}


def turn(text, mapping, fields, walked):
    """Replaces whole names; in a proof that walks the code, a name after a dot only where it is a field of the repository's."""

    def one(m):
        word = m.group(0)
        new = mapping.get(word)
        if new is None:
            return word
        if walked and m.start() and text[m.start() - 1] == "." and word not in fields and not before_is_module(m.start()):
            return word
        return new

    def before_is_module(at):
        k = at - 1
        while k > 0 and not text[k - 1].isspace() and text[k - 1] not in "(){}[],;":
            k -= 1
        return bool(re.match(r"(Rattle\.|[A-Z])", text[k:at]))

    return TOKEN.sub(one, text)


def turn_source(text, mapping, fields):
    """Code and clauses, without what stands in strings; in comments only what no English word is."""
    out = []
    for line in text.split("\n"):
        parts = re.split(r'("(?:[^"\\]|\\.)*"|//.*$)', line)
        for k, p in enumerate(parts):
            if p.startswith('"'):
                continue
            some = {a: b for a, b in mapping.items() if (a not in LEMMAS if not p.startswith("//") else re.search(r"[a-z0-9][A-Z]", a))}
            parts[k] = turn(p, some, fields, False)
        out.append("".join(parts))
    return "\n".join(out)


def main(argv):
    root = argv[0] if argv else "."
    mapping, fields = renamed(root)
    comment = {a: b for a, b in mapping.items() if re.search(r"[a-z0-9][A-Z]", a)}
    for path in sorted(glob.glob(f"{root}/crates/**/*", recursive=True)):
        if "/out/" in path or not path.endswith((".antt", ".rt")):
            continue
        text = open(path, encoding="utf-8").read()
        if path.endswith(".rt"):
            new = turn_source(text, mapping, fields)
        else:
            walked = path.endswith("/Proof.antt")
            new = "\n".join(turn(l, comment, fields, False) if l.lstrip().startswith("--") else turn(l, mapping, fields, walked) for l in text.split("\n"))
        if new != text:
            open(path, "w", encoding="utf-8").write(new)
    for a, b in sorted(mapping.items()):
        print(f"{a}\t{b}")


if __name__ == "__main__":
    main(sys.argv[1:])
