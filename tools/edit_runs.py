#!/usr/bin/env python3
"""Run the wrong programs that the must-fail edits make, and say what shows that they are wrong.

  tools/edit_runs.py                     every edit of code
  tools/edit_runs.py CRATE [CRATE ..]    those of some crates

An edit is made in a copy and run, unproved, by tools/edit.sh in the programs that use its crate, one after the other, until one writes something else
than it should. What none tells from the right program is named at the end: such an edit makes no wrong program, or the lists of calls have no step that
shows it (they call no held form). Nothing is proved by this, and the gate doesn't need it: it is for the day when
code moves. Exit status: 1 where an edit could not be run at all.
"""
import os
import subprocess
import sys
from concurrent.futures import ThreadPoolExecutor

ROOT = os.path.join(os.path.dirname(os.path.abspath(__file__)), "..")
CRATES = os.path.join(ROOT, "crates")


def needed():
    """For each crate the crates that it names in crates.txt."""
    with open(os.path.join(ROOT, "crates.txt"), encoding="utf8") as file:
        lines = [line.partition("#")[0].partition(":") for line in file]
    return {name.split()[0]: names.split() for name, _, names in lines if name.strip()}


def uses(needs, program, crate):
    """Whether a program is a crate or needs it, itself or through others."""
    return program == crate or any(uses(needs, name, crate) for name in needs.get(program, []))


def edits(crate):
    """The edits of a crate that change code."""
    folder = os.path.join(CRATES, crate, "must-fail")
    for name in sorted(os.listdir(folder)) if os.path.isdir(folder) else []:
        with open(os.path.join(folder, name), encoding="utf8") as file:
            if "file: src/" in file.read():
                yield name.removesuffix(".edit")


def shown(crate, edit, programs):
    """The first program that writes something else or ends otherwise, and where; nothing where none does."""
    for program in programs:
        command = [os.path.join(ROOT, "tools", "edit.sh"), crate, edit, program]
        said = subprocess.run(command, capture_output=True, text=True, check=False)
        lines = (said.stdout + said.stderr).strip().splitlines() or ["it says nothing"]
        if lines == [f"{program} writes what it should"]:
            continue
        told = [line for line in lines if line.startswith(("at byte ", "FAIL: "))]
        if not told:
            # not compiled, or not reached: that says nothing of the program that the edit makes
            raise RuntimeError(f"{crate}/{edit}: {program} was not run: {lines[0]}")
        return f"{program}, {told[0]}"
    return ""


def main():
    needs = needed()
    strange = [crate for crate in sys.argv[1:] if crate not in needs]
    if strange:
        sys.exit(f"not in crates.txt: {' '.join(strange)}")
    programs = [name for name in needs if os.path.isfile(os.path.join(CRATES, name, "src", "main.rt"))]
    hidden, unrun = [], []

    def run(crate):
        mine = [program for program in programs if uses(needs, program, crate)]
        for edit in edits(crate):
            try:
                where = shown(crate, edit, mine)
            except RuntimeError as error:
                unrun.append(str(error))
                continue
            if where:
                print(f"{crate}/{edit}: {where}", flush=True)
            else:
                hidden.append(f"{crate}/{edit}")

    with ThreadPoolExecutor(2) as pool:
        list(pool.map(run, sys.argv[1:] or needs))
    for edit in sorted(hidden):
        print(f"{edit}: no program shows it")
    for line in sorted(unrun):
        print(line)
    return 1 if unrun else 0


if __name__ == "__main__":
    sys.exit(main())
