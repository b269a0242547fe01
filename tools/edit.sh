#!/bin/sh
# Tries one must-fail edit, and says what the check says against it; or runs a program with it.
#
#   tools/edit.sh CRATE EDIT                    crates/CRATE/must-fail/EDIT.edit: refused or not, and the first error, by `rt must-fail CRATE`
#   tools/edit.sh CRATE EDIT PROGRAM [STDIN]    runs a program with the edit in it, unproved, on its own input or on another file: what it writes
#
# `rt must-fail` tries all edits of the crate that it has not tried as they stand: the first call costs a check of the crate and some seconds for each
# edit, a later one next to nothing. A program is made in a copy outside the repository, by `rt try`. Exit status: 0 where the edit is refused, or the
# program ran.
set -eu
[ $# -ge 2 ] || { sed -n '2,9s/^# \{0,1\}//p' "$0"; exit 2; }
root=$(cd "$(dirname "$0")/.." && pwd)
crate=$1 edit=$2 program=${3:-} input=${4:-}
file=$root/crates/$crate/must-fail/$edit.edit
[ -f "$file" ] || { echo "there is no crates/$crate/must-fail/$edit.edit" >&2; exit 2; }
work=$(mktemp -d)
trap 'rm -rf "$work"' EXIT
if [ -z "$program" ]; then
    cd "$root"
    rt must-fail "$crate" >"$work/said" 2>&1 || :
    # what is said of the edit, with the lines behind it that name no other
    awk -v it="$crate/$edit.edit:" '/^rt: |^[0-9]+ passed/ { on = index($0, it) } on' "$work/said" >"$work/mine"
    [ -s "$work/mine" ] || { cat "$work/said"; exit 1; }
    cut -c 1-700 "$work/mine"
    grep -q ': refused' "$work/mine"
    exit
fi
[ -d "$root/crates/$program" ] || { echo "there is no crates/$program" >&2; exit 2; }
own=$root/crates/$program
[ -n "$input" ] || { input=/dev/null; [ ! -f "$own/stdin" ] || input=$own/stdin; }
input=$(cd "$(dirname "$input")" && pwd)/$(basename "$input")
wanted=/dev/null
[ ! -f "$own/stdout" ] || wanted=$own/stdout
# another input has no output that is wanted
[ $# -lt 4 ] || wanted=
cp "$root/crates.txt" "$work"
mkdir "$work/crates"
for c in "$root"/crates/*; do
    mkdir "$work/crates/${c##*/}"
    for part in src specs proofs; do [ ! -d "$c/$part" ] || cp -R "$c/$part" "$work/crates/${c##*/}"; done
done
python3 - "$file" "$work/crates/$crate" <<'P'
import sys
name = old = ""
for line in open(sys.argv[1], encoding="utf8"):
    word, _, rest = line.rstrip("\n").partition(":")
    rest = rest.removeprefix(" ")
    if word == "file":
        name = rest
    elif word == "old":
        old = rest
    elif word == "new":
        path = f"{sys.argv[2]}/{name}"
        text = open(path, encoding="utf8").read()
        if text.count(old) != 1:
            sys.exit(f"an 'old:' text stands {text.count(old)} times in {name}: {old}")
        open(path, "w", encoding="utf8").write(text.replace(old, rest))
P
set --
for data in "$own"/data/*; do
    [ ! -f "$data" ] || set -- "$@" --data "${data##*/}=$data"
done
status=0
(cd "$work/crates/$program" && rt try "$@" <"$input" >"$work/wrote" 2>"$work/said") || status=$?
# 1: refused, 2 and 3: no answer, 4: a fault, as `rt help` has it
if grep -q 'run=none' "$work/said"; then cat "$work/said"; exit 1; fi
if [ "$status" -ge 4 ]; then
    echo "FAIL: $program stops"
    tail -n 3 "$work/said" | cut -c 1-700
elif [ -z "$wanted" ]; then
    cat "$work/wrote"
elif cmp -s "$wanted" "$work/wrote"; then
    echo "$program writes what it should"
else
    python3 - "$wanted" "$work/wrote" <<'P'
import sys
wanted, wrote = (open(path, "rb").read() for path in sys.argv[1:])
at = next((i for i, (a, b) in enumerate(zip(wanted, wrote)) if a != b), min(len(wanted), len(wrote)))
start = max(wrote.rfind(b"\n", 0, at), wanted.rfind(b"\n", 0, at)) + 1
shown = [text[start : start + 200].decode("utf8", "replace").split("\n")[0] for text in (wanted, wrote)]
print(f"at byte {at} in place of\n{shown[0]}\nit writes\n{shown[1]}")
P
fi
