#!/bin/sh
# The proved calls beside the original Rust, which is compiled unchanged from the folder in TYCHO_SRC (it holds core/src/storage/shard_state), in one
# process: a table with a line for each comparison, the ratios of the speeds last (1: as fast as the original). Each line has seen both sides give the same answer.
# In the lines named keyed the port's records are under a key; the original has none, so its side is the same as in the lines without, and the answers are the same but for the hashes.
# Behind it, a table of journals that are converted, which the original doesn't do, beside the time that hashing them takes.
#
#   TYCHO_SRC=DIR run.sh [--quick] [WORD ..]     only the lines whose names have one of the words; quick: fewer turns
#
# The original's hash is the best that the machine has; a second table, of hash and records, has it built portable. The port is
# linked from the folder in SELVAIGO_LIB, or else made anew by tools/staticlib.sh.
#
# Needs Debian's packages librust-{ahash,anyhow,blake3,bytes,dashmap,hashbrown,libc,parking-lot,rayon,thiserror,tracing}-dev and
# libroaring-dev, and Rust 1.95.
set -eu
TYCHO_SRC=$(cd "${TYCHO_SRC:?the folder that holds core/src/storage/shard_state}" && pwd)
export TYCHO_SRC
if [ -n "${SELVAIGO_LIB:-}" ]; then
    SELVAIGO_LIB=$(cd "$SELVAIGO_LIB" && pwd)
    export SELVAIGO_LIB
fi
cd "$(dirname "$0")"
[ -n "${SELVAIGO_LIB:-}" ] || ../../tools/staticlib.sh >/dev/null
target=../../target/bench/node
for kind in best portable; do
    cargo build --quiet --release --features "$kind" --target-dir "$target"
    echo "$kind:"
    case "$kind $*" in
        "portable " | "portable --quick") set -- "$@" hash record ;;
    esac
    "$target/release/bench_node" "$@"
done
