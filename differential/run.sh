#!/bin/sh
# The port beside the original Rust on generated steps. README.md says what is compared.
#
#   TYCHO_SRC=DIR run.sh [--steps N | --seconds S] [--seed K] [--threads N] [--checked]
#   TYCHO_SRC=DIR run.sh --run K [--seed K]      one run of a seed
#   TYCHO_SRC=DIR run.sh --replay FILE           the steps of a file
#   TYCHO_SRC=DIR run.sh --sample                writes the lists crates/*_vectors/data/original anew
#
# TYCHO_SRC is the folder that holds core/src/storage/shard_state. The port's library is made by tools/staticlib.sh, unless SELVAIGO_LIB
# names a folder that has libselvaigo.a. Needs Debian's packages librust-{ahash,anyhow,blake3,bytes,dashmap,hashbrown,libc,parking-lot,
# rayon,thiserror,tracing}-dev and libroaring-dev, and Rust 1.95.
set -eu
TYCHO_SRC=$(cd "${TYCHO_SRC:?the folder that holds core/src/storage/shard_state}" && pwd)
export TYCHO_SRC
here=$(cd "$(dirname "$0")" && pwd)
if [ -z "${SELVAIGO_LIB:-}" ]; then
    "$here/../tools/staticlib.sh" >/dev/null
fi
profile=release
for word; do
    shift
    case $word in
    --checked) profile=checked ;;
    --sample) set -- "$@" --sample "$here/../crates" ;;
    *) set -- "$@" "$word" ;;
    esac
done
target=$here/../target/differential
(cd "$here" && cargo build --quiet --profile "$profile" --target-dir "$target")
exec "$target/$profile/differential" "$@"
