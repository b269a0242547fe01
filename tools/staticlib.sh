#!/bin/sh
# Proves all calls of include/selvaigo.h, and writes them to one archive for C or Rust to link: target/staticlib/libselvaigo.a.
#
#   tools/staticlib.sh
#
# It is the crate `selvaigo`, which exports the calls of the crates named .._abi and nothing else.
set -eu
cd "$(dirname "$0")/.."
folder=target/staticlib
library=$folder/libselvaigo.a
mkdir -p "$folder"
(cd crates/selvaigo && rt lib) >"$folder/said" 2>&1 || { cat "$folder/said" >&2; exit 1; }
# moved into its place whole: nobody links a half of it
cp crates/selvaigo/out/libselvaigo.a "$library.new"
mv "$library.new" "$library"
echo "$library has the calls of include/selvaigo.h"
