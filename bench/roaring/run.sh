#!/bin/sh
# The proved reading and writing of a bitmap of a million members beside CRoaring's (Debian's package libroaring-dev).
set -eu
cd "$(dirname "$0")/../.."
(cd crates/roaring_abi_c && rt lib >/dev/null)
mkdir -p target/bench target/staticlib
cp crates/roaring_abi_c/out/libroaring_abi_c.a target/staticlib/libroaring_abi.a
cc -O2 -o target/bench/roaring bench/roaring/bench.c target/staticlib/libroaring_abi.a -lroaring
target/bench/roaring
