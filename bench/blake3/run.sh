#!/bin/sh
# The proved hash beside the official one, without a key and under one: its portable code, its SSE2 code, and the best that the machine has.
#
#   run.sh          times: two lines for each size, the ratio of the speeds last (1.00: as fast as the official code)
#   run.sh count    instructions per hash, by callgrind
#
# Needs Debian's packages librust-blake3-dev and, to count, valgrind.
set -eu
cd "$(dirname "$0")"
../../tools/staticlib.sh >/dev/null
target=../../target/bench
for kind in portable sse2 best; do
    cargo build --quiet --release --features "$kind" --target-dir "$target/$kind"
    bench=$target/$kind/release/bench_blake3
    echo "$kind:"
    if [ "${1:-}" != count ]; then
        "$bench"
        continue
    fi
    for size in 64 1024 16384 1048576; do
        for who in proved official proved_keyed official_keyed; do
            # the difference of two runs leaves out what a program does once
            counts=$(for times in 10 20; do
                valgrind --tool=callgrind --callgrind-out-file=/dev/null "$bench" "$who" "$size" "$times" 2>&1 | sed -n 's/.*Collected : //p'
            done)
            # shellcheck disable=SC2086
            set -- $counts
            printf '%8s bytes: %s %s instructions\n' "$size" "$who" $((($2 - $1) / 10))
        done
    done
    set -- count
done
