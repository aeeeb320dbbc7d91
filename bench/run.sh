#!/usr/bin/env bash
# Builds and runs the benchmarks. A word is the number of rounds.
set -eu
cd "$(dirname "$0")/.."
bash scripts/archive.sh
for name in bench texts; do
    rustc -C opt-level=3 --edition 2021 -D warnings -o target/$name bench/$name.rs -L native=target/staticlib \
        -l static=warpmagpie
    target/$name "$@"
done
