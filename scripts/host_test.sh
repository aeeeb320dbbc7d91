#!/usr/bin/env bash
# Links tests/host/NAME.rs with the archive and runs it. Usage: host_test.sh NAME [WORD ..], the words for the program.
set -eu
cd "$(dirname "$0")/.."
bash scripts/archive.sh
name=$1
shift
rustc -O --edition 2021 -D warnings -o "target/$name" "tests/host/$name.rs" -L native=target/staticlib \
    -l static=warpmagpie
"target/$name" "$@"
