#!/usr/bin/env bash
# Builds target/bin/NAME, unless it is there and newer than every source: program.sh baud, program.sh replay. rt proves
# the crates first, where that has not been done, and builds no program that is not proved.
set -eu
cd "$(dirname "$0")/.."
name=$1
program=target/bin/$name
sources() { find crates crates.txt -name out -prune -o "$@"; }
if [ -e "$program" ] && [ -z "$(sources -newer "$program" -type f -print -quit)" ]; then exit 0; fi
echo "$name: proving and building, which takes some minutes the first time" >&2
mkdir -p target/bin
# rt builds a program by running it: what it prints without an argument is not looked at, and what counts is that it was
# built, which a crate that is not proved never is.
built=crates/$name/out/$name
rm -f "$built"
(cd "crates/$name" && rt run) >"target/$name.log" 2>&1 </dev/null || true
[ -x "$built" ] || { cat "target/$name.log"; exit 1; }
cp "$built" "$program"
