#!/usr/bin/env bash
# Writes target/staticlib/libwarpmagpie.a, unless it is there and newer than every source. rt proves the crates first,
# where that has not been done, and makes no archive of what is not proved. The archive has a member for each crate with
# exported calls, compiled by itself (docs/DECISIONS.md, 'Speed'); a rig links those that it calls.
set -eu
cd "$(dirname "$0")/.."
archive=target/staticlib/libwarpmagpie.a
sources() { find crates crates.txt -name out -prune -o "$@"; }
if [ -e "$archive" ] && [ -z "$(sources -newer "$archive" -type f -print -quit)" ]; then exit 0; fi
echo "archive: proving and building, which takes some minutes the first time" >&2
mkdir -p target/staticlib
rm -f "$archive"
made=$(mktemp -d)
trap 'rm -rf "$made"' EXIT
# NAME_c exports the calls of the crate NAME, and its archive has one member, NAME_c.o.
for crate in warpmagpie holding tracing recording; do
    (cd crates/${crate}_c && rt lib) >target/staticlib.log 2>&1 || { cat target/staticlib.log; exit 1; }
    (cd "$made" && ar x "$OLDPWD/crates/${crate}_c/out/lib${crate}_c.a" ${crate}_c.o && mv ${crate}_c.o $crate.o) \
        >target/staticlib.log 2>&1 || { cat target/staticlib.log; exit 1; }
done
(cd "$made" && ar rc whole.a warpmagpie.o holding.o tracing.o recording.o)
mv "$made/whole.a" "$archive"
