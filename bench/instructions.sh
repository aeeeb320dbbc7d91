#!/usr/bin/env bash
# Counts the instructions of one call by valgrind's callgrind, with the few that it takes to make the call: two numbers
# of rounds are run, so that what comes before them falls out. Unlike a time, such a count comes out the same again.
# A word is the archive, of any layout that has the calls.
set -eu
archive=${1:+$(realpath "$1")}
cd "$(dirname "$0")/.."
if ! command -v valgrind >/dev/null; then
    echo "instructions: there is no valgrind here, so none are counted"
    exit 0
fi
if [ -z "$archive" ]; then
    bash scripts/archive.sh
    archive=target/staticlib/libwarpmagpie.a
fi
mkdir -p target
${CC:-cc} -std=c11 -Wall -Wextra -Werror -pedantic -O2 -Iinclude -o target/instructions bench/instructions.c "$archive"
few=100
many=300

collected() { # ROW ROUNDS
    valgrind --tool=callgrind --callgrind-out-file=/dev/null target/instructions "$1" "$2" 2>target/instructions.log ||
        { cat target/instructions.log >&2; return 1; }
    awk '/Collected/ { print $NF }' target/instructions.log
}

printf '%-46s%9s\n' instructions "a call"
target/instructions | while read -r row calls name; do
    first=$(collected "$row" $few)
    second=$(collected "$row" $many)
    printf '%-46s%9d\n' "$name" $(((second - first) / ((many - few) * calls)))
done
