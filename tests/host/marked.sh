#!/usr/bin/env bash
# Links a C program with the archive and runs it: M8, M10, M-101 and each refusal by hand.
set -eu
cd "$(dirname "$0")/../.."
bash scripts/archive.sh
${CC:-cc} -std=c11 -Wall -Wextra -Werror -O2 -Iinclude -o target/marked tests/host/marked.c target/staticlib/libwarpmagpie.a
target/marked
