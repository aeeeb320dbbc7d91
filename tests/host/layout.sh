#!/usr/bin/env bash
# Records that version 1.0.0 left, of layout 1, are refused; some of them would be taken but for the layout's number.
set -eu
cd "$(dirname "$0")/../.."
bash scripts/archive.sh
${CC:-cc} -std=c11 -Wall -Wextra -Werror -pedantic -O2 -Iinclude -o target/layout tests/host/layout.c \
    target/staticlib/libwarpmagpie.a
target/layout tests/host/records/layout-1.txt
