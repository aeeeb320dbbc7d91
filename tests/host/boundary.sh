#!/usr/bin/env bash
# The C boundary of the archive: the header from C99 and C++11, then boundary.c with every length, address and vector.
# Memory that a call has no right to is watched by valgrind where it is installed, else by the address sanitizer where
# cc can link it (it sees the C side and what the archive writes into the guard bytes of boundary.c, not the archive's
# own reads).
set -eu
cd "$(dirname "$0")/../.."
bash scripts/archive.sh
archive=target/staticlib/libwarpmagpie.a
strict="-Wall -Wextra -Werror -pedantic -Iinclude"

echo '#include "warpmagpie.h"' | ${CC:-cc} -std=c99 $strict -x c -c -o target/header.o -
if command -v "${CXX:-c++}" >/dev/null; then
    ${CXX:-c++} -std=c++11 $strict -o target/header tests/host/header.cpp $archive
    target/header
    languages="C99 and C++11"
else
    languages="C99 (no C++ compiler here)"
fi

build() { ${CC:-cc} -std=c11 $strict -O1 -gdwarf-4 "$@" -o target/boundary tests/host/boundary.c $archive; }
sanitizers=-fsanitize=address,undefined
if command -v valgrind >/dev/null; then
    build
    target/boundary
    valgrind -q --error-exitcode=99 target/boundary short
    watch="plain in full, under valgrind in part"
elif build $sanitizers 2>target/boundary.log; then
    target/boundary
    watch="with $sanitizers"
else
    build
    target/boundary
    watch="plain (neither valgrind nor the sanitizers are here)"
fi
echo "boundary: header compiles as $languages; every record and run length, address and vector as it has to be; $watch"
