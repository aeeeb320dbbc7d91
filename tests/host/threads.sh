#!/usr/bin/env bash
# Calls on different records from two threads at once come to what they come to from one thread. Races are looked for
# too, where that can be done: helgrind, if valgrind is installed, sees every access, the archive's own too. The thread
# sanitizer, if cc can link it and its programs start here, sees those of threads.c and the archive's calls of memset,
# not what the archive's own code reads and writes.
set -eu
cd "$(dirname "$0")/../.."
bash scripts/archive.sh
build() { # OUTPUT OPTION..
    local output=$1
    shift
    ${CC:-cc} -std=c11 -Wall -Wextra -Werror -pedantic -O2 -gdwarf-4 -Iinclude -pthread "$@" -o "$output" \
        tests/host/threads.c target/staticlib/libwarpmagpie.a
}

build target/threads
target/threads
watch="valgrind is not here to look for races"
if command -v valgrind >/dev/null; then
    valgrind -q --tool=helgrind --error-exitcode=99 target/threads 1000 >target/threads.log 2>&1 ||
        { cat target/threads.log; echo "threads: helgrind sees a race"; exit 1; }
    watch="helgrind sees no race"
fi
sanitizer=-fsanitize=thread
if echo 'int main(void) { return 0; }' | ${CC:-cc} $sanitizer -x c -o target/threads_probe - 2>target/threads.log &&
    target/threads_probe 2>>target/threads.log; then
    build target/threads_watched $sanitizer
    target/threads_watched >target/threads.log 2>&1 || { cat target/threads.log; echo "threads: $sanitizer"; exit 1; }
    watch="$watch; $sanitizer sees none in threads.c"
fi
echo "threads: two threads with a record each come to what one does; $watch"
