#!/usr/bin/env bash
# Builds target/rig, the demo, from the archive and examples/.
set -eu
cd "$(dirname "$0")/.."
bash scripts/archive.sh
${CC:-cc} -std=c11 -Wall -Wextra -Werror -pedantic -O2 -Iinclude -Iexamples -o target/rig examples/*.c target/staticlib/libwarpmagpie.a
