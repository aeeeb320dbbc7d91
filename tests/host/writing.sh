#!/usr/bin/env bash
# Compares the archive's writing and shrinking of bench traces with the independent model in listing.rs, writing.rs and
# shrinking.rs of tests/host/model. Words go to the program: --seed N, --scale K.
set -eu
bash "$(dirname "$0")/../../scripts/host_test.sh" writing "$@"
