#!/usr/bin/env bash
# Compares the archive with the independent model in tests/host/model. Words go to the program: --seed N, --scale K.
set -eu
bash "$(dirname "$0")/../../scripts/host_test.sh" compare "$@"
