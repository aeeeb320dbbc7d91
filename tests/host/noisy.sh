#!/usr/bin/env bash
# Compares the archive with the independent model in tests/host/model on lines with the noise that M-112 allows, and
# sees what one hit more does. Words go to the program: --seed N, --scale K.
set -eu
bash "$(dirname "$0")/../../scripts/host_test.sh" noisy "$@"
