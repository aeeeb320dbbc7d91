#!/usr/bin/env bash
# Compares the archive's planner and check of baud settings with the independent model in tests/host/model/baud.rs and
# with the datasheets' rows in tests/host/baud/rows.txt. Words go to the program: --seed N, --scale K.
set -eu
bash "$(dirname "$0")/../../scripts/host_test.sh" baud "$@"
