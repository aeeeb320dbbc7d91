#!/usr/bin/env bash
# Compares the archive's replay of bench traces with the independent model in tests/host/model/trace.rs and replay.rs.
# Words go to the program: --seed N, --scale K.
set -eu
bash "$(dirname "$0")/../../scripts/host_test.sh" replay "$@"
