#!/usr/bin/env bash
# Plays the traces in tests/traces through the archive: by replay, by single calls, and with each line put otherwise.
set -eu
bash "$(dirname "$0")/../../scripts/host_test.sh" traces "$@"
