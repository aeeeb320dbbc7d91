#!/usr/bin/env bash
# The cheapest refutations of wrong programs, so that the way of refuting does not go stale. 'make refute' does all.
set -eu
cd "$(dirname "$0")/../.."
bash scripts/refute.sh fixed_answer wrong_planners wrong_reader
