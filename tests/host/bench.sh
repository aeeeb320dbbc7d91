#!/usr/bin/env bash
# One round of the benchmark: it builds, and archive and model come to the same. Then the count of instructions: no call
# of it is refused. What times and counts are is not looked at.
set -eu
cd "$(dirname "$0")/../.."
bash bench/run.sh 1 >target/bench.log
bash bench/instructions.sh >>target/bench.log
echo "bench: builds, and archive and model come to the same"
