#!/usr/bin/env bash
# The program baud: the examples in tests/host/baud_table, which were worked out apart from it, other clocks and rates
# against a calculation of the test's own, and wrong arguments. The README shows the first example as it is.
set -eu
cd "$(dirname "$0")/../.."
bash scripts/program.sh baud
for text in tests/host/baud_table/*_*.txt; do
    pair=$(basename "$text" .txt)
    if ! target/bin/baud "${pair%_*}" "${pair#*_}" | diff "$text" -; then
        echo "baud table: $text (<) and what the program writes (>) differ"
        exit 1
    fi
done

# The whole text, between the lines before and after it.
example=$(cat tests/host/baud_table/16000000_115200.txt)
case "$(cat README.md)" in
*"
$example
"*) ;;
*)
    echo "baud table: README.md does not have what baud 16000000 115200 writes"
    exit 1
    ;;
esac

rustc -O --edition 2021 -D warnings -o target/baud_table tests/host/baud_table.rs
target/baud_table target/bin/baud tests/host/baud_table/usage.txt
