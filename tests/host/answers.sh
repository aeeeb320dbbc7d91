#!/usr/bin/env bash
# The answers stand in three places: the header, the README's table and the table of names in examples/. They have to
# say the same: number, name and words of each.
set -eu
cd "$(dirname "$0")/../.."
mkdir -p target
strict="-std=c11 -Wall -Wextra -Werror -pedantic -Iinclude -Iexamples"
# shellcheck disable=SC2086 # the words of $strict are options
${CC:-cc} $strict -O1 -o target/answers tests/host/answers.c examples/answers.c
target/answers >target/answers.table

# In the header 0 has no words, since its name says all.
sed -n '/^enum warpmagpie_answer {/,/^}/{
    s|^ *\(WARPMAGPIE_DONE\) = 0,$|0 \1: done|p
    s|^ *\([A-Z_]*\) = \([0-9]*\),\{0,1\} */\* \(.*\) \*/$|\2 \1: \3|p
}' include/warpmagpie.h >target/answers.header
sed -n 's/^| \([0-9]*\) | `\(WARPMAGPIE_[A-Z_]*\)` | \(.*\) |$/\1 \2: \3/p' README.md >target/answers.readme

# A reader that finds nothing in either text would find them alike.
constants=$(sed -n '/^enum warpmagpie_answer {/,/^}/p' include/warpmagpie.h | grep -c ' = ')
for place in header readme; do
    if ! diff target/answers.table target/answers.$place; then
        echo "answers: examples/answers.c (<) and the $place (>) differ"
        exit 1
    fi
done
if [ "$constants" -ne "$(wc -l <target/answers.table)" ]; then
    echo "answers: the header has $constants answers, of which not all were read"
    exit 1
fi
echo "answers: header, README and examples/answers.c say the same of all $constants; every byte has a name"
