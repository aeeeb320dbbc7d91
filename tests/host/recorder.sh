#!/usr/bin/env bash
# The recorder of examples/, which writes and shrinks by the archive: its text at the edges; a refused call before its
# node stops the program; the demo's chime, whose trace is its own shrunk form, comes to the record that the chime ended
# with when it is replayed, and is refused where an answer was changed. The trace that the README shows is replayed too.
set -eu
cd "$(dirname "$0")/../.."
fail() { echo "recorder: $*"; exit 1; }
bash examples/build.sh
${CC:-cc} -std=c11 -Wall -Wextra -Werror -pedantic -O2 -Iinclude -Iexamples -o target/recorder tests/host/recorder.c \
    examples/recorder.c examples/node.c examples/answers.c target/staticlib/libwarpmagpie.a
trace=target/recorder.trace changed=target/recorder.changed
tabs() { tr ' ' '\t'; }
replayed() { target/recorder replay "$1" | head -n 1; }

target/recorder edges $trace || fail "a trace could not be written"
tabs <<'END' | diff - $trace || fail "wanted (<) and recorded (>) differ"
chime 1
W 193 24 0
C 17 16
C 16 1
R 255 0 1
C 16 3
A 0 8
C 31 4294967295
C 31 4294967295
C 31 1
END

! target/recorder stopped $trace 2>target/recorder.log || fail "a refused call did not stop the program"
printf 'chime 1\nC 17 3\nW 195 0 1\n' | tabs | diff - $trace || fail "wanted (<) and recorded at the stop (>) differ"
[ "$(replayed $trace)" = $'0\t0' ] || fail "the trace up to a refused call is answered $(replayed $trace)"

target/rig --quiet --trace $trace >target/recorder.log || fail "the demo did not see what it has to see"
sizes=$(sed -n 's/^trace: \([0-9]*\) bytes as recorded, \([0-9]*\) shrunk$/\1 \2/p' target/recorder.log)
[ "${sizes#* }" = "$(wc -c <$trace)" ] || fail "the demo says of its trace '$sizes'"
[ "${sizes% *}" -gt "${sizes#* }" ] || fail "the demo's trace did not get shorter: '$sizes'"
bash scripts/program.sh shrink
target/bin/shrink $trace | cmp - $trace || fail "the demo's trace is not its own shrunk form"

target/rig --sent --trace $trace >target/recorder.sent || fail "the demo did not see what it has to see"
{ printf '0\t0\n' && grep '^record ' target/recorder.sent; } >target/recorder.wanted
target/recorder replay $trace | diff target/recorder.wanted - || fail "the demo (<) and its replay (>) differ"
if [ -e /dev/full ] && target/rig --quiet --trace /dev/full >target/recorder.log 2>&1; then
    fail "the demo does not see that its trace could not be written"
fi

awk '/^chime\t1$/ { shown = 1 } /^[^A-Z]/ && !/^chime/ { shown = 0 } shown' README.md >target/recorder.readme
[ "$(replayed target/recorder.readme)" = $'0\t0' ] || fail "README.md's trace: $(replayed target/recorder.readme)"

# The last line of each kind: an answer, or the value that a read gave, is not what was recorded.
for change in W:4 R:4 R:3 A:3; do
    kind=${change%:*} field=${change#*:}
    line=$(awk -v kind="$kind" '$1 == kind { last = NR } END { print last }' $trace)
    awk -F '\t' -v OFS='\t' -v line="$line" -v field="$field" 'NR == line { $field = ($field + 1) % 256 } { print }' \
        $trace >$changed
    [ "$(replayed $changed)" = $'10\t'"$line" ] || fail "$kind changed at line $line is answered $(replayed $changed)"
done
echo "recorder: the demo's trace of $(wc -l <$trace) lines, ${sizes#* } bytes (${sizes% *} as recorded), replays to" \
    "the chime's record; changed answers are refused"
