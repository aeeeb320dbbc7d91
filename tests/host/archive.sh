#!/usr/bin/env bash
# What the README says of the archive: it has no memory of its own that can be written (no data, no bss), needs nothing
# but memset, exports the calls of the header and nothing else, is small, and links into a shared library.
set -eu
cd "$(dirname "$0")/../.."
bash scripts/archive.sh
archive=target/staticlib/libwarpmagpie.a
bound=52000      # bytes of code and constants, of which there are 50558; the README says 51 kB
call_bound=21000 # .. of the member with the calls that every rig makes, which has 19144; the README says 19
fail() { echo "archive: $*"; exit 1; }
scratch=$(mktemp -d)
trap 'rm -rf "$scratch"' EXIT
export LC_ALL=C

calls=$(sed -n 's/^uint8_t \(warpmagpie_[a-z_]*\)(.*/\1/p' include/warpmagpie.h | sort)

# Writes down what is not so of an archive, and fails if there is anything. Constants may be there: 'r' in nm, READONLY
# in objdump. A section that holds bytes, is loaded and is not READONLY is data, bss, thread-local or to be relocated.
judge() { # ARCHIVE
    nm "$1" >"$scratch/symbols"
    objdump -h "$1" >"$scratch/sections"
    {
        awk 'NF > 1 && (NF > 2 ? $2 : $1) !~ /^[TtrU]$/ { print "symbol: " $0 }' "$scratch/symbols"
        awk '/^ *[0-9]+ / { name = $2; held = $(NF - 4) !~ /^0+$/; next }
            /ALLOC/ && !/READONLY/ && held { print "section that can be written: " name }' "$scratch/sections"
        nm -g --defined-only "$1" | awk 'NF > 2 { print $NF }' | sort >"$scratch/exports"
        diff <(echo "$calls") "$scratch/exports" | sed -n 's/^[<>]/exports: &/p'
        nm -u "$1" | awk '$1 == "U" && $2 != "memset" { print "needs " $2 }'
        size -t "$1" | awk -v bound=$bound 'END { if ($1 == 0 || $1 > bound) print $1 " bytes" }'
        size "$1" | awk -v bound=$call_bound '$6 == "warpmagpie.o" && $1 <= bound { fits = 1 }
            END { if (!fits) print "warpmagpie.o is missing or too large" }'
    } >"$scratch/faults"
    [ ! -s "$scratch/faults" ]
}

judge $archive || { cat "$scratch/faults"; exit 1; }
needs=$(nm -u $archive | awk '$1 == "U" { print $2 }')
[ "$needs" = memset ] || fail "the archive needs '$needs', and the README says memset"

# The archive with another member, which is this line of C.
with_member() { # LINE
    cp $archive "$scratch/made.a"
    echo "$1" | ${CC:-cc} -fPIC -fcommon -O0 -x c -c -o "$scratch/made.o" -
    ar r "$scratch/made.a" "$scratch/made.o"
}

# The test has to see what is wrong: members that must not pass, and one that must.
while read -r line; do
    with_member "$line"
    ! judge "$scratch/made.a" || fail "the test does not see what is wrong with: $line"
done <<'END'
static int __attribute__((used)) set = 1;
static int __attribute__((used)) zero;
int common;
static _Thread_local int __attribute__((used)) own;
static _Thread_local int __attribute__((used)) own = 1;
static int call(void) { return 1; } static int (*const __attribute__((used)) table[])(void) = {call};
static void __attribute__((constructor)) begin(void) {}
static int __attribute__((used)) call(void) { static int count; return ++count; }
void other(void); static void __attribute__((used)) call(void) { other(); }
int exported(void) { return 1; }
int __attribute__((weak)) weak(void) { return 1; }
static void a(void) {} static void *b(void) { return a; } static void __attribute__((ifunc("b"), used)) call(void);
const int constant = 1;
static const char __attribute__((used)) much[20000] = "a";
END
with_member 'static const int table[] = {1, 2}; static int __attribute__((used)) call(int i) { return table[i]; }'
judge "$scratch/made.a" || { cat "$scratch/faults"; fail "the test takes constants and private functions for faults"; }

# All of it as a shared library, with no relocation in the code and nothing undefined but what libc has; then M8, M10
# and the refusals through it.
shared=target/shared
mkdir -p $shared
${CC:-cc} -shared -o $shared/libwarpmagpie.so -Wl,--whole-archive $archive -Wl,--no-whole-archive -Wl,-z,text,-z,defs
${CC:-cc} -std=c11 -Wall -Wextra -Werror -O2 -Iinclude -o $shared/marked tests/host/marked.c -L$shared -lwarpmagpie \
    -Wl,-rpath,"$PWD/$shared"
nm -u $shared/marked | grep -q ' warpmagpie_run$' || fail "the program does not call the shared library"
$shared/marked >target/shared.log || { cat target/shared.log; fail "the shared library does not do what it has to"; }
echo "archive: $(size -t $archive | awk 'END { print $1 }') bytes, no data, no bss, needs $needs only, exports the" \
    "$(wc -l <<<"$calls") calls of the header; as a shared library it does M8, M10 and the refusals"
