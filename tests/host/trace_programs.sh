#!/usr/bin/env bash
# The programs replay and shrink, on files: what they print for good, malformed and differing traces, for files that are
# not there, and at 65,536 bytes and one more.
set -eu
cd "$(dirname "$0")/../.."
bash scripts/program.sh replay
bash scripts/program.sh shrink
scratch=$(mktemp -d)
trap 'rm -rf "$scratch"' EXIT
count=0
said() { # PROGRAM ARGUMENT..: into $scratch/said
    target/bin/"$@" >"$scratch/said" || { echo "trace_programs: $*: ended with $?"; exit 1; }
    count=$((count + 1))
}
expect() { # PROGRAM WANTED, with spaces for tabs; ARGUMENT..
    local program=$1 wanted
    wanted=$(tr ' ' '\t' <<<"$2")
    shift 2
    said "$program" "$@"
    if [ "$(cat "$scratch/said")" != "$wanted" ] || [ "$(wc -l <"$scratch/said")" -ne "$(wc -l <<<"$wanted")" ]; then
        echo "trace_programs: $program $*: printed '$(cat "$scratch/said")', wanted '$wanted' and LF"
        exit 1
    fi
}
text() { # LINE.., with spaces for tabs
    printf '%s\n' "$@" | tr ' ' '\t' >"$scratch/text"
}
shrinks() { # LINE..: what the text becomes
    expect shrink "$(printf '%s\n' "$@")" "$scratch/text"
}

text 'chime 1' 'W 193 24 0' 'R 192 32 0' 'C 17 16' && expect replay ok "$scratch/text"
shrinks 'chime 1' 'W 193 24 0' 'R 192 32 0' 'C 17 16'
text 'chime 1' && expect replay ok "$scratch/text" && shrinks 'chime 1'
text 'chime 1' 'C 17 16' 'R 192 33 0' 'R 192 34 0' && expect replay '10 3' "$scratch/text"
text 'chime 1' 'W 195 0 0' && expect replay '10 2' "$scratch/text"
text 'chime 1' 'A 0 0' 'C 17 016' && expect replay '9 3' "$scratch/text" && expect shrink 9 "$scratch/text"
text 'chime 2' && expect replay '9 1' "$scratch/text" && expect shrink 9 "$scratch/text"
printf 'chime\t1\nC\t17\t16' >"$scratch/text" && expect replay '9 2' "$scratch/text" && expect shrink 9 "$scratch/text"

# Joined: equal levels, and nothing between. Past a full line the rest has one of its own, if there is any.
text 'chime 1' 'C 17 9' 'C 17 1' 'R 192 32 0' 'C 17 9' 'C 16 1' 'C 16 99' 'A 0 8' 'C 16 1' 'W 195 0 1' 'C 16 2'
shrinks 'chime 1' 'C 17 10' 'R 192 32 0' 'C 17 9' 'C 16 100' 'A 0 8' 'C 16 1' 'W 195 0 1' 'C 16 2'
text 'chime 1' 'C 31 4294967294' 'C 31 1' && shrinks 'chime 1' 'C 31 4294967295'
text 'chime 1' 'C 31 1' 'C 31 4294967295' && shrinks 'chime 1' 'C 31 4294967295' 'C 31 1'
text 'chime 1' 'C 0 4294967295' 'C 0 5' 'C 0 4294967290' && shrinks 'chime 1' 'C 0 4294967295' 'C 0 4294967295'

# What they can't read counts as empty: no argument, no such file, a folder, an empty name, one that is too long.
: >"$scratch/empty"
long=$(printf '%5000s' '' | tr ' ' a)
for file in "$scratch/empty" "$scratch/none" "$scratch" '' "$long"; do
    expect replay '9 1' "$file"
    expect shrink 9 "$file"
done
expect replay '9 1'
expect shrink 9

# 65,536 bytes: the first line, 7,280 lines of nine bytes, and one of eight. One more is too long, whatever it holds.
{
    printf 'chime\t1\n'
    for ((i = 0; i < 7280; i++)); do printf 'C\t17\t100\n'; done
    printf 'C\t17\t10\n'
} >"$scratch/most"
[ "$(wc -c <"$scratch/most")" -eq 65536 ] || { echo "trace_programs: the longest file is not 65,536 bytes"; exit 1; }
expect replay ok "$scratch/most"
expect shrink $'chime 1\nC 17 728010' "$scratch/most"
sed '$s/10$/1x/' "$scratch/most" >"$scratch/broken" && expect replay '9 7282' "$scratch/broken"
expect shrink 9 "$scratch/broken"
{ cat "$scratch/most" && printf '\n'; } >"$scratch/more" && expect replay long "$scratch/more"
expect shrink long "$scratch/more"
head -c 70000 /dev/zero >"$scratch/zeros" && expect replay long "$scratch/zeros" && expect shrink long "$scratch/zeros"
head -c 65536 /dev/zero >"$scratch/zeros" && expect replay '9 1' "$scratch/zeros" && expect shrink 9 "$scratch/zeros"

# 65,536 bytes that are their own shrunk form: levels take turns.
sed '2~2s/17/16/' "$scratch/most" >"$scratch/own"
said shrink "$scratch/own"
cmp "$scratch/own" "$scratch/said" || { echo "trace_programs: a shrunk trace is not its own shrunk form"; exit 1; }
echo "trace_programs: $count files and arguments, up to 65,537 bytes, are answered as they have to be"
