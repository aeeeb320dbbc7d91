#!/usr/bin/env bash
# docs/CLAIMS.md and docs/RECORD.md say where each claim is stated and proved. A file that is gone or a name that has
# moved would leave them saying what is not so; here each is looked for. How a reference is written stands at the head
# of docs/CLAIMS.md.
set -eu
cd "$(dirname "$0")/../.."
scratch=$(mktemp -d)
trap 'rm -rf "$scratch"' EXIT

# What a text refers to, a line for each: its line number, then 'path' and the path; 'name', its path and the name; or
# 'bad' and why. In a table a name's path stands before it in the same line of a cell, of which it is the only one. In
# prose, where lines are broken anywhere, it is the last one before it in the paragraph.
references() {
    awk '
        function bad(why) { printf "%d\tbad\t%s\n", FNR, why }
        function piece(text, cell,    count, part, i, thing) {
            count = split(text, part, "`")
            if (count > 1 && count % 2 == 0) bad("a backtick that closes nothing: " text)
            for (i = 2; i < count; i += 2) {
                thing = part[i]
                if (thing == "" || thing ~ /[ \t]/) bad("neither a path nor a name: " thing)
                else if (thing ~ /[\/.]/) {
                    if (cell && path != "") bad("a second path in one line of a cell: " thing)
                    path = thing
                    printf "%d\tpath\t%s\n", FNR, path
                } else if (path == "") bad("a name without a path before it: " thing)
                else printf "%d\tname\t%s\t%s\n", FNR, path, thing
            }
        }
        /^[ \t]*\|/ {
            cells = split($0, cell, "|")
            for (c = 1; c <= cells; c++) {
                lines = split(cell[c], line, "<br>")
                for (l = 1; l <= lines; l++) { path = ""; piece(line[l], 1) }
            }
            path = ""
            next
        }
        /^[ \t]*$/ || /^#/ || /^[ \t]*[-*] / || /^[0-9]+\. / { path = "" }
        { piece($0, 0) }' "$1"
}

# What files of Rattle declare, a line for each: 'name', file and name. A mention in a comment, in a use or in a body is
# no declaration. The code is as rt fmt leaves it: what a struct, an enum or an impl holds is indented, and its closing
# brace is not.
declarations() {
    [ $# -gt 0 ] || return 0
    awk '
        function declare(name) { print "name\t" FILENAME "\t" name }
        function inside(name) { declare(name); if (type != "") declare(type "::" name) }
        FNR == 1 { type = ""; block = ""; code = FILENAME ~ /\.rt$/ }
        !code {
            i = 1
            while ($i == "pub" || $i == "abbrev" || $i == "unfoldable") i++
            if ($i == "record" || $i == "data") declare($(i + 1))
            else if ($(i + 1) == ":") declare($i)
            next
        }
        { sub(/\/\/.*/, "") }
        /^}/ { type = ""; block = "" }
        /^(pub(\(crate\))? )?(struct|enum|impl)[ <]/ {
            i = 1
            while ($i ~ /^pub/) i++
            block = $i
            type = $(i + 2) == "for" ? $(i + 3) : $(i + 1)
            sub(/[<({;].*/, "", type)
            if (block != "impl") declare(type)
            if ($0 !~ /\{[ \t]*$/) { type = ""; block = "" }
            next
        }
        match($0, /(^|[ \t])(fn|const) [A-Za-z_][A-Za-z_0-9]*/) {
            name = substr($0, RSTART, RLENGTH)
            sub(/.* /, "", name)
            inside(name)
            next
        }
        block == "struct" && /^    (pub )?[a-z_][A-Za-z_0-9]*:/ {
            name = $1 == "pub" ? $2 : $1
            sub(/:.*/, "", name)
            inside(name)
        }
        block == "enum" && /^    [A-Z]/ { name = $1; sub(/[^A-Za-z_0-9].*/, "", name); inside(name) }' "$@"
}

# Prints a line for each reference of a text that is not where it says, and fails if there is one. What was read stays
# in $scratch/read.
check() {
    local text=$1 path name rattle=()
    references "$text" >"$scratch/read"
    : >"$scratch/there"
    while read -r path; do
        case $path in
        */) [ -d "$path" ] || continue ;;
        *) [ -f "$path" ] || continue ;;
        esac
        printf 'path\t%s\n' "$path" >>"$scratch/there"
        case $path in *.antt | *.rt) rattle+=("$path") ;; esac
    done < <(awk -F '\t' '$2 == "path" && !seen[$3]++ { print $3 }' "$scratch/read")
    declarations ${rattle[@]+"${rattle[@]}"} >>"$scratch/there"
    # In C, Rust and shell a name that occurs as a word will do.
    while IFS=$'\t' read -r path name; do
        ! grep -qswF -e "$name" "$path" || printf 'name\t%s\t%s\n' "$path" "$name" >>"$scratch/there"
    done < <(awk -F '\t' '$2 == "name" && $3 !~ /\.(antt|rt)$|\/$/ { print $3 "\t" $4 }' "$scratch/read")
    awk -F '\t' -v text="$text" '
        function stale(why) { print text ":" $1 ": " why; failed = 1 }
        FILENAME == ARGV[1] { there[$0] = 1; next }
        $2 == "bad" { stale($3) }
        $2 == "path" && !(("path\t" $3) in there) { stale("no such " ($3 ~ /\/$/ ? "folder" : "file") ": " $3) }
        $2 == "name" && !(("name\t" $3 "\t" $4) in there) { stale($4 " is not declared in " $3) }
        END { exit failed }' "$scratch/there" "$scratch/read"
}

count() { awk -F '\t' -v kind="$1" '$2 == kind { n++ } END { print n + 0 }' "$scratch/read"; }

# The test has to see what is wrong: texts that must not pass, over two files made up for it, and one that must.
made_up() {
    local spec=$scratch/Made.antt code=$scratch/made.rt wrong
    cat >"$spec" <<'END'
-- mentioned : what it says
use lib.Dec.{used}
abbrev pub stated : ℕ → ℕ
stated x = applied (x : ℕ)
pub record Held (n : ℕ) : Type 0 where
  pub low : 1 ≤ n
END
    cat >"$code" <<'END'
// fn mentioned() stands here, and nowhere else
pub struct Place(pub u8);
pub struct Room {
    pub width: u8,
}
pub enum Door {
    Open(Room),
}
impl Room {
    pub const WIDE: u8 = 3;

    pub fn wide(self) -> bool {
        self.width == other::called(Room::WIDE)
    }
}
fn free() {}
END
    while read -r wrong; do
        printf '%s\n' "$wrong" >"$scratch/text.md"
        if check "$scratch/text.md" >/dev/null; then
            echo "claims: the test does not see what is wrong here: $wrong"
            return 1
        fi
    done <<END
| \`docs/NOWHERE.md\` |
| \`docs/nowhere/\` |
| \`docs\` |
| \`docs/\` \`CLAIMS\` |
| \`include/warpmagpie.h\` \`warpmagpie_rese\` |
| \`$spec\` \`absent\` |
| \`$spec\` \`mentioned\` |
| \`$spec\` \`used\` |
| \`$spec\` \`applied\` |
| \`$code\` \`mentioned\` |
| \`$code\` \`called\` |
| \`$code\` \`Door::wide\` |
| \`$code\` \`Room::free\` |
| \`$spec\` \`stated\`, \`absent\` |
| \`$spec\` \`stated\` and \`$code\` \`free\` |
| \`$spec\`<br>\`stated\` |
| \`$spec\` | \`stated\` |
| \`stated\` in \`$spec\` |
| \`$spec\` \`stated\`\` |
| \`$spec\` \`stated |
| \`$spec\` \`stated x\` |
- prose with \`$spec\` \`absent\` in it
END
    cat >"$scratch/text.md" <<END
| law of \`$spec\` \`stated\`, \`Held\`, \`low\`<br>\`docs/\` | \`include/warpmagpie.h\` \`warpmagpie_reset\` |
| \`$code\` \`Place\`, \`Room\`, \`width\`, \`Open\`, \`Door::Open\`, \`Room::WIDE\`, \`Room::wide\`, \`free\` |

Prose names \`$spec\` and its
\`stated\`, then \`$code\` \`free\`.
END
    check "$scratch/text.md"
    if [ "$(count path) $(count name)" != "6 14" ]; then
        echo "claims: the test misreads a text that is right"
        return 1
    fi
}

made_up
failed=0

# Each text has so many references, or more: a reader that finds fewer is broken.
check_text() {
    check "$1" || failed=1
    files=$(count path) names=$(count name)
    if [ $((files + names)) -lt "$2" ]; then
        echo "claims: only $files files and $names names were read in $1"
        failed=1
    fi
}

check_text docs/RECORD.md 30
said="$files files and $names names of docs/RECORD.md"
check_text docs/CLAIMS.md 200
said="$files files and $names names of docs/CLAIMS.md, $said"

# What refuses or refutes a wrong program is claimed somewhere: each must-fail edit, refutation and host test.
awk -F '\t' '$2 == "path" { print $3 }' "$scratch/read" >"$scratch/named"
for file in crates/*/must-fail/*.edit refutations/*.refutation tests/host/*.sh; do
    if ! grep -qxF -e "$file" "$scratch/named"; then
        echo "docs/CLAIMS.md: $file is not named in it"
        failed=1
    fi
done
# Most refutations are proved outside the gate; that each has its edits is seen here.
for file in refutations/*.refutation; do
    for edit in $(sed -n 's/^edit: //p' "$file"); do
        edit=crates/$(sed -n 's/^crate: //p' "$file")/must-fail/$edit.edit
        if [ ! -f "$edit" ]; then
            echo "$file: there is no $edit"
            failed=1
        fi
    done
done
[ $failed = 0 ] || exit 1
echo "claims: $said are where they say; every must-fail edit, refutation and host test is named"
