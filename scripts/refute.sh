#!/usr/bin/env bash
# Shows that wrong programs are refuted, and not only refused: in a copy of its crate with a must-fail edit applied, a
# statement's negation is proved of a closed list. Runs every refutations/NAME.refutation, or those named.
#
# A refutation has, after some words of its own: 'crate:' and 'edit:' (crates/CRATE/must-fail/EDIT.edit), where it is
# of several wrong programs a line for each, which has a copy of its own; 'laws:', the files of laws that the copy
# keeps, all others being left out, since the wrong program breaks them; 'without:', what else is left out; and after
# 'proof:' a file of laws, proofs/Refutation.antt. The copy is then proved whole by rt: the edited functions meet their
# contracts, and the negation holds.
set -u -o pipefail
cd "$(dirname "$0")/.."
top=$PWD
logs=$top/target/refute
# Outside the checkout, in which rt ci takes no second copy of a source.
work=$(mktemp -d)
trap 'rm -rf "$work"' EXIT

field() { sed -n "s/^$1: //p" "$2" | tr '\n' ' '; } # NAME FILE: the text before 'proof:' has each field's lines

# Applies an edit as rt does: each 'old:' text stands once in the file that the last 'file:' named.
apply() { # EDIT, in the crate's copy
    local line f='' old=''
    while IFS= read -r line; do
        case $line in
        'file: '*) f=${line#file: } ;;
        'old: '*) old=${line#old: } ;;
        'new:'*)
            line=${line#new:}
            OLD=$old NEW=${line# } awk '
                { text = text $0 "\n" }
                END {
                    old = ENVIRON["OLD"]
                    at = index(text, old)
                    rest = substr(text, at + length(old))
                    if (!at || index(rest, old)) exit 1
                    printf "%s%s%s", substr(text, 1, at - 1), ENVIRON["NEW"], rest
                }' "$f" >edited && mv edited "$f" || { echo "refute: $1: '$old' does not stand once in $f"; return 1; }
            ;;
        esac
    done <"$1"
}

# Leaves out files or folders of the copy, and what declares them.
leave_out() { # PATH..
    local p name
    for p in "$@"; do
        [ -e "$p" ] || { echo "refute: there is no $p to leave out"; return 1; }
        name=$(basename "$p")
        name=${name%.*}
        case $p in
        proofs/*.antt | specs/*.antt) sed -i "/^pub mod $name\$/d" "${p%%/*}/Lib.antt" ;;
        src/*) sed -i "/^mod $name;\$/d; /^pub use $name::/d" src/lib.rt ;;
        esac
        rm -rf "$p"
    done
}

# The files of laws that a refutation does not keep.
others() { # FILE
    local p kept
    kept=" Lib $(field laws "$1")"
    for p in proofs/*.antt; do
        case $kept in *" $(basename "$p" .antt) "*) ;; *) echo "$p" ;; esac
    done
}

# Puts a crate back as it is in the repository.
restore() { # CRATE
    local d
    for d in src specs proofs; do
        rm -rf "$work/crates/$1/$d"
        [ ! -e "$top/crates/$1/$d" ] || cp -R "$top/crates/$1/$d" "$work/crates/$1/$d"
    done
}

refute() { # NAME EDIT, in a shell of its own
    local file=$top/refutations/$1.refutation crate log=$logs/$1-$2.log began=$SECONDS
    crate=$(field crate "$file") crate=${crate% }
    trap "restore '$crate'" EXIT
    restore "$crate"
    cd "$work/crates/$crate" || return 1
    # shellcheck disable=SC2046 # the paths may have wildcards
    apply "$top/crates/$crate/must-fail/$2.edit" && leave_out $(field without "$file") $(others "$file") || return 1
    sed '1,/^proof:$/d' "$file" >proofs/Refutation.antt
    echo 'pub mod Refutation' >>proofs/Lib.antt
    if rt check >"$log" 2>&1 && grep -q '^logic=proved ' "$log"; then
        echo "refuted: $crate/$2 ($((SECONDS - began)) s)"
    else
        echo "refute: $crate/$2 is NOT refuted; see target/refute/${log##*/}:"
        grep -m 5 -E 'error|NOT PROVED' "$log"
        return 1
    fi
}

mkdir -p "$logs" "$work/crates"
cp crates.txt "$work/"
for folder in crates/*/; do
    mkdir "$work/$folder"
    (cd "$folder" && for f in *; do case $f in out | must-fail) ;; *) cp -R "$f" "$work/$folder" ;; esac; done)
done

[ $# -gt 0 ] || set -- $(cd refutations && ls ./*.refutation | sed 's|^\./||; s|\.refutation$||')
held=0 failed=0
for name in "$@"; do
    for edit in $(field edit "refutations/$name.refutation"); do
        if (refute "$name" "$edit"); then held=$((held + 1)); else failed=$((failed + 1)); fi
    done
done
echo "refutations: $held hold, $failed do not"
[ "$failed" -eq 0 ] && [ "$held" -gt 0 ]
