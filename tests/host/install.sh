#!/usr/bin/env bash
# Installs into a folder, links a program through pkg-config and runs it; then as a packager installs, with DESTDIR.
set -eu
cd "$(dirname "$0")/../.."
fail() { echo "install: $*"; exit 1; }
pkg_config=$(command -v pkg-config || command -v pkgconf) ||
    fail "neither pkg-config nor pkgconf is here (apt-get install pkg-config on Debian)"
prefix=$PWD/target/installed stage=$PWD/target/stage later=$PWD/target/later
rm -rf "$prefix" "$stage" "$later" target/install
make_install() { # PREFIX DESTDIR
    make -s --no-print-directory install PREFIX="$1" DESTDIR="$2" >target/install.log 2>&1
}
make_install "$prefix" '' || { cat target/install.log; exit 1; }

# Nothing of the repository is in the way: no -Iinclude, and the prefix is the one that was asked for.
export PKG_CONFIG_PATH=$prefix/lib/pkgconfig
found=$("$pkg_config" --variable=prefix warpmagpie) || fail "$pkg_config does not find warpmagpie"
[ "$found" = "$prefix" ] || fail "the prefix in warpmagpie.pc is $found and not $prefix"
# shellcheck disable=SC2046 # the words are options
${CC:-cc} -std=c11 -Wall -Wextra -Werror -pedantic tests/host/install.c $("$pkg_config" --cflags --libs warpmagpie) \
    -o target/install
read -r version number < <(target/install) || fail "the program that was linked through pkg-config did not run well"
said=$("$pkg_config" --modversion warpmagpie)
[ "$said" = "$version" ] || fail "pkg-config says version $said, the header $version"
# As one number the version has two digits for each of the lower parts.
# shellcheck disable=SC2046,SC2086
[ "$number" = "$(printf '%d%02d%02d' ${version//./ })" ] || fail "WARPMAGPIE_VERSION is $number for $version"

make_install "$later" "$stage" || { cat target/install.log; exit 1; }
[ ! -e "$later" ] || fail "with DESTDIR something was put into PREFIX itself"
(cd "$prefix" && find . -type f | sort) >target/install.files
(cd "$stage$later" && find . -type f | sort) | diff target/install.files - || fail "DESTDIR has other files"
printf './%s\n' include/warpmagpie.h lib/libwarpmagpie.a lib/pkgconfig/warpmagpie.pc | diff - target/install.files ||
    fail "other files than header, archive and pkg-config file were installed"
staged=$(PKG_CONFIG_PATH=$stage$later/lib/pkgconfig "$pkg_config" --variable=prefix warpmagpie)
[ "$staged" = "$later" ] || fail "with DESTDIR the prefix in warpmagpie.pc is $staged and not $later"
! make_install target/relative '' || fail "a PREFIX that is not absolute was taken"
echo "install: a program links through pkg-config and runs, version $version; DESTDIR goes into no path"
