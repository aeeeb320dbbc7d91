#!/usr/bin/env bash
# Installs header, archive and pkg-config file: install.sh PREFIX [DESTDIR]. DESTDIR goes before every path that is
# written and into none, so that a package can be made in a folder of its own.
set -eu
cd "$(dirname "$0")/.."
prefix=${1%/} into=${2-}${1%/}
case $1 in
/*) ;;
*)
    echo "install: PREFIX has to be an absolute path, since it goes into warpmagpie.pc; it is '$1'" >&2
    exit 1
    ;;
esac

# The header alone says the version.
version=
for part in MAJOR MINOR PATCH; do
    number=$(sed -n "s/^#define WARPMAGPIE_VERSION_$part \([0-9][0-9]*\)\$/\1/p" include/warpmagpie.h)
    [ -n "$number" ] || { echo "install: include/warpmagpie.h has no WARPMAGPIE_VERSION_$part" >&2; exit 1; }
    version=$version${version:+.}$number
done

bash scripts/archive.sh
cat >target/warpmagpie.pc <<END
prefix=$prefix
includedir=\${prefix}/include
libdir=\${prefix}/lib

Name: warpmagpie
Description: Proved model of USART0 and SPI of an ATmega328P, for test rigs
Version: $version
Cflags: -I\${includedir}
Libs: -L\${libdir} -lwarpmagpie
END
install -d "$into/include" "$into/lib/pkgconfig"
install -m 644 include/warpmagpie.h "$into/include/"
install -m 644 target/staticlib/libwarpmagpie.a "$into/lib/"
install -m 644 target/warpmagpie.pc "$into/lib/pkgconfig/"
echo "install: warpmagpie $version is in $into"
