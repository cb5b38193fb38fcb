#!/bin/sh
# Installs the C header, the library as libtuormik.a, and a pkg-config file:
#
#     sh install.sh                          to /usr/local
#     PREFIX=/usr sh install.sh              elsewhere; LIBDIR and INCLUDEDIR name folders that are not lib and include there
#     DESTDIR=stage PREFIX=/usr sh install.sh   below another folder, for a package
#
# The library is target/staticlib/libcapi.a, which README's first command writes, or the one in the folder that TUORMIK_LIB names.
set -eu
case ${DESTDIR:-} in '' | /*) ;; *) DESTDIR=$(pwd)/$DESTDIR ;; esac
case ${TUORMIK_LIB:-} in '' | /*) ;; *) TUORMIK_LIB=$(pwd)/$TUORMIK_LIB ;; esac
cd "$(dirname "$0")"
prefix=${PREFIX:-/usr/local}
libdir=${LIBDIR:-$prefix/lib}
includedir=${INCLUDEDIR:-$prefix/include}
stage=${DESTDIR:-}
library=${TUORMIK_LIB:-target/staticlib}/libcapi.a
for folder in "$prefix" "$libdir" "$includedir"; do
    case $folder in
    /*) ;;
    *)
        echo "install.sh: $folder is not a whole path from / on" >&2
        exit 2
        ;;
    esac
done
if [ ! -f "$library" ]; then
    echo "install.sh: $library is not there: build it by README's first command, or name its folder in TUORMIK_LIB" >&2
    exit 1
fi
version=$(sed -n 's/^#define TUORMIK_VERSION "\(.*\)"$/\1/p' include/tuormik.h)

mkdir -p "$stage$includedir" "$stage$libdir/pkgconfig"
cp include/tuormik.h "$stage$includedir/tuormik.h"
cp "$library" "$stage$libdir/libtuormik.a"
cat >"$stage$libdir/pkgconfig/tuormik.pc" <<PC
prefix=$prefix
libdir=$libdir
includedir=$includedir

Name: tuormik
Description: The proved block layer of CD UDF discs
Version: $version
Cflags: -I"\${includedir}"
Libs: -L"\${libdir}" -ltuormik
PC
chmod 644 "$stage$includedir/tuormik.h" "$stage$libdir/libtuormik.a" "$stage$libdir/pkgconfig/tuormik.pc"
echo "installed $stage$includedir/tuormik.h, $stage$libdir/libtuormik.a and $stage$libdir/pkgconfig/tuormik.pc"
