#!/bin/sh
# Builds a Debian package of the tool with its manual page and its completion for bash, and of the C header, the library and its pkg-config
# file, by dpkg-deb:
#
#     sh packaging/deb.sh            into the folder target
#     sh packaging/deb.sh FOLDER     into another
#
# It takes what README's first command built: the library target/staticlib/libcapi.a, or the one in the folder that TUORMIK_LIB names, and
# the tool rust/target/release/tuormik, or the one that TUORMIK_TOOL names. The path of the package is printed. The same files give the same
# package, byte by byte; their time is SOURCE_DATE_EPOCH, or that of the commit where it is not set.
set -eu
umask 022

# A path as it is named from any folder.
whole() {
    case $1 in /*) echo "$1" ;; *) echo "$(pwd)/$1" ;; esac
}

failed() {
    echo "packaging/deb.sh: $1" >&2
    exit 1
}

root=$(cd "$(dirname "$0")/.." && pwd)
folder=$(whole "${1:-$root/target}")
tool=$(whole "${TUORMIK_TOOL:-${CARGO_TARGET_DIR:-$root/rust/target}/release/tuormik}")
TUORMIK_LIB=$(whole "${TUORMIK_LIB:-$root/target/staticlib}")
export TUORMIK_LIB
cd "$root"

version=$(sed -n 's/^#define TUORMIK_VERSION "\(.*\)"$/\1/p' include/tuormik.h)
architecture=$(dpkg --print-architecture)
multiarch=$(dpkg-architecture -qDEB_HOST_MULTIARCH 2>/dev/null || true)
libdir=/usr/lib${multiarch:+/$multiarch}
SOURCE_DATE_EPOCH=${SOURCE_DATE_EPOCH:-$(git log -1 --format=%ct 2>/dev/null || date -r include/tuormik.h +%s)}
export SOURCE_DATE_EPOCH

[ -x "$tool" ] || failed "$tool is not there: README's first command builds it"
told=$("$tool" --version)
[ "$told" = "tuormik $version" ] || failed "$tool says '$told': the tool of version $version, with the proved library in it, is asked for"

# The newest version that the tool asks for of the symbols of a library.
newest() {
    objdump -p "$tool" | sed -n "s/^.* $1_\([0-9.]*\)\$/\1/p" | sort -V | tail -n 1
}

# The packages of the shared libraries that the tool needs.
depends() {
    for needed in $(objdump -p "$tool" | sed -n 's/^ *NEEDED *//p' | LC_ALL=C sort); do
        case $needed in
        libc.so.6) echo "libc6 (>= $(newest GLIBC))" ;;
        libgcc_s.so.1) echo "libgcc-s1 (>= $(newest GCC))" ;;
        ld-linux*) ;;
        *) failed "$tool needs $needed, and no package of it is known" ;;
        esac
    done
}

stage=$(mktemp -d)
trap 'rm -rf "$stage"' EXIT
chmod 755 "$stage"

# every file in its place
documents=$stage/usr/share/doc/tuormik
DESTDIR=$stage PREFIX=/usr LIBDIR=$libdir sh install.sh >/dev/null
install -D -m 755 "$tool" "$stage/usr/bin/tuormik"
strip "$stage/usr/bin/tuormik"
install -D -m 644 packaging/tuormik.bash "$stage/usr/share/bash-completion/completions/tuormik"
install -d "$stage/usr/share/man/man1" "$documents"
gzip -9n <rust/tuormik.1 >"$stage/usr/share/man/man1/tuormik.1.gz"
for document in README.md docs/*.md docs/changes/*.md examples/c/*.c; do
    install -D -m 644 "$document" "$documents/$document"
done

# what the package says of itself
size=$(find "$stage" -type f -printf '%s\n' -o -printf '1\n' | awk '{ size += int(($1 + 1023) / 1024) } END { print size }')
depends=$(depends)
sums=$(cd "$stage" && find usr -type f | LC_ALL=C sort | xargs -d '\n' md5sum)
install -d "$stage/DEBIAN"
echo "$sums" >"$stage/DEBIAN/md5sums"
cat >"$stage/DEBIAN/control" <<CONTROL
Package: tuormik
Version: $version
Architecture: $architecture
Maintainer: Tuormik maintainers <maintainers@users.noreply.tuormik.example>
Section: otherosfs
Priority: optional
Depends: $(echo "$depends" | paste -s -d , | sed 's/,/, /g')
Suggests: libc6-dev, pkg-config
Installed-Size: $size
Description: discs in the CD UDF format, through a proved block layer
 The tool tuormik works on images of CD-R and CD-RW discs in the CD UDF 1.82
 format, and of CD-RW discs with the sparing tables of UDF 1.50: it tells what
 is on them, reads, saves and commits blocks, and moves packets to spares.
 .
 The layer below it is proved to keep what was committed wherever the power
 fails. It is here as a static library too, with its C header.
CONTROL

find "$stage" -exec touch -h -d "@$SOURCE_DATE_EPOCH" {} +
mkdir -p "$folder"
package=$folder/tuormik_${version}_$architecture.deb
dpkg-deb --root-owner-group -Zxz --build "$stage" "$package" >/dev/null
echo "$package"
