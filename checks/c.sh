#!/usr/bin/env bash
# The C side: the header by itself, the functions of the CRC, the examples, and header and examples again as install.sh installs them.
#
#     bash checks/c.sh
#
# The library is target/staticlib/libcapi.a, or the one in the folder that TUORMIK_LIB names.
set -eu
cd "$(dirname "$0")/.."
library=${TUORMIK_LIB:-target/staticlib}/libcapi.a
warnings="-Wall -Wextra -pedantic -Werror"
room=$(mktemp -d)
trap 'rm -rf "$room"' EXIT

# the header in both languages, as it stands and used
cc -std=c99 $warnings -Iinclude checks/header.c -o "$room/header"
"$room/header"
c++ $warnings -Iinclude -x c++ checks/header.c -o "$room/header"
"$room/header"
c++ $warnings -Iinclude -x c++ -fsyntax-only examples/c/*.c

# the functions of the CRC, in both languages
cc -std=c99 $warnings -Iinclude checks/crc.c "$library" -o "$room/crc"
"$room/crc"
c++ $warnings -Iinclude -x c++ checks/crc.c -x none "$library" -o "$room/crc"
"$room/crc"

# the examples: each ends with status 0 if every answer was the expected one
for example in disc rewritable bitmap; do
  cc -std=c99 $warnings -Iinclude "examples/c/$example.c" "$library" -o "$room/$example"
  "$room/$example"
done

# the example that README shows, on the image of a small disc: block 0 is read as it was saved, and there is no block 1
cc -std=c99 $warnings -Iinclude checks/image.c "$library" -o "$room/image"
"$room/image" "$room/small.img"
cc -std=c99 $warnings -Iinclude examples/c/read.c "$library" -o "$room/read"
"$room/read" "$room/small.img" 16 48 0 >"$room/block" 2>"$room/record"
{ echo "12 May: snow to the lower hut"; head -c 2018 /dev/zero; } | cmp - "$room/block"
echo "N 1, NWA 3, last ICB 2, passed over 0" | cmp - "$room/record"
if "$room/read" "$room/small.img" 16 48 1 >"$room/none" 2>"$room/why" || [ -s "$room/none" ] || [ "$(wc -l <"$room/why")" -ne 2 ]; then
  echo "examples/c/read.c: reading a block that is not there should end with a status, no bytes and a line more"
  exit 1
fi

# installed, in a folder whose name has a space, and built by what the pkg-config file says
prefix="$room/a prefix"
PREFIX=$prefix sh install.sh
pc="$prefix/lib/pkgconfig/tuormik.pc"
version=$(sed -n 's/^#define TUORMIK_VERSION "\(.*\)"$/\1/p' include/tuormik.h)
if command -v pkg-config >/dev/null; then
  flags=$(PKG_CONFIG_PATH="$prefix/lib/pkgconfig" pkg-config --cflags --libs tuormik)
  told=$(PKG_CONFIG_PATH="$prefix/lib/pkgconfig" pkg-config --modversion tuormik)
else
  # what pkg-config would do of it: the variables put in, the flags of both lines
  flags=$(sed -n 's/^Cflags: //p; s/^Libs: //p' "$pc" | tr '\n' ' ')
  for name in includedir libdir; do
    value=$(sed -n "s/^$name=//p" "$pc")
    flags=${flags//"\${$name}"/"$value"}
  done
  told=$(sed -n 's/^Version: //p' "$pc")
fi
[ "$told" = "$version" ] || { echo "tuormik.pc tells version $told, and the header $version"; exit 1; }
for example in disc rewritable bitmap; do
  eval "cc -std=c99 $warnings examples/c/$example.c $flags -o \"\$room/installed-$example\""
  "$room/$example" >"$room/expected"
  "$room/installed-$example" | cmp - "$room/expected"
done
eval "cc -std=c99 $warnings examples/c/read.c $flags -o \"\$room/installed-read\""
"$room/installed-read" "$room/small.img" 16 48 0 2>/dev/null | cmp - "$room/block"

# staged for a package: the same files, and the pkg-config file tells where they will be
DESTDIR="$room/stage" PREFIX=/usr LIBDIR=/usr/lib64 sh install.sh
cmp "$room/stage/usr/include/tuormik.h" include/tuormik.h
cmp "$room/stage/usr/lib64/libtuormik.a" "$library"
grep -qx 'libdir=/usr/lib64' "$room/stage/usr/lib64/pkgconfig/tuormik.pc"
echo "The header, the CRC, the examples and the installed library are as they should be."
