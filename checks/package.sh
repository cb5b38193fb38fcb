#!/usr/bin/env bash
# The Debian package: packaging/deb.sh builds it, and what it holds is looked at and used from where it is unpacked.
#
#     bash checks/package.sh
#
# It takes the library and the tool that packaging/deb.sh takes. Where dpkg-deb is not installed it says so and does nothing.
set -eu
cd "$(dirname "$0")/.."
if ! command -v dpkg-deb >/dev/null; then
  echo "dpkg-deb is not installed: no package is built."
  exit 0
fi
room=$(mktemp -d)
trap 'rm -rf "$room"' EXIT

wrong() {
  echo "the package: $1"
  exit 1
}

package=$(sh packaging/deb.sh "$room")
version=$(sed -n 's/^#define TUORMIK_VERSION "\(.*\)"$/\1/p' include/tuormik.h)
architecture=$(dpkg --print-architecture)
[ "$package" = "$room/tuormik_${version}_$architecture.deb" ] || wrong "its path is told as $package"
says() { dpkg-deb --field "$package" "$1"; }
[ "$(says Package) $(says Version) $(says Architecture)" = "tuormik $version $architecture" ] || wrong "its name, version or architecture"
[[ $(says Depends) =~ ^libc6\ \(\>=\ [0-9.]+\) ]] || wrong "it depends on $(says Depends)"

# with a time that is given: every file has it, and the package is the same whatever the umask and the zone
export SOURCE_DATE_EPOCH=4000000000
first=$(sh packaging/deb.sh "$room/first")
times=$(TZ=UTC dpkg-deb --contents "$first" | awk '{ print $4, $5 }' | sort -u)
[ "$times" = "2096-10-02 07:06" ] || wrong "its files have the times $times"
second=$(umask 077 && TZ=Pacific/Auckland sh packaging/deb.sh "$room/second")
cmp "$first" "$second"
unset SOURCE_DATE_EPOCH

# every path, with its mode and its owner; the documents are those of the repository
libdir=$(dpkg-deb --contents "$package" | sed -n 's|.* \.\(/usr/lib/.*\)/libtuormik\.a$|\1|p')
documents=usr/share/doc/tuormik
{
  echo "-rwxr-xr-x root/root ./usr/bin/tuormik"
  for path in usr/include/tuormik.h "${libdir#/}/libtuormik.a" "${libdir#/}/pkgconfig/tuormik.pc" usr/share/man/man1/tuormik.1.gz \
    usr/share/bash-completion/completions/tuormik; do
    echo "-rw-r--r-- root/root ./$path"
  done
  find README.md docs examples -type f -printf "-rw-r--r-- root/root ./$documents/%p\n"
} | LC_ALL=C sort >"$room/expected"
dpkg-deb --contents "$package" | awk '{ print $1, $2, $6 }' >"$room/entries"
grep -v '^d' "$room/entries" | LC_ALL=C sort | diff "$room/expected" - || wrong "it holds other files than it should (>)"
if grep '^d' "$room/entries" | grep -v '^drwxr-xr-x root/root '; then wrong "a folder of another mode or owner"; fi

# each file is what it should be
tree="$room/a tree"
dpkg-deb --extract "$package" "$tree"
dpkg-deb --control "$package" "$room/control"
(cd "$tree" && md5sum --check --quiet "$room/control/md5sums")
[ "$(find "$tree" -type f | wc -l)" -eq "$(wc -l <"$room/control/md5sums")" ] || wrong "md5sums has not every file"
cmp include/tuormik.h "$tree/usr/include/tuormik.h"
cmp "${TUORMIK_LIB:-target/staticlib}/libcapi.a" "$tree$libdir/libtuormik.a"
grep -qx "libdir=$libdir" "$tree$libdir/pkgconfig/tuormik.pc"
for document in $(cd "$tree/$documents" && find . -type f); do
  cmp "$document" "$tree/$documents/$document"
done

# the tool runs, and a program that is built with the header and the library reads what it saved
tool="$tree/usr/bin/tuormik"
[ "$("$tool" --version)" = "tuormik $version" ] || wrong "its tool says $("$tool" --version)"
image="$room/field.img"
head -c 2048 include/tuormik.h >"$room/block"
"$tool" make "$image" --sectors 400 --write-once >/dev/null
"$tool" save "$image" new "$room/block" >/dev/null
cc -std=c99 "-I$tree/usr/include" "$tree/$documents/examples/c/read.c" "-L$tree$libdir" -ltuormik -o "$room/read"
"$room/read" "$image" 288 112 0 2>/dev/null | cmp - "$room/block"

# the manual page can be read, and the completion works
page="$tree/usr/share/man/man1/tuormik.1.gz"
gzip -dc "$page" | cmp - rust/tuormik.1
if command -v groff >/dev/null; then
  gzip -dc "$page" | groff -man -ww -Tutf8 -P-cbou >"$room/page" 2>"$room/warnings"
  [ ! -s "$room/warnings" ] || wrong "groff warns of its manual page: $(head -n 1 "$room/warnings")"
  grep -qx COMMANDS "$room/page" || wrong "its manual page has no COMMANDS"
else
  echo "groff is not installed: the manual page is not set."
fi
bash checks/completion.sh "$tool" "$tree/usr/share/bash-completion/completions/tuormik"

# a tool with another layer in it, or of another version, is no part of a package
for words in "tuormik $version (the plain implementation in the place of the proved library)" "tuormik 9.$version"; do
  printf '#include <stdio.h>\nint main(void) { return puts("%s") < 0; }\n' "$words" | cc -x c - -o "$room/other"
  if TUORMIK_TOOL="$room/other" sh packaging/deb.sh "$room/none" >/dev/null 2>&1; then wrong "one is built with a tool that says '$words'"; fi
  [ ! -e "$room/none" ] || wrong "something is built with a tool that says '$words'"
done
echo "The package $(basename "$package") holds what it should, and it works."
