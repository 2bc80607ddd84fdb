#!/bin/sh
# release.sh FOLDER: proves and builds the two programs, and makes a folder with static programs
# that run on any x86-64 Linux without the toolchain, their man pages, the licence and checksums.
set -e
root=$(cd "$(dirname "$0")" && pwd)
if [ $# != 1 ]; then
    echo "usage: release.sh FOLDER" >&2
    exit 2
fi
kit=$(dirname "$(rt doc)")
mkdir -p "$1/man"
for name in exif_show mexaldor; do
    "$root/tools/build" "$name"
    "${CC:-cc}" -static -s -o "$1/$name" "$root/crates/$name/out/$name.o" "$kit/c/libos_c.a" "$kit/c/liblibc_c.a"
    cp "$root/docs/man/$name.1" "$1/man/"
done
cp "$root/LICENSE" "$root/NOTICE" "$root/docs/exif.schema.json" "$root/docs/check.schema.json" "$1/"
(cd "$1" && find . -type f ! -name SHA256SUMS | LC_ALL=C sort | xargs sha256sum >SHA256SUMS)
echo "$1"
