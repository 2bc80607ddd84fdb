#!/bin/sh
# install.sh [PREFIX]: proves and builds the two programs, and puts them and their man pages below
# PREFIX, /usr/local where none is named. It says first how long that takes here.
set -e
root=$(cd "$(dirname "$0")" && pwd)
prefix=${1:-/usr/local}
if ! command -v rt >/dev/null; then
    echo "install.sh: the command rt of the Rattle toolchain is not in PATH; README.md says where it comes from" >&2
    exit 1
fi
for name in exif_show mexaldor; do
    "$root/tools/build" "$name"
    install -D -m 755 "$root/crates/$name/out/static/$name" "$prefix/bin/$name"
    install -D -m 644 "$root/docs/man/$name.1" "$prefix/share/man/man1/$name.1"
    echo "$prefix/bin/$name"
done
