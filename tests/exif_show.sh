#!/bin/sh
# Runs exif_show as people do, checks its first calls, and reads the man pages.
. "$(dirname "$0")/checks.sh"
exif_show=${EXIF_SHOW:-$root/crates/exif_show/out/exif_show}

gives "the sample is shown" 0 "$exif_show" "$root/docs/sample.jpg"
holds "its location is shown" "GPSLatitude primary 33 deg 51 min 35.9 sec S"
gives "no file is a usage line" 2 "$exif_show"
says "the usage line is printed" "usage: exif_show [-c] FILE"
gives "a missing file is an error" 1 "$exif_show" files/absent.jpg
gives "faults are refused" 1 "$exif_show" files/faulty.jpg
gives "faults are skipped" 3 "$exif_show" -c files/faulty.jpg
gives "a name that is no UTF-8 is refused" 1 sh -c '"$1" "$(printf "files/\377.jpg")"' sh "$exif_show"
says "the refusal is a sentence" "The name is not UTF-8"

# A chain of nine directories, of which eight are read.
printf 'MM\0*\0\0\0\010' >chain.tif
for next in 032 054 076 120 142 164 206 230 000; do
    printf "\\0\\001\\001\\016\\0\\002\\0\\0\\0\\002p\\0\\0\\0\\0\\0\\0\\$next" >>chain.tif
done
gives "nine directories are refused" 1 "$exif_show" chain.tif
says "the limit is named" "exif_show: Limit the IFD count to 8"
gives "eight of nine directories are shown" 3 "$exif_show" -c chain.tif
holds "the eighth is shown" 'ImageDescription IFD7 "p"'
holds "the fault is shown" "fault: Limit the IFD count to 8"

# Directories in front of gigabytes, with little memory: a prefix suffices, and 2^32 bytes are too many.
printf 'MM\0*\0\0\0\010\0\001\001\016\0\002\0\0\0\007\0\0\0\032\0\0\0\0Sample\0' >large.tif
truncate -s 3G large.tif
gives "3 GB are shown by their prefix" 0 sh -c 'ulimit -v 65536 && exec "$1" large.tif' sh "$exif_show"
holds "the first field is shown" 'ImageDescription primary "Sample"'
truncate -s 4294967295 large.tif
gives "as many as 32-bit offsets reach are shown" 0 sh -c 'ulimit -v 65536 && exec "$1" large.tif' sh "$exif_show"
truncate -s 4294967296 large.tif
gives "one more is refused" 1 sh -c 'ulimit -v 65536 && exec "$1" large.tif' sh "$exif_show"
says "the refusal is named" "TIFF data too large"
rm large.tif

# A HEIF file with a box that ends behind the highest offset of a file.
printf '\0\0\0\030ftypheic\0\0\0\0mif1heic\0\0\0\001mdat\200\0\0\0\0\0\0\017x' >far.heic
gives "a box that no file can hold ends a HEIF file" 1 "$exif_show" far.heic
says "which has no Exif data" "exif_show: No Exif data found in HEIF"

# The first calls: tools/ in a repository of four crates, with an rt that only prints.
mkdir -p young/bin young/docs young/crates/exif_show young/crates/middle young/crates/base/out/rlib young/crates/other/src
cp -r "$root/tools" "$root/exif_show" "$root/mexaldor" young
cp -r "$root/docs/help" young/docs
cat >young/crates.txt <<'T'
# a library, one on it, and the program
base:
middle: base kit
exif_show: middle base
other: base
T
cat >young/bin/rt <<'T'
#!/bin/sh
if [ "$1" = try ]; then
    shift 2
    printf 'unproved'
    printf ' <%s>' "$@"
    echo
    echo "a line of the program" >&2
    echo "checked: ended status=3" >&2
    echo "run=ended status=3 runners=1 proved=no" >&2
    exit 3
fi
[ "$1" = doc ] && echo "$0.kit/doc"
[ "$1" = lib ] && mkdir -p out/rlib
[ "$1" = run ] && mkdir -p out && printf '#!/bin/sh\necho shown "$@"\n' >out/exif_show && chmod +x out/exif_show
exit 0
T
chmod +x young/bin/rt
gives "help needs no build" 0 young/exif_show --help
holds "it is the program's" "usage: exif_show [-c] FILE"
"$exif_show" --help >help
check "word for word" cmp help "$root/docs/help/exif_show"
gives "so does -h" 0 young/exif_show -h
check "with the same text" cmp out help
gives "a missing file needs no build" 1 young/exif_show absent.jpg
says "it is named" "exif_show: absent.jpg: No such file or directory"
for words in "" "-c" "one two" "-c one two"; do
    gives "wrong arguments need no build: $words" 2 young/exif_show $words
    says "the usage line is printed" "usage: exif_show [-c] FILE"
done
gives "without the toolchain nothing runs" 1 env PATH=/usr/bin:/bin young/exif_show files/whole.jpg
says "and it is named" "the command rt of the Rattle toolchain is not in PATH; README.md says where it comes from"
odd='an odd = $na"me
.jpg'
cp files/whole.jpg "$odd"
gives "the first call runs unproved, with the program's status" 3 env PATH="$scratch/young/bin:$PATH" young/exif_show -c "$odd"
says "it says so" "without proof"
says "it names what proves and builds" "./install.sh"
says "it shows what the program writes on standard error" "a line of the program"
check "it shows nothing of rt" sh -c '! grep -q "checked:\|run=" err'
check "it hands the path on, as an absolute one" sh -c 'printf "unproved <-c> <%s/%s>\n" "$1" "$2" | cmp - out' sh "$scratch" "$odd"
printf '#!/bin/sh\necho "checked: no-answer: the program wrote more than 1048576 bytes" >&2\necho "run=no-answer proved=no" >&2\nexit 6\n' >young/bin/try
cp young/bin/rt young/bin/kept && cp young/bin/try young/bin/rt && chmod +x young/bin/rt
gives "a report that is too long for such a run fails" 1 env PATH="$scratch/young/bin:$PATH" young/exif_show files/whole.jpg
says "it says why" "the program wrote more than 1048576 bytes"
says "and what has no such limit" "./install.sh"
mv young/bin/kept young/bin/rt
gives "MEXALDOR_PROVED=1 builds" 0 env MEXALDOR_PROVED=1 PATH="$scratch/young/bin:$PATH" young/exif_show picture.jpg
says "it says how much there is to prove" "exif_show: 2 crates to prove and build"
says "and about how long that takes" "about 1 minute"
holds "then it runs the program" "shown picture.jpg"
gives "a later call only runs it" 0 young/exif_show picture.jpg
check "it says nothing else" test ! -s err
sleep 1
touch young/crates/other/src/lib.rt
gives "after an edit it runs unproved" 3 env PATH="$scratch/young/bin:$PATH" young/exif_show files/whole.jpg
printf '#!/bin/sh\necho "error: not proved"\n' >young/bin/rt
gives "what is not proved is not run" 1 env MEXALDOR_PROVED=1 PATH="$scratch/young/bin:$PATH" young/exif_show picture.jpg
says "the last lines of rt are shown" "error: not proved"

# The man pages, but for the pages that they name and that need not be installed.
for page in "$root"/docs/man/*.1; do
    if has mandoc; then
        mandoc -T lint "$page" 2>&1 | grep -v "referenced manual not found" >out
        check "mandoc finds nothing in ${page##*/}" test ! -s out
    fi
    if has man; then
        LC_ALL=C.UTF-8 MANWIDTH=80 man --warnings -E UTF-8 -l -Tutf8 -Z "$page" 2>err >/dev/null
        check "man finds nothing in ${page##*/}" test ! -s err
    fi
done
ends
