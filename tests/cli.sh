#!/bin/sh
# Runs each subcommand of mexaldor as people do, over files that it makes itself.
. "$(dirname "$0")/checks.sh"

# arguments
gives "no arguments ask for help" 2 "$mexaldor"
gives "--help prints help" 0 "$mexaldor" --help
for subcommand in show json check scrub set shift rename geotag touch thumbnail tags; do
    holds "help names each subcommand" "  $subcommand "
done
gives "--version prints the version" 0 "$mexaldor" --version
gives "an unknown subcommand is refused" 2 "$mexaldor" nothing
gives "show needs a file" 2 "$mexaldor" show
says "an error shows the usage of its subcommand" "Usage: mexaldor show [OPTIONS] PATH..."
gives "an unknown option is refused" 2 "$mexaldor" show --nothing files/whole.jpg
gives "a limit is a number" 2 "$mexaldor" show --limit x files/whole.jpg
gives "scrub needs two files" 2 "$mexaldor" scrub files/whole.jpg
says "the message says what is expected" "expected FILE OUT, or --in-place FILE..."
gives "set needs a value" 2 "$mexaldor" set --in-place files/whole.jpg
gives "shift needs a time" 2 "$mexaldor" shift soon files/whole.jpg
says "the message shows a shift" "invalid shift 'soon'; expected e.g. +1:00 or -2d03:30"
gives "two ways to scrub are refused" 2 "$mexaldor" scrub --places-only --keep-orientation files/whole.jpg x.jpg

gives "a backup is of a file that is replaced" 2 "$mexaldor" scrub --backup files/whole.jpg x.jpg
gives "many files don't go into one" 2 "$mexaldor" scrub -r files x.jpg
says "the message says what is missing" "--recursive, --null and conditions require --in-place"
check "nothing was written by these" test ! -e x.jpg

# show
for file in whole.jpg whole.tif big.tif whole.webp whole.heic; do
    gives "show reads $file" 0 "$mexaldor" show "files/$file"
    holds "show names $file" "files/$file:"
    holds "show prints the orientation of $file" "row 0 at right and column 0 at top"
done
# values of XMP and IPTC, behind the report
if has exiftool; then
    cp files/whole.jpg valued.jpg
    exiftool -q -overwrite_original -XMP-xmp:Rating=4 -XMP-dc:subject=beach -XMP-dc:subject=sun "-XMP-dc:title-en=The harbour" -IPTC:Keywords=beach valued.jpg
    gives "show reads them" 0 "$mexaldor" show valued.jpg
    holds "a number" "xmp:Rating (XMP): 4"
    holds "an item of an array" "dc:subject[2] (XMP): sun"
    holds "a text with its language" "(XMP, en): The harbour"
    holds "a dataset of IPTC" "Keywords (IPTC): beach"
    "$mexaldor" show - <valued.jpg >out
    holds "those of standard input, too" "xmp:Rating (XMP): 4"
    LC_ALL=C sed 's/<rdf:RDF/<rdf RDF/' valued.jpg >broken.jpg
    gives "a packet that can't be read is reported" 3 "$mexaldor" show broken.jpg
    says "with its cause" "broken.jpg: XMP is not well formed, at byte"
fi
gives "show continues after faults" 3 "$mexaldor" show files/faulty.jpg
gives "show refuses faults where it is strict" 1 "$mexaldor" show --strict files/faulty.jpg
gives "show reads standard input" 0 sh -c '"$1" show - <files/whole.jpg' sh "$mexaldor"
gives "a fault of one file does not end the others" 1 "$mexaldor" show files/absent.jpg files/whole.jpg
says "a missing file is named" "files/absent.jpg: No such file"
holds "the other file is shown" "files/whole.jpg:"
gives "a folder needs -r" 1 "$mexaldor" show files
gives "a limit is a fault" 3 "$mexaldor" show --limit 3 files/whole.jpg
gives "a closed pipe is no error" 0 sh -c '{ "$1" show files/whole.jpg files/whole.tif; echo "$?" >status; } | head -n 1 >/dev/null; exit "$(cat status)"' sh "$mexaldor"
check "a closed pipe says nothing" test ! -s err

# json
"$mexaldor" json -r files >out 2>err
passes "json reads a folder (status $?)" "$([ $? -le 3 ]; echo $?)"
check "json reads standard input" sh -c '"$1" json - <files/whole.heic' sh "$mexaldor"
"$mexaldor" json -r files >objects 2>err
check "each line is an object that the schema allows" env PYTHONPATH="$root/tests" python3 - "$root/docs/exif.schema.json" objects <<'P'
import sys

import objects

read = objects.read(sys.argv[1], sys.argv[2], 10)
names = {it["path"].split("/")[-1]: it for it in read}
assert "text.txt" not in names
summary = names["whole.jpg"]["summary"]
assert summary["orientation"] == 6, summary
assert summary["date_taken"].startswith("2020-02-28T23:30:00"), summary
assert str(summary["latitude"]).startswith("-33.8599722"), summary
assert str(summary["longitude"]).startswith("151.2111111"), summary
P
printf 'files/whole.jpg\0files/whole.tif\0' >names
gives "names are read from standard input" 0 sh -c '"$1" json --null <names >out' sh "$mexaldor"
gives "a name that is no UTF-8 is refused" 1 sh -c 'printf "files/\377.jpg\0" | "$1" json --null' sh "$mexaldor"
says "the refusal says why" "files/\\xff.jpg: the name is not valid UTF-8"
gives "an argument that is no UTF-8 is refused" 1 sh -c '"$1" json "$(printf "files/\377.jpg")"' sh "$mexaldor"
says "that refusal says why" "files/\\xff.jpg: the name is not valid UTF-8"

gives "two hyphens end the options" 0 "$mexaldor" show -- files/whole.jpg
if has exiftool; then
    check "exiftool reads the same" python3 - objects <<'P'
import json, subprocess, sys
seen = 0
for it in map(json.loads, open(sys.argv[1])):
    if not it["path"].split("/")[-1].startswith("whole"):
        continue
    names = ["Orientation", "GPSLatitude", "GPSLongitude", "DateTimeOriginal", "Make"]
    ran = subprocess.run(["exiftool", "-j", "-n", *("-" + name for name in names), it["path"]], capture_output=True)
    theirs, ours = json.loads(ran.stdout)[0], it["summary"]
    assert theirs["Orientation"] == ours["orientation"], theirs
    assert abs(theirs["GPSLatitude"] - ours["latitude"]) < 1e-7, theirs
    assert abs(theirs["GPSLongitude"] - ours["longitude"]) < 1e-7, theirs
    assert theirs["DateTimeOriginal"].replace(":", "-", 2).replace(" ", "T") == ours["date_taken"], theirs
    assert theirs["Make"] == ours["make"], theirs
    seen += 1
assert seen == 4, seen
P
fi

# scrub
fresh
for file in whole.jpg whole.webp; do
    gives "scrub takes all out of $file" 0 "$mexaldor" scrub "work/$file" "work/new.$file"
    gives "nothing is left in $file" 1 "$mexaldor" show "work/new.$file"
    check "the old $file stays" cmp "files/$file" "work/$file"
    gives "scrub keeps the orientation of $file" 0 "$mexaldor" scrub --force --keep-orientation "work/$file" "work/new.$file"
    gives "one field is left in $file" 0 "$mexaldor" show "work/new.$file"
    check "it is alone" test "$(wc -l <out)" = 2
    holds "the orientation is printed" Orientation
done
check "no metadata is left in the JPEG" sh -c '! grep -aqE "xmpmeta|comment|behind" work/new.whole.jpg'
check "no metadata is left in the WebP" sh -c '! grep -aq xmpmeta work/new.whole.webp'
gives "scrub of a picture without metadata gives it again" 0 "$mexaldor" scrub --force files/plain.jpg work/plain.jpg
check "it is the same" cmp files/plain.jpg work/plain.jpg
gives "TIFF files lose their metadata" 0 "$mexaldor" scrub work/whole.tif work/new.tif
check "no text is left in the TIFF file" sh -c '! grep -aqE "Maker|description|notes|2020" work/new.tif'
check "it has its length" test "$(wc -c <work/new.tif)" = "$(wc -c <work/whole.tif)"
gives "what describes the picture is left" 0 "$mexaldor" show work/new.tif
holds "its resolution" "XResolution primary 72"
check "and no orientation" sh -c '! grep -q Orientation out'
gives "which --keep-orientation keeps" 0 "$mexaldor" scrub --force --keep-orientation work/whole.tif work/new.tif
"$mexaldor" show work/new.tif >out
holds "in a TIFF file too" "Orientation primary row 0 at right and column 0 at top"
gives "scrub of a scrubbed TIFF file gives it again" 0 "$mexaldor" scrub --force --keep-orientation work/new.tif work/again.tif
check "it is the same TIFF file" cmp work/new.tif work/again.tif
gives "HEIF files lose their fields" 0 "$mexaldor" scrub --in-place work/whole.heic
gives "the HEIF file has no field" 0 "$mexaldor" show work/whole.heic
check "nor a line of one" test "$(wc -l <out)" = 1
fresh
gives "GPS data are erased in all" 3 "$mexaldor" scrub --places-only -i work/whole.jpg work/whole.tif work/big.tif work/whole.webp work/whole.heic
says "a comment may hold a location" "work/whole.jpg: still there: comment at offset"
says "so may what follows the picture" "work/whole.jpg: still there: data after the picture at offset"
check "nothing else is reported of it" test "$(grep -c 'still there' err)" = 2
check "but maker notes are, of each file" test "$(grep -c 'the maker note is not read' err)" = 5
printf 'MM\000*\000\000\000\010\000\001\210\045\000\015\000\000\000\001\000\000\000\310\000\000\000\000' >work/outside.tif
gives "a GPS pointer that is not followed is reported" 3 "$mexaldor" scrub --places-only -i work/outside.tif
says "the file of a GPS pointer that is not followed is named" "work/outside.tif: GPS data may be left"
for file in whole.jpg whole.tif big.tif whole.webp whole.heic; do
    "$mexaldor" show "work/$file" >out
    check "no GPS field is left in $file" sh -c '! grep -q GPS out'
    holds "the rest of $file is" Orientation
    check "$file keeps its length" test "$(wc -c <"work/$file")" = "$(wc -c <"files/$file")"
done
gives "a cut file is scrubbed as far as it goes" 3 "$mexaldor" scrub -i work/cut.jpg
says "that it is cut is reported" "The file is cut off"
nothing_beside scrub

# set
fresh
gives "values that fit are set in place" 0 "$mexaldor" set -i work/whole.jpg work/whole.tif work/whole.webp work/whole.heic Orientation=1 "ImageDescription=Short"
for file in whole.jpg whole.tif whole.webp whole.heic; do
    check "$file keeps its length" test "$(wc -c <"work/$file")" = "$(wc -c <"files/$file")"
    "$mexaldor" show "work/$file" >out
    holds "$file has the new text" '"Short"'
done
gives "a longer text is appended to the data of a JPEG file" 0 "$mexaldor" set work/whole.jpg work/new.jpg "ImageDescription=A text that is longer than the old one was"
check "nothing is said" test ! -s err
"$mexaldor" show work/new.jpg >out
holds "the longer text is there" "longer than the old one"
holds "the rest is there" "2020-02-28 23:30:00"
"$mexaldor" thumbnail work/new.jpg work/thumbnail.jpg
check "the thumbnail is there" test "$(wc -c <work/thumbnail.jpg)" = 4
gives "and to a TIFF file" 0 "$mexaldor" set -i work/whole.tif "ImageDescription=A text that is longer than the old one was"
"$mexaldor" show work/whole.tif >out
holds "which has the longer text" "longer than the old one"
gives "and to a HEIF file" 0 "$mexaldor" set -i work/whole.heic "ImageDescription=A text that is longer than the old one was"
"$mexaldor" show work/whole.heic >out
holds "which has the longer text, too" "longer than the old one"
gives "an Exif item has an end" 1 "$mexaldor" set -i work/whole.heic "ImageDescription=$(printf %070000d 0)"
says "the message says so" "Exif item over 65,535 bytes"
gives "a JPEG segment has an end" 1 "$mexaldor" set -i work/whole.jpg "ImageDescription=$(printf %070000d 0)" Orientation=1 Artist=A
says "the message names the field" "ImageDescription is too long: the Exif data of a JPEG file have at most 65,527 bytes"
gives "a picture without data gets some" 0 "$mexaldor" set -i work/plain.jpg work/plain.webp Artist=Somebody "DateTimeOriginal=2024-05-01T12:30:00" ExposureTime=1/125 FNumber=2.8
for file in plain.jpg plain.webp; do
    "$mexaldor" json "work/$file" >out
    holds "$file has its date" "2024-05-01T12:30:00"
    holds "$file has its fraction" "[28,10]"
done
gives "a value that fits is set in data with a fault" 0 "$mexaldor" set -i work/faulty.jpg Orientation=1
gives "a text is no number" 1 "$mexaldor" set -i work/whole.jpg Orientation=up
gives "an offset can't be set" 1 "$mexaldor" set -i work/whole.jpg ExifIFDPointer=8
gives "an unknown tag is refused" 2 "$mexaldor" set -i work/whole.jpg Orientatoin=1
nothing_beside set

# shift
fresh
gives "dates move; one is blank" 3 "$mexaldor" shift +1d00:45 work/whole.jpg work/whole.tif work/whole.webp work/whole.heic
says "a blank date is reported" "work/whole.jpg: DateTimeDigitized is blank and was not moved"
for file in whole.jpg whole.tif whole.webp whole.heic; do
    "$mexaldor" show "work/$file" >out
    check "both dates of $file moved" test "$(grep -c '2020-03-01 00:15:00' out)" = 2
done
gives "dates move back" 3 "$mexaldor" shift -24:45 work/whole.jpg
check "the file is the old one" cmp files/whole.jpg work/whole.jpg
gives "only the dates of Exif move" 3 "$mexaldor" shift --exif -0:30:01 work/whole.jpg
"$mexaldor" show work/whole.jpg >out
check "one date moved" test "$(grep -c '2020-02-28 22:59:59' out)" = 1
gives "a file without dates is reported" 1 "$mexaldor" shift +1:00 work/undated.jpg
gives "an invalid date is reported" 3 "$mexaldor" shift +1:00 work/wrongdate.jpg
says "the date that was not moved is named" "is not a date of the calendar"
nothing_beside shift

# thumbnail
gives "the thumbnail is written" 0 "$mexaldor" thumbnail files/whole.jpg work/thumbnail.jpg
check "it is the one" sh -c 'printf "\377\330\377\331" | cmp - work/thumbnail.jpg'
gives "the thumbnail goes to standard output" 0 "$mexaldor" thumbnail files/big.tif -
check "it is the same" cmp out work/thumbnail.jpg
gives "a picture without one is reported" 1 "$mexaldor" thumbnail files/plain.jpg work/none.jpg
check "nothing is written then" test ! -e work/none.jpg

# folders
mkdir -p many/a/b
for number in 1 2 3; do cp files/whole.jpg "many/a/$number.jpg"; cp files/whole.jpg "many/a/b/$number.jpg"; done
ln -s .. many/a/b/up
gives "folders are shifted" 3 "$mexaldor" shift -q -r +1:00 many
"$mexaldor" show -r many >out
check "each file was, once" test "$(grep -c '2020-02-29 00:30:00' out)" = 12
python3 - <<'P'
import os
data = open("files/whole.jpg", "rb").read()
for folder in range(100):
    os.makedirs(f"thousands/{folder:02}")
    for file in range(100):
        open(f"thousands/{folder:02}/{file:02}.jpg", "wb").write(data)
P
check "10,000 files are read" sh -c '"$1" json -r thousands >objects && test "$(wc -l <objects)" = 10000' sh "$mexaldor"
check "they are in order" sh -c 'sed "s/.*\"path\":\"\([^\"]*\)\".*/\1/" objects | LC_ALL=C sort -c'

check "progress is shown on a terminal only" python3 - "$mexaldor" <<'P'
import os, pty, subprocess, sys
def output_of(*words):
    ours, theirs = pty.openpty()
    ran = subprocess.Popen([sys.argv[1], *words], stdout=subprocess.DEVNULL, stderr=theirs)
    os.close(theirs)
    seen = b""
    try:
        while piece := os.read(ours, 4096):
            seen += piece
    except OSError:
        pass
    ran.wait()
    return seen
line = output_of("json", "-r", "thousands")
assert b"files done" in line, line
assert line.endswith(b"\r\x1b[Kmexaldor: 10000 read, 0 refused, 0 skipped\r\n"), line[-200:]
assert line.count(b"\r") < 102, line.count(b"\r")
assert output_of("json", "-q", "-r", "thousands") == b""
P

# OUT is never another picture by accident
fresh
gives "scrub does not write over another picture" 1 "$mexaldor" scrub work/whole.jpg work/plain.jpg
says "the message names OUT and what to do" "work/plain.jpg exists; use --force"
check "the other picture stays" cmp files/plain.jpg work/plain.jpg
gives "set does not either" 1 "$mexaldor" set work/whole.jpg work/plain.jpg Orientation=1
gives "nor does thumbnail" 1 "$mexaldor" thumbnail work/whole.jpg work/plain.jpg
check "it stays still" cmp files/plain.jpg work/plain.jpg
gives "OUT can't be FILE" 1 "$mexaldor" scrub --force work/whole.jpg work/../work/whole.jpg
says "the message says what to do then" "input and output are the same file; use --in-place"
ln -s whole.jpg work/link.jpg
gives "nor a link to it" 1 "$mexaldor" set --force work/whole.jpg work/link.jpg Orientation=1
gives "nor can a thumbnail be" 1 "$mexaldor" thumbnail --force work/whole.jpg work/whole.jpg
check "which has no --in-place to name" sh -c '! grep -q in-place err'
check "FILE stays" cmp files/whole.jpg work/whole.jpg
gives "a link that leads nowhere is not replaced" 1 sh -c 'ln -s nowhere work/lost.jpg; "$1" scrub --force work/whole.jpg work/lost.jpg' sh "$mexaldor"
gives "--force replaces another file" 0 "$mexaldor" scrub --force --keep-orientation work/whole.jpg work/plain.jpg
check "which is the new one" sh -c '! cmp -s files/plain.jpg work/plain.jpg'
nothing_beside "OUT"

# words of set
fresh
gives "a mistyped tag is no file" 2 "$mexaldor" set work/whole.jpg Oreintation=6 Artist=Bob
says "the nearest tag is named" "unknown tag 'Oreintation'; did you mean 'Orientation'?"
check "no file has that name" sh -c '! ls | grep -q "="'
gives "an unknown tag is reported" 2 "$mexaldor" set -i work/whole.jpg Nothing12345678=6
says "the message says where names are" "mexaldor tags"
gives "names of tags match in any case" 0 "$mexaldor" set -i work/whole.jpg orientation=3 ARTIST=Bob
"$mexaldor" show work/whole.jpg >out
holds "the orientation is set" "row 0 at bottom and column 0 at right"
cp files/whole.jpg work/a=b.jpg
gives "a name with = is given as a path" 0 "$mexaldor" set -i ./work/a=b.jpg Orientation=1
(cd work && "$mexaldor" set -i ./a=b.jpg Orientation=3)
"$mexaldor" show ./work/a=b.jpg >out
holds "so is one in the folder" "row 0 at bottom and column 0 at right"
gives "tags are listed" 0 "$mexaldor" tags
check "each with its type and meaning" grep -qE '^Orientation +number +Orientation of image$' out
check "and texts" grep -qE '^Artist +text +Person who created the image$' out
check "fractions with a sign" grep -qE '^ExposureBiasValue +signed fraction +Exposure bias$' out
check "and what no text sets" grep -qE '^MakerNote +\(not settable\) +Manufacturer notes$' out
gives "a mode that the standard does not have is refused" 1 "$mexaldor" set -i work/whole.jpg MeteringMode=7
says "the message names the tag" "MeteringMode cannot have this value"

# each file once, links, and the program's own files
fresh
mkdir work/links outside
cp files/whole.jpg work/links/a.jpg
cp files/whole.jpg outside/far.jpg
ln -s a.jpg work/links/b.jpg
ln -s ../../outside/far.jpg work/links/c.jpg
cp files/whole.jpg work/links/a.jpg.orig
cp files/whole.jpg work/links/.mexaldor-0
gives "links and own files are skipped" 3 "$mexaldor" shift -r +1:00 work/links
says "they are counted" "mexaldor: 1 changed (1 not completely), 0 refused, 4 skipped (2 symbolic links; 2 backup or temporary files)"
"$mexaldor" show work/links/a.jpg >out
check "the file was shifted once" test "$(grep -c '2020-02-29 00:30:00' out)" = 2
check "a file outside of the folder stays" cmp files/whole.jpg outside/far.jpg
check "a backup stays" cmp files/whole.jpg work/links/a.jpg.orig
check "a hidden file stays" cmp files/whole.jpg work/links/.mexaldor-0
says "and is named" "work/links/.mexaldor-0: a temporary file of another run; it stays"
gives "own files are no part of a check" 3 "$mexaldor" check -r work/links
says "which says so" "mexaldor: 2 backups or temporary files were not checked"

cp files/whole.jpg work/links/a.jpg
gives "a file named in four ways is shifted once" 3 "$mexaldor" shift +1:00 work/links/a.jpg work/links/a.jpg ./work/../work/links/b.jpg -r work/links
"$mexaldor" show work/links/a.jpg >out
check "once" test "$(grep -c '2020-02-29 00:30:00' out)" = 2

# temporary files that a run left: one that nobody writes any more is removed by a run that changes files
fresh
mkdir work/left
cp files/whole.jpg work/left/a.jpg
cp files/whole.jpg work/left/.mexaldor-0
cp files/whole.jpg work/left/.mexaldor-1
cp files/whole.jpg work/left/.mexaldor-old
ln -s a.jpg work/left/.mexaldor-2
mkdir work/named
cp files/whole.jpg work/named/a.jpg
cp files/whole.jpg work/named/.mexaldor-1
sleep 4
gives "a run that only reads" 0 "$mexaldor" json -r work/left
says "names a temporary file" "work/left/.mexaldor-0: a temporary file; a run that changes files removes it"
check "which stays" test -f work/left/.mexaldor-0
gives "a run that changes files" 3 env flocked=work/left/.mexaldor-1 python3 - "$mexaldor" shift -r +1:00 work/left <<'P'
import fcntl, os, subprocess, sys
with open(os.environ["flocked"], "r+b") as held:
    fcntl.flock(held, fcntl.LOCK_EX)
    sys.exit(subprocess.run(sys.argv[1:]).returncode)
P
says "removes one that nobody writes" "work/left/.mexaldor-0: a temporary file of an interrupted run; it was removed"
check "so it is gone" test ! -e work/left/.mexaldor-0
says "and leaves one that a run writes" "work/left/.mexaldor-1: a temporary file of another run; it stays"
check "so it is there" cmp files/whole.jpg work/left/.mexaldor-1
check "other names are not its own" cmp files/whole.jpg work/left/.mexaldor-old
check "nor are links" test -L work/left/.mexaldor-2
"$mexaldor" json work/named/a.jpg >out 2>err
check "a file that is named is read, and nothing is removed beside it" cmp files/whole.jpg work/named/.mexaldor-1
gives "a file that is named is changed" 0 "$mexaldor" set -i work/named/a.jpg Orientation=1
says "and what was left beside it is removed" "work/named/.mexaldor-1: a temporary file of an interrupted run; it was removed"
check "so it is gone, too" test ! -e work/named/.mexaldor-1

# names that are no UTF-8, control characters
fresh
python3 -c 'import shutil; shutil.copy("files/whole.jpg", b"work/bad\xff.jpg")'
gives "a bad name does not hide the others" 1 "$mexaldor" json -r work
says "it is named" 'work/bad\xff.jpg: the name is not valid UTF-8'
check "the others are there" grep -q '"path":"work/whole.jpg"' out
python3 -c 'import shutil; shutil.copy("files/whole.jpg", "work/a\n\x1b[2Jb.jpg")'
gives "a name with control characters is shown" 0 "$mexaldor" show "$(printf 'work/a\n\033[2Jb.jpg')"
holds "escaped" 'work/a\n\x1b[2Jb.jpg:'
gives "and reported" 1 "$mexaldor" scrub "$(printf 'work/none\033.jpg')" work/out.jpg
says "escaped too" 'work/none\x1b.jpg: No such file'

# long values
"$mexaldor" set -i work/whole.jpg "ImageDescription=$(printf %0300d 0)"
gives "a long value is shown in short" 0 "$mexaldor" show work/whole.jpg
holds "with its length" "... (302 characters; --full shows all)"
check "and not whole" sh -c '! grep -q 0000000000000000000000000000000000000000000000000000000000000000000000 out'
gives "--full shows it" 0 "$mexaldor" show --full work/whole.jpg
holds "whole" "$(printf %0300d 0)"

# output that is closed or full
fresh
gives "a full standard output is reported" 1 sh -c '"$1" show files/whole.jpg >/dev/full' sh "$mexaldor"
says "in words" "mexaldor: cannot write to standard output: No space left on device"
gives "a closed standard output is reported" 1 sh -c '"$1" json files/whole.jpg >&-' sh "$mexaldor"
says "in words too" "mexaldor: cannot write to standard output: Bad file descriptor"
gives "so is that of tags" 1 sh -c '"$1" tags >/dev/full' sh "$mexaldor"
gives "a closed standard error does not end the work" 1 sh -c '"$1" shift +1:00 files/absent.jpg work/whole.jpg 2>&-' sh "$mexaldor"
"$mexaldor" show work/whole.jpg >out
check "the other file was shifted" test "$(grep -c '2020-02-29 00:30:00' out)" = 2

# the summary of a folder
fresh
printf 'BM----\0\0\0\0rest' >work/a.bmp
cp work/a.bmp work/b.bmp
printf 'GIF89a' >work/a.gif
rm work/faulty.jpg work/cut.jpg work/plain.jpg work/plain.webp
gives "pictures that are not supported are counted" 3 "$mexaldor" json -r work
says "by their formats" "mexaldor: 7 read, 0 refused, 5 skipped (1 GIF, 2 BMP: format not supported; 1 damaged or empty file; 1 other file)"
says "and named" "mexaldor: work/a.bmp: not read: BMP"
gives "a quiet run names only what is not read" 3 "$mexaldor" json -q -r work
check "one line for each" test "$(wc -l <err)" = 4

# what is not read in a folder
mkdir card
cp files/whole.jpg card/a.jpg
printf '\0\0\0\024ftypqt  \0\0\0\0qt  \0\0\0\010wide' >card/b.MOV
printf '\0\0\0\010wide\0\0\0\010mdat' >card/old.mov
printf 'II\053\0\010\0\0\0' >card/big.tif
printf '\0\0\0\014jP  \r\n\207\n' >card/c.jp2
printf '%%PDF-1.7' >card/d.pdf
printf '<svg xmlns="http://www.w3.org/2000/svg"/>' >card/e.svg
printf '' >card/empty.jpg
printf '' >card/empty.CR3
head -c 4096 /dev/zero >card/IMG_9999.JPG
printf '<x/>' >card/a.xmp
printf '<x/>' >card/f.AAE
printf 'text' >card/g.txt
for command in 'check' 'json' 'json --summary' 'table --tags Model' 'show' 'scrub --in-place' 'scrub --locations-only --in-place' 'shift +1:00'; do
    rm -rf given && cp -r card given
    gives "$command names what it does not read" 3 "$mexaldor" $command -r given
    for line in 'b.MOV: not read: video' 'old.mov: not read: video' 'big.tif: not read: BigTIFF' 'c.jp2: not read: JPEG 2000' 'd.pdf: not read: PDF' 'e.svg: not read: SVG' 'empty.jpg: not read: the file is empty' 'empty.CR3: not read: the file is empty' 'IMG_9999.JPG: damaged: no known signature of a JPEG file'; do
        says "as $line" "mexaldor: given/$line"
    done
    says "and counts it" "12 skipped (2 video, 1 JPEG 2000, 1 BigTIFF, 1 SVG, 1 PDF: format not supported; 3 damaged or empty files; 1 XMP sidecar; 1 AAE sidecar; 1 other file)"
done
# conditions hold for files that are named, too; files that can't be read are refused and counted
fresh
gives "conditions hold for named files" 3 "$mexaldor" scrub --locations-only -i --where location work/whole.jpg work/plain.jpg
check "the other file stays" cmp files/plain.jpg work/plain.jpg
gives "and turned round" 0 "$mexaldor" shift +1:00 --without date work/whole.tif
check "it stays" cmp files/whole.tif work/whole.tif
printf '\377\330\377\340\0\020JFIF' >work/short.jpg
mkdir broken && printf 'MM\0*\0\0\0\300' >broken/a.tif && cp files/whole.jpg broken/b.jpg
gives "a refused file is counted in place" 1 "$mexaldor" set -r -i broken Orientation=1
says "as such" "mexaldor: 1 changed, 1 refused, 0 skipped"
for command in 'check --json' 'check' 'json' 'json --summary' 'table --tags Model' 'thumbnail --into thumbs' 'touch' 'catalog rows.db' 'rename x_{Name}'; do
    gives "$command refuses a file that is not there" 1 "$mexaldor" $command work/none.jpg
    printf 'no picture' >work/none.png
    gives "$command refuses what is no picture" 1 "$mexaldor" $command work/none.png
    check "and leaves it" test "$(cat work/none.png)" = 'no picture'
done
gives "a dry run makes no folder" 0 "$mexaldor" rename --dry-run --into nowhere '%Y' work/whole.jpg
check "indeed" test ! -e nowhere

mkdir texts && printf 'text' >texts/a.txt
gives "a folder with other files alone is well" 0 "$mexaldor" check -r texts
says "they are counted" "mexaldor: 0 read, 0 refused, 1 skipped (1 other file)"
gives "a location is a finding" 3 "$mexaldor" check -r card
says "which is counted" "1 read (1 with findings), 0 refused"

# Until the program is built its script answers by files of the repository, which are the program's own texts.
mkdir -p door/docs door/bin door/crates/mexaldor
cp -r "$root/tools" "$root/mexaldor" door
cp -r "$root/docs/help" door/docs
printf 'mexaldor:\n' >door/crates.txt
printf '#!/bin/sh\n[ "$1" != doc ] || echo "$0.kit/doc"\n' >door/bin/rt
chmod +x door/bin/rt
for words in --help --version tags "show --help" "json --help" "table --help" "check --help" "scrub --help" "set --help" \
    "shift --help" "copy --help" "rename --help" "geotag --help" "touch --help" "thumbnail --help" "catalog --help" \
    "query --help" "page --help"; do
    "$mexaldor" $words >wanted
    gives "without a build: mexaldor $words" 0 door/mexaldor $words
    check "what the program says" cmp wanted out
done
gives "other words need the program" 1 env PATH="$scratch/door/bin:$PATH" door/mexaldor show files/whole.jpg
says "which is said" "mexaldor: not built yet; ./install.sh proves, builds and installs it"
says "with how long it takes" "mexaldor: 1 crate to prove and build"

ends
