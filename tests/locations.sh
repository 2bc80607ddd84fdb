#!/bin/sh
# Files that hold a location in each way, made by location_files.py: where locations are erased the secret is
# gone, all else is as it was, and what may still hold one is reported; where all metadata go, so does each secret.
. "$(dirname "$0")/checks.sh"

python3 "$root/tests/location_files.py" files || exit 1

# secrets FILE: how often a file holds the secret.
secrets() {
    grep -aoF Zzyzx47 "$1" | wc -l
}

# differ OLD NEW: the bytes of the new file that are not the old ones, as numbers, each once.
differ() {
    cmp -l "$1" "$2" | awk '{print $3}' | sort -u | tr '\n' ' '
}

# erased FILE: no secret is left, only zeros and spaces are new, nothing is reported, and once more changes nothing.
erased() {
    check "$1 holds the secret" test "$(secrets "files/$1")" -gt 0
    gives "check finds the location of $1" 3 "$mexaldor" check "files/$1"
    holds "and names its part" ": a location"
    gives "$1 is changed" 0 "$mexaldor" scrub --force --locations-only "files/$1" "new.$1"
    check "$1: nothing is reported" test ! -s err
    check "$1: no secret is left" test "$(secrets "new.$1")" = 0
    check "$1: the length stays" test "$(wc -c <"files/$1")" = "$(wc -c <"new.$1")"
    check "$1: new bytes are zeros and spaces ($(differ "files/$1" "new.$1"))" test -z "$(differ "files/$1" "new.$1" | tr ' ' '\n' | grep -vx -e 0 -e 40)"
    gives "$1 is changed again" 0 "$mexaldor" scrub --force --locations-only "new.$1" "again.$1"
    check "$1: twice is once" cmp "new.$1" "again.$1"
    gives "check finds no location in the new $1" 0 "$mexaldor" check "new.$1"
}

# stays FILE COUNT TEXT: so many secrets are left, and this is reported.
stays() {
    gives "$1 is changed, and what stays is reported" 3 "$mexaldor" scrub --force --locations-only "files/$1" "new.$1"
    says "$1: what stays is named" "$3"
    check "$1: $2 are left ($(secrets "new.$1"))" test "$(secrets "new.$1")" = "$2"
    gives "check reports what stays of $1" 3 "$mexaldor" check --strict "new.$1"
    holds "as a part that may hold a location" ": may hold a location"
}

for file in exif.jpg exif_twice.jpg zeros.jpg xmp.jpg xmp_twice.jpg extended_xmp.jpg extended_xmp_only.jpg iptc.jpg all.jpg second_picture.jpg exif.webp xmp.webp both.webp \
    gps.tif fields.tif fields.jpg fields.webp thumbnail.jpg exif.heic xmp.heic both.heic twice.heic undescribed.jpg; do
    erased "$file"
done
erased resources.jpg
check "what names no location stays in XMP" grep -qaF "dc:source='kept'" new.xmp.jpg
check "and in IPTC data" grep -qaF kept new.iptc.jpg
check "what names no location stays in the XMP of a thumbnail" grep -qaF "dc:source='kept'" new.thumbnail.jpg
check "the halves of a location in two portions are in the file" test "$(grep -aoE 'Zzy|zx47' files/extended_xmp.jpg | wc -l)" = 8
check "and gone with it" test "$(grep -aoE 'Zzy|zx47' new.extended_xmp.jpg | wc -l)" = 0
check "what names no location stays in the portions" test "$(grep -aoF "dc:source='kept'" new.extended_xmp.jpg | wc -l)" = 2

stays described.jpg 1 "Exif data at offset 2: the text of ImageDescription is not judged"
stays words.jpg 1 "XMP packet at offset 2 has texts, which are not judged"
stays keywords.jpg 0 "IPTC data at offset 20 has texts, which are not judged"
stays words.tif 1 "Exif data at offset 0: texts of tag 700 are not judged"
stays comment.jpg 1 "comment at offset"
stays commented_thumbnail.jpg 1 "Exif data at offset 2: the thumbnail may hold a location"
stays trailer.jpg 1 "data after the picture at offset"
stays unknown.jpg 1 "unknown data at offset"
for number in 1008 1033 1036 1059 1002 1034 8000; do
    stays "resource_$number.jpg" 1 "other Photoshop resource at offset"
done
stays resource_name.jpg 1 "other Photoshop resource at offset"
stays resource.tif 1 "Exif data at offset 0: a resource of Photoshop is not searched"
stays resource_thumbnail.jpg 1 "Exif data at offset 2: the thumbnail may hold a location"
stays jfxx.jpg 1 "JFIF thumbnail at offset"
stays jfif_tail.jpg 1 "JFIF header at offset"
stays adobe_tail.jpg 1 "Adobe segment at offset"
stays no_second_marker.jpg 0 "unknown data at offset 2"
for file in xmp_keywords.jpg xmp_region.jpg xmp_remark.jpg xmp_about.jpg; do
    stays "$file" 1 "XMP packet at offset 2 has texts, which are not judged"
done
gives "a version of GPS data is no location" 0 "$mexaldor" check files/gps_version.jpg
holds "and none is found" "Exif data at offset 2 (54 bytes): no location"
gives "a maker note may hold one" 3 "$mexaldor" check --strict files/gps_version_note.jpg
gives "which is no finding unless that is asked for" 0 "$mexaldor" check files/gps_version_note.jpg
holds "and is named apart" ": may hold a location in its maker note"
for file in frame_exif.webp frame_unknown.webp; do
    stays "$file" 1 "unknown data at offset"
done
stays frame_xmp.webp 2 "unknown data at offset"
for file in frame_exif.webp frame_xmp.webp frame_unknown.webp; do
    gives "scrub takes the chunk within the frame out of $file" 0 "$mexaldor" scrub --force "files/$file" "clean.$file"
    check "$file: no secret is left" test "$(secrets "clean.$file")" = 0
    gives "and nothing of $file is left to be checked" 0 "$mexaldor" check --strict "clean.$file"
    gives "$file is scrubbed again" 0 "$mexaldor" scrub --force "clean.$file" again.webp
    check "$file: twice is once" cmp "clean.$file" again.webp
done
stays long_xmp.jpg 1 "part of a long XMP packet at offset"
stays other_order.jpg 0 "part of a long XMP packet at offset"
check "no byte of portions in another order is new" test "$(grep -aoE 'Zzy|zx47' new.other_order.jpg | wc -l)" = 4
stays other_packet.jpg 0 "part of a long XMP packet at offset"
stays broken_extended.jpg 1 "part of a long XMP packet at offset"
stays broken_xmp.jpg 1 "XMP packet at offset"
stays broken_iptc.jpg 1 "IPTC data at offset"
stays broken_exif.jpg 1 "Exif data at offset 2, which can't be changed"
stays unknown.webp 1 "unknown data at offset"
stays sub_ifds.tif 1 "Exif data at offset 0: SubIFDs are not read"
stays maker_note.tif 1 "Exif data at offset 0: the maker note is not read"
stays broken_xmp.tif 1 "Exif data at offset 0: the XMP packet of tag 700 can't be read"
stays cut.tif 1 "Exif data at offset 0: some of the data can't be read"

stays unknown_item.heic 1 "unknown data at offset"
stays unknown_box.heic 1 "unknown data at offset"
stays broken_xmp.heic 1 "XMP packet at offset"

# blanked FILE: what can't be read is reported, and with --force-blank overwritten: nothing is reported then.
blanked() {
    gives "$1 is changed, and what can't be read is reported" 3 "$mexaldor" scrub --force --locations-only "files/$1" "new.$1"
    says "$1: the option that helps is named" "; --force-blank blanks it"
    gives "$1 is blanked" 0 "$mexaldor" scrub --force --locations-only --force-blank "files/$1" "blank.$1"
    check "$1: nothing is reported" test ! -s err
    check "$1: no secret is left" test "$(secrets "blank.$1")" = 0
    check "$1: the length stays" test "$(wc -c <"files/$1")" = "$(wc -c <"blank.$1")"
    gives "the new $1 is changed" 0 "$mexaldor" scrub --force --locations-only "blank.$1" "again.$1"
    check "$1: nothing is left to do" cmp "blank.$1" "again.$1"
    gives "check finds no location in the new $1" 0 "$mexaldor" check "blank.$1"
}

for file in broken_xmp.jpg broken_long.jpg broken_iptc.jpg broken_extended.jpg broken_xmp.heic broken_xmp.tif; do
    blanked "$file"
done
check "a long packet has no properties then" grep -qaF "<x:xmpmeta xmlns:x='adobe:ns:meta/'/>   " blank.broken_long.jpg
gives "--force-blank leaves what is not XMP or IPTC" 3 "$mexaldor" scrub --force --locations-only --force-blank files/comment.jpg new.jpg
check "as it is without" cmp new.jpg new.comment.jpg
gives "--force-blank alone is refused" 2 "$mexaldor" scrub --force --force-blank files/broken_xmp.jpg new.jpg
says "and says what it requires" "--force-blank requires --locations-only"
gives "--places-only is enough" 0 "$mexaldor" scrub --force --places-only --force-blank files/broken_xmp.jpg new.jpg

# cleaned FILE: with all metadata out no secret is left, and once more changes nothing.
cleaned() {
    gives "$1 is scrubbed" 0 "$mexaldor" scrub --force "files/$1" "clean.$1"
    check "$1: no secret is left in any part" test "$(secrets "clean.$1")" = 0
    gives "$1 is scrubbed again" 0 "$mexaldor" scrub --force "clean.$1" "again.$1"
    check "$1: scrubbed twice is scrubbed once" cmp "clean.$1" "again.$1"
}

for file in all.jpg second_picture.jpg fields.jpg thumbnail.jpg commented_thumbnail.jpg comment.jpg trailer.jpg unknown.jpg long_xmp.jpg \
    extended_xmp.jpg other_order.jpg broken_extended.jpg broken_xmp.jpg broken_long.jpg broken_iptc.jpg \
    resources.jpg resource_1008.jpg resource_name.jpg jfxx.jpg jfif_tail.jpg adobe_tail.jpg no_second_marker.jpg \
    broken_exif.jpg both.webp fields.webp unknown.webp gps.tif fields.tif maker_note.tif broken_xmp.tif cut.tif \
    exif.heic xmp.heic both.heic twice.heic unknown_item.heic unknown_box.heic \
    broken_xmp.heic; do
    cleaned "$file"
    gives "check finds no location in the clean $file" 0 "$mexaldor" check "clean.$file"
done
check "the picture of a HEIF file stays" grep -qaF "the picture" clean.both.heic
check "a HEIF file keeps its length" test "$(wc -c <files/both.heic)" = "$(wc -c <clean.both.heic)"
# notes FILE: how many lines the last command wrote about a file.
notes() {
    grep -c "files/$1" err
}

# The colour profile, and pictures behind the first one.
for file in profile.jpg profile.webp; do
    gives "$file is scrubbed" 0 "$mexaldor" scrub --force "files/$file" "clean.$file"
    says "its colour profile is named" "files/$file: the colour profile stays; --strip-color removes it"
    check "once" test "$(notes "$file")" = 1
    check "and stays" grep -qaF profile "clean.$file"
    gives "$file is scrubbed without its colour profile" 0 "$mexaldor" scrub --strip-color "files/$file" "bare.$file"
    check "nothing is reported" test ! -s err
    check "the profile is gone" test "$(grep -caF -e profile -e ICC "bare.$file")" = 0
    check "and so is the secret" test "$(secrets "bare.$file")" = 0
done
check "a JPEG without its profile is the picture" cmp files/plain.jpg bare.profile.jpg
check "a WebP file without its profile is the picture" cmp files/plain.webp bare.profile.webp
gives "a HEIF file keeps its colour profile" 3 "$mexaldor" scrub --strip-color files/exif.heic bare.heic
says "and it is said" "files/exif.heic: the colour profile stays in files of this format"
check "all else is done" cmp bare.heic clean.exif.heic
gives "locations and the profile" 2 "$mexaldor" scrub --locations-only --strip-color files/profile.jpg bare.jpg
gives "a picture behind the first one" 0 "$mexaldor" scrub --force files/second_picture.jpg clean.jpg
says "is removed by name" "files/second_picture.jpg: the picture behind the first one was removed"
gives "the orientation of a HEIF file" 0 "$mexaldor" scrub --force --keep-orientation files/exif.heic clean.heic
says "is that of its own rotation" "files/exif.heic: the rotation that is stored with the picture stays; the orientation of Exif does not"
gives "without notes" 0 "$mexaldor" scrub -q --force files/profile.jpg clean.jpg
check "nothing is reported" test ! -s err
mkdir notes
cp files/profile.jpg files/second_picture.jpg notes
gives "in place" 0 "$mexaldor" scrub --in-place -r notes
says "the profile is named" "notes/profile.jpg: the colour profile stays"
says "and the picture" "notes/second_picture.jpg: the picture behind the first one was removed"
says "and both are counted as changed" "2 changed, 0 refused"
gives "a directory below one that is not there is refused" 1 "$mexaldor" scrub --force files/sub_ifds.tif clean.tif
says "and says why" "data of the picture lead out of the file"

# What check prints, whole.
printf '%s\n' "files/all.jpg: Exif data at offset 2 (73 bytes): a location" >wanted
gives "check names each part" 3 "$mexaldor" check files/all.jpg
check "with its offset and length" grep -qxF "$(cat wanted)" out
gives "a picture without metadata" 0 "$mexaldor" check files/plain.jpg
holds "has none" "files/plain.jpg: no metadata"
gives "no picture is checked" 1 "$mexaldor" check files/text.txt
says "and refused by name" "files/text.txt: Unknown image format"
gives "a folder is checked" 3 "$mexaldor" check -q -r --json files
cp out checked
check "each line is an object, whose parts cover its file" env PYTHONPATH="$root/tests" python3 - "$root/docs/check.schema.json" checked <<'P'
import os, sys

import objects

read = objects.read(sys.argv[1], sys.argv[2], 20)
for it in read:
    if "error" in it:
        continue
    at = 0
    for part in it["parts"]:
        assert part["offset"] == at, it["path"]
        at += part["length"]
    assert at == os.path.getsize(it["path"]), it["path"]
found = {it["path"].split("/")[-1]: it["location"] for it in read if "error" not in it}
assert found["exif.jpg"] == found["xmp.webp"] == "yes", found
assert found["plain.jpg"] == "no", found
P

# The alias, and over many files: the worst status.
gives "--places-only is the same" 0 "$mexaldor" scrub --force --places-only files/all.jpg new.jpg
check "as --locations-only" cmp new.jpg new.all.jpg
mkdir many
cp files/exif.jpg files/comment.jpg many
gives "a folder with a file that may still hold a location" 3 "$mexaldor" scrub --locations-only --in-place -r many
says "names it" "many/comment.jpg: still there: comment at offset"
check "and changes the others" test "$(secrets many/exif.jpg)" = 0

# three comments, one behind the other
{
    head -c 2 files/plain.jpg
    printf '\377\376\0\004ab\377\376\0\004cd\377\376\0\004ef'
    tail -c +3 files/plain.jpg
} >comments.jpg
gives "comments that follow one another may hold a location" 3 "$mexaldor" scrub --locations-only comments.jpg new.comments.jpg
says "and have one line" "comments.jpg: still there: comment at offset 2, which may hold a location, and 2 more behind it"
check "alone" test "$(grep -c 'still there' err)" = 1

if has djpeg; then
    djpeg files/all.jpg >old.ppm
    djpeg new.all.jpg >new.ppm
    check "the pixels of a JPEG are the same" cmp old.ppm new.ppm
fi
if has exiftool; then
    for file in exif.jpg xmp.jpg iptc.jpg all.jpg both.webp; do
        check "exiftool finds no location in $file" test -z "$(exiftool -s -s -s -GPS:all -XMP-exif:GPSLatitude -XMP-photoshop:City -IPTC:City "new.$file" | tr -d ' \n')"
    done
    check "exiftool reads the other XMP" test "$(exiftool -s3 -XMP-dc:Source new.all.jpg)" = kept
    check "exiftool reads the other IPTC data" test "$(exiftool -s3 -IPTC:By-line new.all.jpg)" = kept
fi

ends
