#!/bin/sh
# Edits files of exiftool in place, and asks exiftool and exiv2 for the new value and for all else.
. "$(dirname "$0")/checks.sh"

has exiftool || { ends; exit; }

mkdir work
cp files/plain.jpg work/all.jpg
exiftool -q -overwrite_original -Orientation#=6 -Make=Maker -Model=Model -Software=Ware -Artist=Somebody \
    -ImageDescription="A longer description" -Copyright=Rights -ModifyDate="2020:02:28 23:30:00" \
    -DateTimeOriginal="2020:02:28 23:30:00" -CreateDate="2020:02:28 23:30:01" -OffsetTimeOriginal=+01:00 \
    -SubSecTimeOriginal=123 -ExposureTime=1/200 -FNumber=2.8 -ISO=100 -UserComment=said -LensModel=Lens \
    -GPSVersionID="2 3 0 0" -GPSLatitudeRef=S -GPSLatitude=33.86 -GPSLongitudeRef=E -GPSLongitude=151.21 \
    -GPSAltitudeRef=0 -GPSAltitude=10 -GPSTimeStamp=01:02:03 -GPSSatellites=5 -GPSStatus#=A -GPSMeasureMode#=3 \
    -GPSDOP=1 -GPSSpeedRef#=K -GPSSpeed=3 -GPSTrackRef#=T -GPSTrack=90 -GPSImgDirectionRef#=T -GPSImgDirection=91 \
    -GPSMapDatum=WGS-84 -GPSDestLatitudeRef=N -GPSDestLatitude=1 -GPSDestLongitudeRef=W -GPSDestLongitude=2 \
    -GPSDestBearingRef#=T -GPSDestBearing=3 -GPSDestDistanceRef#=K -GPSDestDistance=4 -GPSProcessingMethod=GPS \
    -GPSAreaInformation=Area -GPSDateStamp=2020:02:28 -GPSDifferential#=0 -GPSHPositioningError=5 work/all.jpg
exiftool -q -overwrite_original -Orientation#=6 -Make=Maker -DateTimeOriginal="2020:02:28 23:30:00" \
    -GPSLatitude=33.86 -GPSLatitudeRef=S work/all.jpg -o work/all.tif 2>/dev/null
check "the file has 32 tags of places" test "$(exiftool -a -s -GPS:all work/all.jpg | wc -l)" = 32

# seen FILE: what exiftool reads of a file's metadata.
seen() {
    exiftool -a -G1 -s -n -x FileModifyDate -x FileAccessDate -x FileInodeChangeDate -x FileName -x Directory "$1"
}

# differ OLD NEW: at how many places two files of one length differ.
differ() {
    cmp -l "$1" "$2" | wc -l
}

seen work/all.jpg >old
"$mexaldor" set --force work/all.jpg work/new.jpg Orientation=1
seen work/new.jpg >new
check "exiftool reads the new orientation, and all else as before" test "$(diff old new | grep -c '^>')" = 1
check "it is the one" grep -q 'Orientation.*: 1$' new
check "one byte changed" test "$(differ work/all.jpg work/new.jpg)" = 1

"$mexaldor" set --force work/all.jpg work/new.jpg "ImageDescription=Short"
seen work/new.jpg >new
check "exiftool reads the shorter text, and all else as before" test "$(diff old new | grep -c '^>')" = 1
check "the length stays" test "$(wc -c <work/all.jpg)" = "$(wc -c <work/new.jpg)"

cp work/all.jpg work/new.jpg
"$mexaldor" shift +1d00:45 work/new.jpg
check "exiftool reads the moved dates" test "$(exiftool -s3 -ModifyDate -DateTimeOriginal -CreateDate work/new.jpg | tr '\n' ' ')" = "2020:03:01 00:15:00 2020:03:01 00:15:00 2020:03:01 00:15:01 "
seen work/new.jpg >new
check "and all else as before" test "$(diff old new | grep '^>' | grep -vc 'Date')" = 0
"$mexaldor" shift -24:45 work/new.jpg
check "moved back, the file is the old one" cmp work/all.jpg work/new.jpg

"$mexaldor" scrub --force --places-only work/all.jpg work/new.jpg
check "exiftool reads no GPS data" test -z "$(exiftool -s -GPS:all work/new.jpg)"
seen work/new.jpg >new
check "and all else as before" test "$(diff old new | grep -v '^[0-9]' | grep -vc 'GPS')" = 0
check "the length stays then" test "$(wc -c <work/all.jpg)" = "$(wc -c <work/new.jpg)"
exiftool -validate -warning -a -s3 work/all.jpg | tail -n +2 >old.warnings
exiftool -validate -warning -a -s3 work/new.jpg | tail -n +2 | grep -v GPSVersionID >new.warnings
check "exiftool finds nothing wrong, but that an empty directory has no version" cmp old.warnings new.warnings

# An orientation other than upright goes with the other fields, which is reported.
turned="its orientation is removed, so it may lie on its side; --keep-orientation keeps it"
python3 - work/turned.tif <<'TURNED'
import struct, sys
entries = [(256, 1), (257, 1), (258, 8), (259, 1), (262, 1), (273, 134), (274, 6), (277, 1), (278, 1), (279, 1)]
listed = b"".join(struct.pack("<HHIHH", tag, 3, 1, value, 0) for tag, value in entries)
data = b"II*\0" + struct.pack("<IH", 8, len(entries)) + listed + bytes(4) + b"\x80"
open(sys.argv[1], "wb").write(data)
TURNED
exiftool -q -overwrite_original -DateTimeOriginal="2020:02:28 23:30:00" work/turned.tif
for made in all.jpg turned.tif; do
    gives "$made lies on its side" 0 "$mexaldor" scrub --force "work/$made" "work/new.$made"
    says "when it is scrubbed, and says so" "work/$made: $turned"
    check "the orientation is gone" test -z "$(exiftool -s3 -Orientation "work/new.$made")"
    gives "$made keeps its orientation" 0 "$mexaldor" scrub --force --keep-orientation "work/$made" "work/new.$made"
    check "then nothing is said of it" test "$(grep -c 'lie on its side' err)" = 0
    check "and exiftool reads it" test "$(exiftool -s3 -n -Orientation "work/new.$made")" = 6
done
cp work/all.jpg work/turned.jpg
gives "in place" 0 "$mexaldor" scrub --in-place work/turned.jpg
says "it is said too" "work/turned.jpg: $turned"
cp work/all.jpg work/turned.jpg
gives "but not with -q" 0 "$mexaldor" scrub -q --in-place work/turned.jpg
check "which writes nothing" test ! -s err
exiftool -q -Orientation#=1 -o work/upright.jpg work/all.jpg
gives "an upright picture" 0 "$mexaldor" scrub --force work/upright.jpg work/new.jpg
check "stays so" test ! -s err
"$mexaldor" scrub --force --places-only work/all.jpg work/new.jpg 2>err
check "a picture without its location keeps its orientation" test "$(grep -c 'lie on its side' err)" = 0

# Dates of XMP and IPTC data stay, which is reported.
stay="dates in its XMP or IPTC data are not changed"
exiftool -q -XMP-xmp:CreateDate="2020:02:28 23:30:01" -o work/xmp.jpg work/all.jpg
exiftool -q -IPTC:DateCreated=2020:02:28 -o work/iptc.jpg work/all.jpg
exiftool -q -XMP-xmp:CreateDate="2020:02:28 23:30:01" -o work/xmp.tif work/turned.tif
for made in xmp.jpg iptc.jpg xmp.tif; do
    cp "work/$made" "work/new.$made"
    gives "dates of $made are moved" 3 "$mexaldor" shift +1d00:00 "work/new.$made"
    says "but for those of XMP and IPTC" "work/new.$made: $stay"
    check "exiftool reads the new date" test "$(exiftool -s3 -ExifIFD:DateTimeOriginal "work/new.$made")" = "2020:02:29 23:30:00"
    gives "a date of $made is set" 3 "$mexaldor" set --force "work/$made" "work/new.$made" "DateTimeOriginal=2021:01:01 00:00:00"
    says "but for those of XMP and IPTC" "work/$made: $stay"
    gives "another value of $made is set" 0 "$mexaldor" set --force "work/$made" "work/new.$made" Orientation=1
    check "and nothing is reported" test ! -s err
done
cp work/all.jpg work/new.jpg
gives "without XMP and IPTC data" 0 "$mexaldor" shift +1d00:00 work/new.jpg
check "nothing stays" test ! -s err

# A camera's notes, whose text stands where they say, counted from the first byte of the data.
python3 - files/plain.jpg work/noted.jpg <<'NOTED'
import struct, sys
data = b"MM\0*\0\0\0\x08" + struct.pack(
    ">H HHII HHIHH HHII HHII I 6s H HHII I H HHI4s HHI4s I H HHII I 20s",
    4, 0x10F, 2, 6, 62, 0x112, 3, 1, 6, 0, 0x8769, 4, 1, 68, 0x8825, 4, 1, 86, 0, b"Canon",
    1, 0x927C, 7, 38, 116, 0,
    2, 0, 1, 4, b"\2\3\0\0", 1, 2, 2, b"N", 0,
    1, 6, 2, 20, 134, 0, b"Canon PowerShot S30")
plain = open(sys.argv[1], "rb").read()
segment = b"\xff\xe1" + struct.pack(">H", len(data) + 8) + b"Exif\0\0" + data
open(sys.argv[2], "wb").write(plain[:2] + segment + plain[2:])
NOTED
check "exiftool reads the camera's notes" test "$(exiftool -s3 -CanonImageType work/noted.jpg)" = "Canon PowerShot S30"
"$mexaldor" set --force work/noted.jpg work/new.jpg Orientation=1
check "and reads them behind a new orientation" test "$(exiftool -s3 -CanonImageType work/new.jpg)" = "Canon PowerShot S30"
check "of which one byte changed" test "$(differ work/noted.jpg work/new.jpg)" = 1
"$mexaldor" scrub --force --places-only work/noted.jpg work/new.jpg
check "and behind erased places" test "$(exiftool -s3 -CanonImageType work/new.jpg)" = "Canon PowerShot S30"
check "of which none is left" test -z "$(exiftool -s -GPS:all work/new.jpg)"

if has exiv2; then
    exiv2 -pe work/all.jpg | grep -v GPSInfo | grep -v GPSTag >old 2>/dev/null
    exiv2 -pe work/new.jpg >new 2>/dev/null
    check "exiv2 reads no GPS data" sh -c '! grep -q GPSInfo new'
    "$mexaldor" set --force work/all.jpg work/new.jpg Orientation=1
    exiv2 -pe work/all.jpg >old 2>/dev/null
    exiv2 -pe work/new.jpg >new 2>/dev/null
    check "exiv2 reads the new orientation, and all else as before" test "$(diff old new | grep -c '^>')" = 1
fi

# others FILE TAG: what exiftool reads of a file, and the thumbnail itself, but for one tag, the size and
# the thumbnail's offset in the file, and where the last media data box of a HEIF file is. A rewritten WebP
# file has its Exif data last.
others() {
    seen "$1" 2>/dev/null | grep -v -e "FileSize" -e "ThumbnailOffset" -e "MPImageStart" -e "MPImageLength" -e "MPF" -e "MediaData" -e "^\[[A-Za-z0-9]*\] *$2 " | sort
    exiftool -b -ThumbnailImage "$1" 2>/dev/null | cksum
}

# warnings FILE: what exiftool finds wrong, but that a new directory lacks the field of its version.
warnings() {
    exiftool -validate -warning -a -s3 "$1" | tail -n +2 | grep -v "Missing required" | sort
}

# grows FILE TAG VALUE: a longer value or a new field is read by exiftool, and all else as before.
grows() {
    new=work/new.${1##*.}
    rm -f "$new"
    "$mexaldor" set --force "$1" "$new" "$2=$3"
    check "$1: exiftool reads the new $2" test "$(exiftool -s3 -"$2" "$new")" = "$3"
    others "$1" "$2" >old
    others "$new" "$2" >new
    check "$1: and all else as before $2" cmp old new
    warnings "$1" >old.warnings
    warnings "$new" >new.warnings
    check "$1: $2 brings no warning" cmp old.warnings new.warnings
    if has exiv2; then
        exiv2 -PEkycv "$1" 2>old.errors | grep -v "\.$2 " | grep -v "Exif.*Tag " >old
        exiv2 -PEkycv "$new" 2>new.errors | grep -v "\.$2 " | grep -v "Exif.*Tag " >new
        check "$1: exiv2 reads all else as before $2" cmp old new
        check "$1: exiv2 finds nothing new wrong" cmp old.errors new.errors
    fi
}

# A picture as cameras write them: maker notes, a sub-directory, an uncompressed thumbnail, and a second
# picture that an MPF segment points to; and a TIFF picture with strips, whose sub-directory has a tile.
python3 - files/plain.jpg work/rich.jpg work/rich.tif <<'RICH'
import struct, sys

def directory(entries, at, following=0):
    """A directory at an offset: entries of tag, type, count and bytes; values follow it."""
    values, behind = b"", at + 2 + 12 * len(entries) + 4
    listed = struct.pack(">H", len(entries))
    for tag, kind, count, value in sorted(entries):
        if len(value) > 4:
            listed += struct.pack(">HHII", tag, kind, count, behind + len(values))
            values += value + b"\0" * (len(value) % 2)
        else:
            listed += struct.pack(">HHI", tag, kind, count) + value.ljust(4, b"\0")
    return listed + struct.pack(">I", following) + values

def short(*numbers):
    return struct.pack(f">{len(numbers)}H", *numbers)

def long(*numbers):
    return struct.pack(f">{len(numbers)}I", *numbers)

def laid(*parts):
    """TIFF data of parts, each a function of its offset and of the offsets of all."""
    offsets = [8] * len(parts)
    for _ in parts:
        data = b"MM\0*\0\0\0\x08"
        for number, part in enumerate(parts):
            offsets[number] = len(data)
            data += part(offsets[number], offsets)
            data += b"\0" * (len(data) % 2)
    return data

NOTES = b"\0\1\0\6\0\2\0\0\0\x14"
data = laid(
    lambda at, o: directory([(0x10F, 2, 6, b"Canon\0"), (0x112, 3, 1, short(6)), (0x14A, 4, 1, long(o[4])),
                             (0x8769, 4, 1, long(o[1]))], at, o[5]),
    lambda at, o: directory([(0x9003, 2, 20, b"2020:02:28 23:30:00\0"), (0x927C, 7, 18, NOTES + long(o[3]) + b"\0" * 4)], at),
    lambda at, o: b"",
    lambda at, o: b"Canon PowerShot S30\0",
    lambda at, o: directory([(0xFE, 4, 1, long(1)), (0x100, 3, 1, short(1)), (0x101, 3, 1, short(1)), (0x10E, 2, 5, b"Sub1\0")], at),
    lambda at, o: directory([(0xFE, 4, 1, long(1)), (0x100, 3, 1, short(2)), (0x101, 3, 1, short(2)), (0x102, 3, 3, short(8, 8, 8)), (0x103, 3, 1, short(1)),
                             (0x106, 3, 1, short(2)), (0x111, 4, 1, long(o[6])), (0x115, 3, 1, short(3)), (0x116, 3, 1, short(2)),
                             (0x117, 4, 1, long(12))], at),
    lambda at, o: bytes(range(12)))
plain = open(sys.argv[1], "rb").read()

def segment(code, body):
    return bytes([255, code]) + struct.pack(">H", len(body) + 2) + body

def mpf(first, second):
    entries = long(0x20030000, first, 0, 0) + long(0x00000000, len(plain), second, 0)
    return segment(0xE2, b"MPF\0MM\0*\0\0\0\x08" + directory([(0xB000, 7, 4, b"0100"), (0xB001, 4, 1, long(2)), (0xB002, 7, 32, entries)], 8))

start = plain[:2] + segment(0xE1, b"Exif\0\0" + data)
first = len(start + mpf(0, 0) + plain[2:])
open(sys.argv[2], "wb").write(start + mpf(first, first - len(start) - 8) + plain[2:] + plain)
picture = laid(
    lambda at, o: directory([(0x100, 3, 1, short(4)), (0x101, 3, 1, short(4)), (0x102, 3, 1, short(8)), (0x103, 3, 1, short(1)),
                             (0x106, 3, 1, short(1)), (0x111, 4, 2, long(o[1], o[2])), (0x115, 3, 1, short(1)), (0x116, 3, 1, short(2)),
                             (0x117, 4, 2, long(8, 8)), (0x11A, 5, 1, long(72, 1)), (0x11B, 5, 1, long(72, 1)), (0x128, 3, 1, short(2)),
                             (0x14A, 4, 1, long(o[3]))], at),
    lambda at, o: bytes(range(8)),
    lambda at, o: bytes(range(100, 108)),
    lambda at, o: directory([(0xFE, 4, 1, long(1)), (0x100, 3, 1, short(16)), (0x101, 3, 1, short(16)), (0x102, 3, 1, short(8)),
                             (0x103, 3, 1, short(1)), (0x106, 3, 1, short(1)), (0x115, 3, 1, short(1)), (0x142, 3, 1, short(16)),
                             (0x143, 3, 1, short(16)), (0x144, 4, 1, long(o[4])), (0x145, 4, 1, long(256))], at),
    lambda at, o: bytes(range(256)))
open(sys.argv[3], "wb").write(picture)
RICH
check "exiftool reads the notes of the rich picture" test "$(exiftool -s3 -CanonImageType work/rich.jpg)" = "Canon PowerShot S30"
check "and its second picture" sh -c 'exiftool -b -MPImage2 work/rich.jpg | cmp - files/plain.jpg'

long="A text that is much longer than what stood there before it was set"
for file in work/all.jpg work/noted.jpg work/rich.jpg work/rich.tif files/whole.jpg files/whole.webp files/whole.tif files/big.tif; do
    for tag in ImageDescription Artist LensMake Copyright; do
        grows "$file" "$tag" "$long about $tag"
    done
done
grows files/whole.tif GPSDateStamp "2020:02:28"

if has tiffcmp; then
    "$mexaldor" set --force work/rich.tif work/new.tif "LensMake=$long" "Copyright=$long"
    check "tiffcmp finds the same pixels" sh -c 'tiffcmp work/rich.tif work/new.tif'
fi
"$mexaldor" set --force work/rich.jpg work/new.jpg "Artist=$long" "LensMake=$long"
check "the second picture is the same" sh -c 'exiftool -b -MPImage2 work/new.jpg | cmp - files/plain.jpg'
if has djpeg; then
    djpeg work/rich.jpg >old
    djpeg work/new.jpg >new
    check "djpeg gives the same pixels" cmp old new
fi

# Files whose directory holds two tags twice: every program is to read the new values, whichever entry it takes.
python3 - files/plain.jpg work/twice.jpg work/twice.tif <<'TWICE'
import struct, sys
data = b"MM\0*\0\0\0\x08" + struct.pack(
    ">H HHII HHII HHIHH HHIHH I 8s 8s",
    4, 0x10E, 2, 8, 62, 0x10E, 2, 8, 70, 0x112, 3, 1, 6, 0, 0x112, 3, 1, 3, 0, 0, b"earlier", b"another")
plain = open(sys.argv[1], "rb").read()
segment = b"\xff\xe1" + struct.pack(">H", len(data) + 8) + b"Exif\0\0" + data
open(sys.argv[2], "wb").write(plain[:2] + segment + plain[2:])
open(sys.argv[3], "wb").write(data)
TWICE
for file in work/twice.jpg work/twice.tif; do
    new=work/new.${file##*.}
    check "$file: exiftool reads two orientations" test "$(exiftool -a -n -s3 -Orientation "$file" | tr '\n' ' ')" = "6 3 "
    "$mexaldor" set --force "$file" "$new" Orientation=1 "ImageDescription=$long"
    check "$file: and the new one twice" test "$(exiftool -a -n -s3 -Orientation "$new" | tr '\n' ' ')" = "1 1 "
    check "$file: and the new text twice" test "$(exiftool -a -s3 -ImageDescription "$new" | grep -cx "$long")" = 2
    check "$file: no old text is left" test "$(grep -c -a -e earlier -e another "$new")" = 0
    if has exiv2; then
        check "$file: exiv2 reads the new orientation" test "$(exiv2 -PEv -K Exif.Image.Orientation "$new" | sort -u)" = 1
    fi
done

# HEIC and AVIF files, whose item is moved behind the file, and once more.
if has heif-enc heif-convert; then
    heif-enc work/all.jpg -o work/all.heic >/dev/null 2>&1
    heif-enc -A work/all.jpg -o work/all.avif >/dev/null 2>&1
    for file in work/all.heic work/all.avif; do
        if [ ! -s "$file" ]; then
            echo "skipped, heif-enc has no encoder for $file"
            continue
        fi
        new=work/new.${file##*.}
        for tag in ImageDescription Artist LensMake; do
            grows "$file" "$tag" "$long about $tag"
            heif-convert "$file" old.y4m >/dev/null 2>&1
            heif-convert "$new" new.y4m >/dev/null 2>&1
            check "$file: heif-convert gives the same pixels behind $tag" cmp old.y4m new.y4m
        done
        "$mexaldor" set --force "$file" work/once.heic "Artist=$long"
        "$mexaldor" set --force work/once.heic "$new" "Artist=$long, twice" "LensMake=$long"
        check "$file: a value that has grown grows again" test "$(exiftool -s3 -Artist "$new")" = "$long, twice"
        others "$file" "[A-Z][a-z]*\(Make\|st\)" >old
        others "$new" "[A-Z][a-z]*\(Make\|st\)" >new
        check "$file: and all else is as before" cmp old new
    done
fi

ends
