#!/bin/sh
# Writes pictures of other programs again and compares what is decoded, and what exiftool shows.
. "$(dirname "$0")/checks.sh"

python3 - <<'P'
# a picture with edges and noise, as PPM and as PNG
import random
import struct
import zlib
random.seed(7)
rows = bytes(
    (x * y + c * 40 + random.randrange(32)) % 256 for y in range(120) for x in range(160) for c in range(3)
)
open("picture.ppm", "wb").write(b"P6 160 120 255\n" + rows)
chunk = lambda name, body: struct.pack(">I", len(body)) + name + body + struct.pack(">I", zlib.crc32(name + body))
lines = b"".join(b"\0" + rows[at : at + 480] for at in range(0, len(rows), 480))
head = chunk(b"IHDR", struct.pack(">IIBBBBB", 160, 120, 8, 2, 0, 0, 0))
open("picture.png", "wb").write(b"\x89PNG\r\n\x1a\n" + head + chunk(b"IDAT", zlib.compress(lines)) + chunk(b"IEND", b""))
P

# same_pixels NAME DECODER: the old and the new file are decoded to the same picture.
same_pixels() {
    case $2 in
        djpeg) djpeg "work/$1" >old.ppm && djpeg "work/new.$1" >new.ppm ;;
        dwebp) dwebp -quiet "work/$1" -o old.ppm && dwebp -quiet "work/new.$1" -o new.ppm ;;
    esac
    [ $? = 0 ] && cmp old.ppm new.ppm
}

mkdir work
if has djpeg cjpeg jpegtran exiftool; then
    cjpeg -quality 90 picture.ppm >work/baseline.jpg
    cjpeg -quality 90 -restart 1 picture.ppm >work/restart.jpg
    jpegtran -progressive work/baseline.jpg >work/progressive.jpg
    jpegtran -arithmetic work/baseline.jpg >work/arithmetic.jpg
    cjpeg -grayscale -optimize picture.ppm >work/grey.jpg
    for file in baseline restart progressive arithmetic grey; do
        exiftool -q -overwrite_original -Orientation#=6 -Artist=Somebody -Comment=said -XMP:Title=titled \
            -GPSLatitude=33 -GPSLatitudeRef=S -IPTC:City=Town "work/$file.jpg"
        gives "scrub takes all out of $file.jpg" 0 "$mexaldor" scrub --force "work/$file.jpg" "work/new.$file.jpg"
        check "its pixels stay" same_pixels "$file.jpg" djpeg
        exiftool -q -s -EXIF:all -XMP:all -IPTC:all -File:Comment "work/new.$file.jpg" >left
        check "exiftool shows nothing more" test ! -s left
        check "scrubbed once more it is the same" sh -c '"$1" scrub --force "work/new.$2" twice && cmp twice "work/new.$2"' sh "$mexaldor" "$file.jpg"
        gives "scrub keeps the orientation of $file.jpg" 0 "$mexaldor" scrub --force --keep-orientation "work/$file.jpg" "work/new.$file.jpg"
        exiftool -q -n -s -EXIF:all -XMP:all -IPTC:all "work/new.$file.jpg" >left
        check "exiftool shows it alone" test "$(tr -s ' ' <left)" = "Orientation : 6"
        gives "a longer text is set in $file.jpg" 0 "$mexaldor" set --force "work/$file.jpg" "work/new.$file.jpg" "Artist=Somebody whose name is longer"
        check "its pixels stay then" same_pixels "$file.jpg" djpeg
        check "exiftool shows the text" test "$(exiftool -s3 -Artist "work/new.$file.jpg")" = "Somebody whose name is longer"
        check "and what else there was" test "$(exiftool -s3 -XMP:Title -IPTC:City -Comment -n -EXIF:Orientation "work/new.$file.jpg" | tr '\n' ' ')" = "titled Town said 6 "
    done
fi

if has cwebp dwebp webpmux exiftool; then
    cwebp -quiet picture.png -o work/lossy.webp
    cwebp -quiet -lossless picture.png -o work/lossless.webp
    cwebp -quiet -lossless -size 1000 picture.png -o work/small.webp
    for file in lossy lossless small; do
        exiftool -q -overwrite_original -Orientation#=6 -Artist=Somebody -XMP:Title=titled "work/$file.webp"
        gives "scrub takes all out of $file.webp" 0 "$mexaldor" scrub --force "work/$file.webp" "work/new.$file.webp"
        check "its pixels stay" same_pixels "$file.webp" dwebp
        exiftool -q -s -EXIF:all -XMP:all "work/new.$file.webp" >left
        check "exiftool shows nothing more" test ! -s left
        check "scrubbed once more it is the same" sh -c '"$1" scrub --force "work/new.$2" twice && cmp twice "work/new.$2"' sh "$mexaldor" "$file.webp"
        gives "scrub keeps the orientation of $file.webp" 0 "$mexaldor" scrub --force --keep-orientation "work/$file.webp" "work/new.$file.webp"
        check "exiftool shows it" test "$(exiftool -q -n -s3 -Orientation "work/new.$file.webp")" = 6
        check "webpmux reads the file" webpmux -info "work/new.$file.webp"
        gives "a text is set in $file.webp" 0 "$mexaldor" set --force "work/$file.webp" "work/new.$file.webp" "Artist=Somebody whose name is longer"
        check "its pixels stay then" same_pixels "$file.webp" dwebp
        check "exiftool shows the text" test "$(exiftool -s3 -Artist "work/new.$file.webp")" = "Somebody whose name is longer"
    done
    webpmux -frame work/lossy.webp +100 -frame work/lossless.webp +100 -loop 0 -o work/moving.webp 2>/dev/null
    exiftool -q -overwrite_original -Artist=Somebody work/moving.webp
    gives "scrub takes all out of a moving picture" 0 "$mexaldor" scrub --force work/moving.webp work/new.moving.webp
    webpmux -get frame 2 work/moving.webp -o old.webp 2>/dev/null
    webpmux -get frame 2 work/new.moving.webp -o new.webp 2>/dev/null
    check "its frames stay" cmp old.webp new.webp
    check "exiftool shows nothing more of it" test -z "$(exiftool -s -EXIF:all work/new.moving.webp)"
fi

ends
