#!/bin/sh
# Metadata of one picture that are put into others.
. "$(dirname "$0")/checks.sh"

# fields FILE: the fields of a file, without its name.
fields() {
    "$mexaldor" show --full "$1" 2>/dev/null | tail -n +2
}

sample="$root/docs/sample.jpg"
fields "$sample" >expected

python3 "$root/tests/format_files.py" files
fresh
for file in plain.jpg plain.webp plain.png; do
    "$mexaldor" scrub --force "work/$file" before 2>/dev/null
    gives "Exif data are put into $file" 0 "$mexaldor" copy "$sample" "work/$file"
    fields "work/$file" >found
    check "its fields are those of the sample" cmp expected found
    "$mexaldor" scrub --force "work/$file" after 2>/dev/null
    # a WebP file gets the chunk that says what it has
    [ "$file" = plain.webp ] || check "nothing else of $file changed" cmp before after
done
for picture in plain xmp last; do
    file=work/$picture.jxl
    gives "Exif data are put into $picture.jxl" 0 "$mexaldor" copy "$sample" "$file"
    fields "$file" >found
    check "its fields are those of the sample" cmp expected found
    boxes "files/$picture.jxl" | grep -v '^Exif' >old
    boxes "$file" >new
    check "they are behind the file's type" test "$(sed -n 3p new)" = "Exif "
    check "its other boxes stay, in their order" sh -c 'grep -v "^Exif" new | cmp old -'
    if has exiftool; then
        exiftool -s3 -Model -Orientation -DateTimeOriginal "$sample" >old
        check "exiftool reads the same" sh -c 'exiftool -s3 -Model -Orientation -DateTimeOriginal "$0" | cmp old -' "$file"
    fi
done
head -c $(($(wc -c <files/whole.jxl) - 1)) files/whole.jxl >cut.jxl
gives "data are put into a JPEG XL file that is cut off" 3 "$mexaldor" copy "$sample" cut.jxl
says "which is reported" "cut.jxl: The file is cut off"
fields cut.jxl >found
check "its fields are those of the sample" cmp expected found
cp files/brob.jxl packed.jxl
gives "compressed Exif data are replaced" 0 "$mexaldor" copy "$sample" packed.jxl
check "and are gone" sh -c '! grep -aq brob packed.jxl'
fields packed.jxl >found
check "the new ones are read" cmp expected found
printf '\377\012\372\037' >naked.jxl
gives "a codestream without a container gets none" 1 "$mexaldor" copy "$sample" naked.jxl
says "by name" "naked.jxl: JPEG XL codestream without a container"
# a packet is a box of its type; those that a file has go, compressed or not, and its other boxes stay
"$mexaldor" show --full files/xmp.png 2>/dev/null | tail -n +2 >packet.fields
python3 -c '
import sys

sys.path.insert(0, sys.argv[1])
from format_files import XMP, box

print("xml ", box(b"xml ", XMP).hex())' "$root/tests" >packet.box
for picture in plain xmp last; do
    cp "files/$picture.jxl" packet.jxl
    gives "a packet is put into $picture.jxl" 0 "$mexaldor" copy --xmp files/xmp.png packet.jxl
    boxes packet.jxl >new
    check "it is a box behind the Exif data" sh -c 'sed -n 4p new | cmp packet.box -'
    check "which are behind the file's type" test "$(sed -n 3p new)" = "Exif "
    boxes "files/$picture.jxl" | grep -v '^Exif\|^xml \|^brob 0000000e62726f62786d6c20' >old
    check "it is the only one, and other boxes stay in their order" sh -c 'grep -v "^Exif\|^xml " new | cmp old -'
    check "and is there once" test "$(grep -c '^xml ' new)" = 1
    fields packet.jxl >found
    check "the fields are those of the picture" cmp packet.fields found
    if has exiftool; then
        exiftool -b -XMP files/xmp.png >old
        exiftool -b -XMP packet.jxl >new
        check "exiftool finds that packet" cmp old new
    fi
done
gives "data of other formats are found" 0 "$mexaldor" copy work/whole.webp work/plain.jpg
fields work/whole.webp >expected
fields work/plain.jpg >found
check "and put into a JPEG file" cmp expected found

# an editor turned and cut a picture: its own orientation and sizes stay
cp "$sample" turned.jpg
"$mexaldor" set -q -i turned.jpg Orientation=1 PixelXDimension=10 PixelYDimension=20 2>/dev/null
cp turned.jpg shaped.jpg
gives "the shape of the file is kept" 0 "$mexaldor" copy --keep-target-shape "$sample" shaped.jpg
"$mexaldor" table --raw --tags Orientation,Model shaped.jpg >out
holds "its orientation" "shaped.jpg,1,Pinhole 2"
gives "else it is that of the data" 0 "$mexaldor" copy "$sample" turned.jpg
"$mexaldor" table --raw --tags Orientation,Model turned.jpg >out
holds "which is another" "turned.jpg,6,Pinhole 2"

cp files/plain.jpg same.jpg
gives "a picture without Exif data is refused" 1 "$mexaldor" copy files/plain.jpg same.jpg
says "by its name" "files/plain.jpg: "
check "and nothing changes" cmp files/plain.jpg same.jpg
cp files/whole.tif same.tif
gives "TIFF files get none" 1 "$mexaldor" copy "$sample" same.tif
says "which is said" "same.tif: "
check "and stay" cmp files/whole.tif same.tif
gives "nor are TIFF files a source" 1 "$mexaldor" copy files/whole.tif same.jpg
says "by their own name" "files/whole.tif: no Exif data are copied from TIFF files"
cp files/plain.jpg same.jpg
gives "a picture comes from standard input" 0 sh -c '"$0" copy - same.jpg <"$1"' "$mexaldor" "$sample"
"$mexaldor" table --raw --tags Model same.jpg >out
holds "and its data are put" "same.jpg,Pinhole 2"
gives "a file that is missing is refused" 1 "$mexaldor" copy nothing.jpg same.jpg
says "by name" "nothing.jpg: "
mkdir folder
cp files/plain.jpg folder/a.jpg
cp files/plain.jpg folder/b.jpg
gives "the pictures of a folder get them" 0 "$mexaldor" copy -q -r --backup "$sample" folder
check "each" cmp folder/a.jpg folder/b.jpg
check "and the old files are kept" cmp folder/a.jpg.orig files/plain.jpg
# packets and profiles: python3 makes the pictures, and reads them
python3 "$root/tests/blocks.py" make
cp files/plain.jxl profile.jxl
gives "a JPEG XL file gets no profile" 1 "$mexaldor" copy --icc full.jpg profile.jxl
says "for its reason" "profile.jxl: no colour profile is put into a JPEG XL file, whose colours are in its codestream"
check "and it stays" cmp files/plain.jxl profile.jxl
for to in jpg png webp; do
    for from in jpg png webp; do
        cp "bare.$to" "new.$to"
        gives "a packet from $from into $to" 0 "$mexaldor" copy --xmp "full.$from" "new.$to"
        check "it is that packet, and the rest stayed" python3 "$root/tests/blocks.py" xmp "full.$from" "bare.$to" "new.$to"
        cp "bare.$to" "new.$to"
        if [ "$from" = png ] && [ "$to" != png ]; then
            gives "a compressed profile is refused for $to" 1 "$mexaldor" copy --icc "full.$from" "new.$to"
            says "by its reason" "new.$to: the compressed colour profile of a PNG file is copied into PNG files only"
            check "and nothing changed" cmp "bare.$to" "new.$to"
        else
            gives "a profile from $from into $to" 0 "$mexaldor" copy --icc "full.$from" "new.$to"
            check "it is that profile, and the rest stayed" python3 "$root/tests/blocks.py" icc "full.$from" "bare.$to" "new.$to"
        fi
    done
done
cp bare.jpg new.jpg
gives "a picture without a packet is refused" 1 "$mexaldor" copy --xmp "$sample" new.jpg
says "by its own name" "$sample: File without an XMP packet"
check "and the other one stays" cmp bare.jpg new.jpg
if has djpeg && has dwebp && has pngcheck; then
    for from in jpg webp; do
        cp bare.jpg new.jpg
        cp bare.png new.png
        cp bare.webp new.webp
        "$mexaldor" copy -q --xmp --icc "full.$from" new.jpg new.png new.webp
        check "libjpeg decodes it" djpeg -outfile new.ppm new.jpg
        djpeg -outfile bare.ppm bare.jpg
        check "as before" cmp bare.ppm new.ppm
        check "pngcheck takes it" pngcheck -q new.png
        check "libwebp decodes it" dwebp -quiet -ppm new.webp -o new.ppm
        dwebp -quiet -ppm bare.webp -o bare.ppm
        check "as before" cmp bare.ppm new.ppm
    done
fi
if has exiftool; then
    cp bare.jpg new.jpg
    cp bare.png new.png
    cp bare.webp new.webp
    "$mexaldor" copy -q --xmp --icc full.webp new.jpg new.png new.webp
    for file in new.jpg new.png new.webp; do
        exiftool -b -ICC_Profile full.webp >expected
        exiftool -b -ICC_Profile "$file" >found
        check "exiftool finds the profile of $file" cmp expected found
        check "and the packet" sh -c 'exiftool -s3 -XMP-dc:Title "$0" | grep -qx "A title"' "$file"
        check "and no fault" sh -c '! exiftool -validate -warning "$0" | grep -i "icc\|xmp\|riff\|chunk"' "$file"
    done
    cp files/plain.jpg copied.jpg
    "$mexaldor" copy "$sample" copied.jpg
    exiftool -G1 -a -s -Exif:all --ThumbnailOffset "$sample" >expected
    exiftool -G1 -a -s -Exif:all --ThumbnailOffset copied.jpg >found
    check "exiftool reads the same" cmp expected found
fi
ends
