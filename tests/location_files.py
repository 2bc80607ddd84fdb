"""Makes files that hold a location in each way, beside those of make_files.py: location_files.py FOLDER."""
import os, struct, sys

folder = sys.argv[1]
SECRET = b"Zzyzx47"
plain = open(os.path.join(folder, "plain.jpg"), "rb").read()


def segment(code, content):
    return b"\xff" + bytes([code]) + struct.pack(">H", len(content) + 2) + content


# TIFF data with a GPS directory whose GPSProcessingMethod and GPSLatitudeRef are secret
gps = struct.pack(">HHHI4sHHIII", 2, 1, 2, 2, b"N", 27, 7, len(SECRET), 56, 0)
exif = b"MM\0*\0\0\0\x08" + struct.pack(">HHHIII", 1, 0x8825, 4, 1, 26, 0) + gps
exif += SECRET
xmp = b"""<?xpacket begin='' id='W5M0MpCehiHzreSzNTczkc9d'?><x:xmpmeta xmlns:x='adobe:ns:meta/'>
<rdf:RDF xmlns:rdf='http://www.w3.org/1999/02/22-rdf-syntax-ns#'><rdf:Description rdf:about=''
 xmlns:photoshop='http://ns.adobe.com/photoshop/1.0/' xmlns:exif='http://ns.adobe.com/exif/1.0/'
 xmlns:dc='http://purl.org/dc/elements/1.1/' photoshop:City='Zzyzx47' dc:source='kept'>
<exif:GPSLatitude>47,Zzyzx47N</exif:GPSLatitude></rdf:Description></rdf:RDF></x:xmpmeta><?xpacket end='w'?>"""
city = b"\x1c\x02\x5a" + struct.pack(">H", len(SECRET)) + SECRET
byline = b"\x1c\x02\x50\0\x04kept"
iptc = byline + city
resource = b"8BIM\x04\x04\0\0" + struct.pack(">I", len(iptc)) + iptc + b"\0" * (len(iptc) % 2)
digest = b"8BIM\x04\x25\0\0" + struct.pack(">I", 16) + b"d" * 16


def tiff(*fields):
    """TIFF data of one directory with these fields, each a tag, a type (4: LONG, or one of a byte) and its bytes."""
    at, values = 8 + 2 + 12 * len(fields) + 4, b""
    data = b"MM\0*\0\0\0\x08" + struct.pack(">H", len(fields))
    for tag, kind, value in fields:
        data += struct.pack(">HHI", tag, kind, len(value) // (4 if kind == 4 else 1))
        if len(value) <= 4:
            data += value.ljust(4, b"\0")
        else:
            data += struct.pack(">I", at + len(values))
            values += value
    return data + b"\0\0\0\0" + values


def with_thumbnail(stream):
    """TIFF data with an orientation, and a JPEG stream as their thumbnail."""
    first = struct.pack(">HHHIHHI", 1, 274, 3, 1, 1, 0, 26)
    second = struct.pack(">HHHIIHHIII", 2, 0x201, 4, 1, 56, 0x202, 4, 1, len(stream), 0)
    return b"MM\0*\0\0\0\x08" + first + second + stream


def tiff_file(name, data):
    open(os.path.join(folder, name), "wb").write(data)


EXIF = segment(0xE1, b"Exif\0\0" + exif)
XMP = segment(0xE1, b"http://ns.adobe.com/xap/1.0/\0" + xmp)
IPTC = segment(0xED, b"Photoshop 3.0\0" + digest + resource)


def extended(packet, length, *cuts):
    """Segments with the portions of an extended XMP packet of this length, cut at these offsets."""
    ends = [*cuts, len(packet)]
    name = b"http://ns.adobe.com/xmp/extension/\0" + b"0" * 32
    return [segment(0xE1, name + struct.pack(">II", length, a) + packet[a:b]) for a, b in zip([0, *cuts], ends)]


LONG = extended(SECRET, 70)[0]
# cut within both values of a location
PORTIONS = extended(xmp, len(xmp), xmp.index(SECRET) + 3, xmp.rindex(SECRET) + 3)
BROKEN = b"<City" + SECRET


def jpeg(name, segments, behind=b""):
    open(os.path.join(folder, name), "wb").write(plain[:2] + segments + plain[2:] + behind)


def chunk(name, content):
    return name + struct.pack("<I", len(content)) + content + b"\0" * (len(content) % 2)


def webp(name, chunks):
    whole = open(os.path.join(folder, "whole.webp"), "rb").read()
    picture, at = b"", 12
    while at < len(whole):
        size = struct.unpack("<I", whole[at + 4 : at + 8])[0]
        if whole[at : at + 4] not in (b"EXIF", b"XMP "):
            picture += whole[at : at + 8 + size + size % 2]
        at += 8 + size + size % 2
    body = b"WEBP" + picture + chunks
    open(os.path.join(folder, name), "wb").write(b"RIFF" + struct.pack("<I", len(body)) + body)


jpeg("exif.jpg", EXIF)
jpeg("exif_twice.jpg", EXIF + EXIF)
jpeg("zeros.jpg", EXIF + segment(0xFE, b"\0" * 9), b"\0" * 9)
jpeg("xmp.jpg", XMP)
jpeg("xmp_twice.jpg", XMP + XMP)
jpeg("extended_xmp.jpg", XMP + b"".join(PORTIONS))
jpeg("extended_xmp_only.jpg", EXIF + b"".join(PORTIONS) + IPTC)
jpeg("iptc.jpg", IPTC)
jpeg("all.jpg", EXIF + XMP + IPTC)
jpeg("second_picture.jpg", EXIF, plain[:2] + EXIF + XMP + plain[2:])
# a colour profile in two segments, and in a chunk
PROFILE = b"".join(segment(0xE2, b"ICC_PROFILE\0" + bytes([number, 2]) + b"profile") for number in (1, 2))
jpeg("profile.jpg", PROFILE + EXIF)
canvas = open(os.path.join(folder, "plain.webp"), "rb").read()
canvas = b"WEBP" + canvas[12:20] + b"\x28" + canvas[21:30] + chunk(b"ICCP", b"profile") + canvas[30:] + chunk(b"EXIF", exif)
open(os.path.join(folder, "profile.webp"), "wb").write(b"RIFF" + struct.pack("<I", len(canvas)) + canvas)
webp("exif.webp", chunk(b"EXIF", exif))
webp("xmp.webp", chunk(b"XMP ", xmp))
webp("both.webp", chunk(b"EXIF", exif) + chunk(b"XMP ", xmp))
# what is in TIFF data: XMP, IPTC, resources of Photoshop and GeoTIFF
fields = tiff((700, 1, xmp), (33723, 7, iptc), (34377, 1, digest + resource), (34737, 2, SECRET + b"\0"))
tiff_file("gps.tif", exif)
tiff_file("fields.tif", fields)
jpeg("fields.jpg", segment(0xE1, b"Exif\0\0" + fields))
# thumbnails with metadata of their own
jpeg("thumbnail.jpg", segment(0xE1, b"Exif\0\0" + with_thumbnail(plain[:2] + EXIF + XMP + IPTC + plain[2:])))
jpeg("commented_thumbnail.jpg", segment(0xE1, b"Exif\0\0" + with_thumbnail(plain[:2] + EXIF + segment(0xFE, SECRET) + plain[2:])))
webp("fields.webp", chunk(b"EXIF", fields))
tiff_file("sub_ifds.tif", tiff((330, 4, b"\0\0\0\0"), (700, 1, xmp)) + SECRET)
tiff_file("maker_note.tif", tiff((33723, 7, iptc), (37500, 7, SECRET)))
tiff_file("broken_xmp.tif", tiff((700, 1, b"<City" + SECRET)))
tiff_file("cut.tif", tiff((33723, 7, city + byline))[:-1])


def box(name, body):
    return struct.pack(">I", len(body) + 8) + name + body


def heif(name, items, behind=b""):
    """A HEIF file with these items, each of a type, with a content type and data, after a picture."""
    items = [(b"hvc1", b"", b"the picture")] + items
    brand = box(b"ftyp", b"mif1\0\0\0\0mif1heic")
    entries = b""
    for number, (kind, content, _) in enumerate(items, 1):
        entries += box(b"infe", struct.pack(">IHH", 2 << 24, number, 0) + kind + b"\0" + content)
    entries = box(b"iinf", struct.pack(">IH", 0, len(items)) + entries)

    def meta(offset):
        located = struct.pack(">IHH", 0, 0x4400, len(items))
        for number, (_, _, content) in enumerate(items, 1):
            located += struct.pack(">HHHII", number, 0, 1, offset, len(content))
            offset += len(content)
        return box(b"meta", b"\0" * 4 + entries + box(b"iloc", located))

    offset = len(brand) + len(meta(0)) + 8
    whole = brand + meta(offset) + box(b"mdat", b"".join(content for _, _, content in items))
    open(os.path.join(folder, name), "wb").write(whole + behind)


EXIF_ITEM = (b"Exif", b"", b"\0\0\0\0" + exif)
XMP_ITEM = (b"mime", b"application/rdf+xml\0", xmp)
heif("exif.heic", [EXIF_ITEM])
heif("xmp.heic", [XMP_ITEM])
heif("both.heic", [EXIF_ITEM, XMP_ITEM])
heif("twice.heic", [EXIF_ITEM, XMP_ITEM, EXIF_ITEM, XMP_ITEM])
heif("unknown_item.heic", [EXIF_ITEM, (b"uri ", b"x\0", SECRET)])
heif("unknown_box.heic", [XMP_ITEM], box(b"uuid", b"u" * 16 + SECRET))
heif("broken_xmp.heic", [(b"mime", b"application/rdf+xml\0", b"<City" + SECRET)])
# what is not looked at, or can't be read
jpeg("comment.jpg", EXIF + segment(0xFE, SECRET))
jpeg("trailer.jpg", EXIF, SECRET)
# texts and keywords, of which nothing can be said
jpeg("described.jpg", segment(0xE1, b"Exif\0\0" + tiff((270, 2, b"Near " + SECRET + b"\0"))))
jpeg("undescribed.jpg", segment(0xE1, b"Exif\0\0" + tiff((270, 2, b"        \0"), (700, 1, xmp))))
words = xmp.replace(b"dc:source='kept'", b"dc:description='" + SECRET + b"'")
jpeg("words.jpg", segment(0xE1, b"http://ns.adobe.com/xap/1.0/\0" + words))
jpeg("keywords.jpg", segment(0xED, b"Photoshop 3.0\0" + resource.replace(b"\x1c\x02\x50\0\x04kept", b"\x1c\x02\x19\0\x04word")))
tiff_file("words.tif", tiff((700, 1, words), (33723, 7, iptc)))
jpeg("unknown.jpg", EXIF + segment(0xE9, SECRET))


def resource_of(number, data, name=b""):
    """A resource of Photoshop with this number, data and name."""
    letters = bytes([len(name)]) + name + b"\0" * ((len(name) + 1) % 2)
    return b"8BIM" + struct.pack(">H", number) + letters + struct.pack(">I", len(data)) + data + b"\0" * (len(data) % 2)


def photoshop(*resources):
    return segment(0xED, b"Photoshop 3.0\0" + b"".join(resources))


# Exif data and XMP in resources of Photoshop are searched; a resolution and a flag are numbers
jpeg("resources.jpg", photoshop(resource_of(0x422, exif), resource_of(0x424, xmp), resource_of(1005, b"\0\x48" * 8), resource_of(1034, b"\1")))
# a caption, thumbnails, other Exif data, XML, a flag with more than its byte, and a name: may hold a location
for number in (1008, 1033, 1036, 1059, 1002, 1034, 8000):
    jpeg(f"resource_{number}.jpg", EXIF + photoshop(resource_of(number, SECRET)))
jpeg("resource_name.jpg", EXIF + photoshop(resource_of(1034, b"\1", SECRET)))
tiff_file("resource.tif", tiff((33723, 7, iptc), (34377, 1, resource_of(1008, SECRET))))
jpeg("resource_thumbnail.jpg", segment(0xE1, b"Exif\0\0" + with_thumbnail(plain[:2] + photoshop(resource_of(1008, SECRET)) + plain[2:])))
# a thumbnail of JFIF, and bytes behind the fields of JFIF and Adobe
jpeg("jfxx.jpg", EXIF + segment(0xE0, b"JFXX\0\x10" + SECRET))
jpeg("jfif_tail.jpg", segment(0xE0, b"JFIF\0\1\2\0\0\1\0\1\0\0" + SECRET) + EXIF)
jpeg("adobe_tail.jpg", segment(0xEE, b"Adobe\0\x64\0\0\0\0\1" + SECRET) + EXIF)
# a byte that is no marker behind the first one
open(os.path.join(folder, "no_second_marker.jpg"), "wb").write(plain[:2] + b"\5" + EXIF + plain[2:])
# texts in XMP: keywords of a catalogue, the name of a region, a comment, an identifier
for name, old, new in (
    ("keywords", b"dc:source='kept'", b"lr:weightedFlatSubject='" + SECRET + b"'"),
    ("region", b"dc:source='kept'", b"mwg-rs:Name='" + SECRET + b"'"),
    ("remark", b"<rdf:RDF", b"<!--" + SECRET + b"--><rdf:RDF"),
    ("about", b"rdf:about=''", b"rdf:about='" + SECRET + b"'"),
):
    jpeg(f"xmp_{name}.jpg", segment(0xE1, b"http://ns.adobe.com/xap/1.0/\0" + xmp.replace(old, new)))
# GPS data that are a version alone, and with a maker note, as some cameras write them
version = b"MM\0*\0\0\0\x08" + struct.pack(">HHHIII", 1, 0x8825, 4, 1, 26, 0) + struct.pack(">HHHI4sI", 1, 0, 1, 4, b"\2\3\0\0", 0)
jpeg("gps_version.jpg", segment(0xE1, b"Exif\0\0" + version))
jpeg("gps_version_note.jpg", segment(0xE1, b"Exif\0\0" + b"MM\0*\0\0\0\x08" + struct.pack(">HHHII", 2, 0x8825, 4, 1, 38) + struct.pack(">HHI4sI", 37500, 7, 4, b"note", 0) + version[26:]))
jpeg("long_xmp.jpg", XMP + LONG)
jpeg("other_order.jpg", XMP + b"".join(PORTIONS[::-1]))
jpeg("other_packet.jpg", XMP + PORTIONS[0] + PORTIONS[1].replace(b"0" * 32, b"1" * 32) + PORTIONS[2])
jpeg("broken_extended.jpg", XMP + b"".join(extended(BROKEN, len(BROKEN), 3)))
jpeg("broken_xmp.jpg", EXIF + segment(0xE1, b"http://ns.adobe.com/xap/1.0/\0" + BROKEN))
jpeg("broken_long.jpg", segment(0xE1, b"http://ns.adobe.com/xap/1.0/\0" + xmp + BROKEN))
jpeg("broken_iptc.jpg", segment(0xED, b"Photoshop 3.0\0" + resource.replace(b"\x1c\x02\x5a", b"\x1d\x02\x5a")))
jpeg("broken_exif.jpg", segment(0xE1, b"Exif\0\0XX" + SECRET) + XMP)
webp("unknown.webp", chunk(b"EXIF", exif) + chunk(b"ABCD", SECRET))
# chunks within the frame of an animation
frame = open(os.path.join(folder, "plain.webp"), "rb").read()[30:]
for name, inner in (("exif", chunk(b"EXIF", exif)), ("xmp", chunk(b"XMP ", xmp)), ("unknown", chunk(b"ABCD", SECRET))):
    body = b"WEBP" + chunk(b"VP8X", b"\2" + b"\0" * 9) + chunk(b"ANIM", b"\0" * 6) + chunk(b"ANMF", b"\0" * 16 + frame + inner)
    open(os.path.join(folder, f"frame_{name}.webp"), "wb").write(b"RIFF" + struct.pack("<I", len(body)) + body)
