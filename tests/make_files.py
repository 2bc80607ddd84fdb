"""Makes the pictures that the scripts beside it run on: python3 make_files.py FOLDER.

Everything is put together here from the standards (TIFF 6.0, Exif 2.32, JPEG, RIFF, ISO 14496-12),
so that no tool has to be there.
"""

import os
import struct
import sys

BYTE, ASCII, SHORT, LONG, RATIONAL, UNDEFINED = 1, 2, 3, 4, 5, 7


def item(order, kind, value):
    """The bytes of a value and its count."""
    if kind in (BYTE, ASCII, UNDEFINED):
        return value, len(value)
    if kind == RATIONAL:
        return b"".join(struct.pack(order + "II", *it) for it in value), len(value)
    return b"".join(struct.pack(order + ("H" if kind == SHORT else "I"), it) for it in value), len(value)


def directory(order, offset, entries, following=0):
    """A directory at an offset: its bytes, with its values behind it."""
    head, behind = struct.pack(order + "H", len(entries)), b""
    rest = offset + 2 + 12 * len(entries) + 4
    for tag, kind, value in sorted(entries):
        text, count = item(order, kind, value)
        head += struct.pack(order + "HHI", tag, kind, count)
        if len(text) <= 4:
            head += text.ljust(4, b"\0")
        else:
            head += struct.pack(order + "I", rest + len(behind))
            behind += text + b"\0" * (len(text) % 2)
    return head + struct.pack(order + "I", following) + behind


def size(entries):
    """How many bytes a directory and its values take."""
    return len(directory("<", 0, entries))


def tiff(first, exif=(), gps=(), thumbnail=b"", order="<"):
    """TIFF data of these entries, and of a thumbnail in a second directory."""
    first, exif, gps = list(first), list(exif), list(gps)
    names = [(0x8769, exif), (0x8825, gps)]
    first += [(tag, LONG, [0]) for tag, below in names if below]
    offset = 8 + size(first)
    data = b""
    for tag, below in names:
        if below:
            first = [it for it in first if it[0] != tag] + [(tag, LONG, [offset])]
            data += directory(order, offset, below)
            offset += size(below)
    following = 0
    if thumbnail:
        following = offset
        second = [(0x103, SHORT, [6]), (0x201, LONG, [0]), (0x202, LONG, [len(thumbnail)])]
        second[1] = (0x201, LONG, [offset + size(second)])
        data += directory(order, offset, second) + thumbnail
    start = b"II*\0\x08\0\0\0" if order == "<" else b"MM\0*\0\0\0\x08"
    return start + directory(order, 8, first, following) + data


def segment(marker, body):
    return b"\xff" + bytes([marker]) + struct.pack(">H", len(body) + 2) + body


# A grey picture of 32 by 8: a code table for each kind of number, and a scan of two intervals,
# of which the first has a stuffed byte.
SIZES = segment(0xDB, b"\0" + b"\x10" * 64) + segment(0xC0, b"\x08\0\x08\0\x20\x01\x01\x11\0")
CODES = segment(0xC4, b"\0\x01\x01" + b"\0" * 14 + b"\0\x0b") + segment(0xC4, b"\x10\x01" + b"\0" * 15 + b"\0")
PICTURE = SIZES + CODES + segment(0xDD, b"\0\x03") + segment(0xDA, b"\x01\x01\0\0\x3f\0")
SCAN = b"\x0b\xff\0\xbf\xff\xd0\x3f"


def jpeg(data=None, extra=b"", tail=b""):
    """A JPEG stream that holds Exif data."""
    exif = segment(0xE1, b"Exif\0\0" + data) if data else b""
    jfif = segment(0xE0, b"JFIF\0\x01\x02\0\0\x01\0\x01\0\0")
    return b"\xff\xd8" + jfif + exif + extra + PICTURE + SCAN + b"\xff\xd9" + tail


def chunk(name, body):
    return name + struct.pack("<I", len(body)) + body + b"\0" * (len(body) % 2)


def webp(data=None, extra=b""):
    """A WebP file that holds Exif data: a lossless picture of 1 by 1."""
    picture = chunk(b"VP8L", bytes.fromhex("2f00000010071011118888fe07"))
    flags = (8 if data else 0) | (4 if b"XMP " in extra else 0)
    canvas = chunk(b"VP8X", bytes([flags, 0, 0, 0, 0, 0, 0, 0, 0, 0]))
    body = b"WEBP" + canvas + picture + (chunk(b"EXIF", data) if data else b"") + extra
    return b"RIFF" + struct.pack("<I", len(body)) + body


def box(name, body):
    return struct.pack(">I", len(body) + 8) + name + body


def heif(data):
    """A HEIF file whose one item is its Exif data."""
    brand = box(b"ftyp", b"mif1\0\0\0\0mif1")
    entry = box(b"infe", b"\x02\0\0\0\0\x01\0\0Exif\0")
    entries = box(b"iinf", b"\0\0\0\0\0\x01" + entry)
    payload = b"\0\0\0\0" + data

    def meta(offset):
        located = b"\0\0\0\0\x44\0\0\x01\0\x01\0\0\0\x01" + struct.pack(">II", offset, len(payload))
        return box(b"meta", b"\0\0\0\0" + entries + box(b"iloc", located))

    offset = len(brand) + len(meta(0)) + 8
    return brand + meta(offset) + box(b"mdat", payload)


THUMBNAIL = b"\xff\xd8\xff\xd9"

FIRST = [
    (0x10E, ASCII, b"A long description of it\0"),
    (0x10F, ASCII, b"Maker\0"),
    (0x112, SHORT, [6]),
    (0x11A, RATIONAL, [(72, 1)]),
    (0x11B, RATIONAL, [(72, 1)]),
    (0x128, SHORT, [2]),
    (0x132, ASCII, b"2020:02:28 23:30:00\0"),
]

EXIF = [
    (0x829A, RATIONAL, [(1, 200)]),
    (0x8827, SHORT, [100]),
    (0x9000, UNDEFINED, b"0231"),
    (0x9003, ASCII, b"2020:02:28 23:30:00\0"),
    (0x9004, ASCII, b"    :  :     :  :  \0"),
    (0x927C, UNDEFINED, b"notes that count from the start"),
]

GPS = [
    (0, UNDEFINED, b"\x02\x03\0\0"),
    (1, ASCII, b"S\0"),
    (2, RATIONAL, [(33, 1), (51, 1), (35900, 1000)]),
    (3, ASCII, b"E\0"),
    (4, RATIONAL, [(151, 1), (12, 1), (40, 1)]),
]

XMP = segment(0xE1, b"http://ns.adobe.com/xap/1.0/\0<x:xmpmeta xmlns:x='adobe:ns:meta/'/>")
COMMENT = segment(0xFE, b"a comment")


def main(folder):
    whole = tiff(FIRST, EXIF, GPS, THUMBNAIL)
    big = tiff(FIRST, EXIF, GPS, THUMBNAIL, ">")
    files = {
        "whole.tif": whole,
        "big.tif": big,
        "whole.jpg": jpeg(whole, XMP + COMMENT, b"behind the end"),
        "whole.webp": webp(whole, chunk(b"XMP ", b"<x:xmpmeta xmlns:x='adobe:ns:meta/'/>")),
        "whole.heic": heif(big),
        "plain.jpg": jpeg(),
        "plain.webp": webp(),
        "undated.jpg": jpeg(tiff([(0x112, SHORT, [1])])),
        "wrongdate.jpg": jpeg(tiff([(0x132, ASCII, b"2021:02:29 00:00:00\0")])),
        "faulty.jpg": jpeg(tiff([(0x112, SHORT, [3])])[:-4] + b"\0\0\0\xee"),
        "cut.jpg": jpeg(whole)[:-2],
        "empty.jpg": b"",
        "text.txt": b"no picture\n",
    }
    os.makedirs(folder, exist_ok=True)
    for name, data in files.items():
        with open(os.path.join(folder, name), "wb") as file:
            file.write(data)


if __name__ == "__main__":
    main(sys.argv[1])
