"""The files that are timed: CASES has for each its name, how often a round calls each work, and what makes its bytes."""
import struct
from functools import cache

# 5 MB, and 20 MB.
SCAN, MEDIA = 5 << 20, 20 << 20
# The types of values (TIFF 6.0, section 2).
ASCII, SHORT, LONG, RATIONAL, UNDEFINED, SRATIONAL = 2, 3, 4, 5, 7, 10
# The tags that point to other directories (Exif 2.32, 4.6.3).
EXIF, GPS = 0x8769, 0x8825
DATE = b"2020:01:02 03:04:05"
# A frame of one component, and the head of its scan (ITU-T T.81).
FRAME = b"\xff\xc0\0\x0b\x08\0\x10\0\x10\x01\x01\x11\0\xff\xda\0\x08\x01\x01\0\0\x3f\0"
HEAD = b"MM\0*\0\0\0\x08"


def text(letters):
    return ASCII, len(letters) + 1, letters + b"\0"


def short(number):
    return SHORT, 1, struct.pack(">H", number)


def fractions(kind, *numbers):
    return kind, len(numbers) // 2, struct.pack(f">{len(numbers)}I", *numbers)


# 24 fields as a camera writes them, in three directories.
IMAGE = {
    0x10F: text(b"Maker Corp."), 0x110: text(b"Model 1"), 0x112: short(1), 0x11A: fractions(RATIONAL, 72, 1),
    0x11B: fractions(RATIONAL, 72, 1), 0x128: short(1), 0x131: text(b"Software 1.0"), 0x132: text(DATE),
}
PICTURE = {
    0x829A: fractions(RATIONAL, 1, 60), 0x829D: fractions(RATIONAL, 28, 10), 0x8827: short(1), 0x9000: (UNDEFINED, 4, b"0230"),
    0x9003: text(DATE), 0x9004: text(DATE), 0x9204: fractions(SRATIONAL, 0, 1), 0x9207: short(1), 0x9209: short(1),
    0x920A: fractions(RATIONAL, 50, 1), 0xA001: short(1), 0xA002: short(4000), 0xA003: short(4000),
}
PLACE = {1: text(b"N"), 2: fractions(RATIONAL, 35, 1, 40, 1, 5245, 100), 0x1D: text(b"2020:01:02")}


@cache
def few_fields():
    """These as big endian TIFF data: the directories, and behind them the values, at even places."""
    image = len(IMAGE) + 2
    exif = len(HEAD) + 12 * image + 6
    gps = exif + 12 * len(PICTURE) + 6
    pointers = {EXIF: (LONG, 1, struct.pack(">I", exif)), GPS: (LONG, 1, struct.pack(">I", gps))}
    place, made, values = gps + 12 * len(PLACE) + 6, HEAD, b""
    for directory in ({**IMAGE, **pointers}, PICTURE, PLACE):
        made += struct.pack(">H", len(directory))
        for tag, (kind, count, value) in directory.items():
            stands = value.ljust(4, b"\0")
            if len(value) > 4:
                values += b"\0" * (len(values) % 2)
                stands = struct.pack(">I", place + len(values))
                values += value
            made += struct.pack(">HHI", tag, kind, count) + stands
        made += b"\0" * 4
    return made + values


@cache
def scan(length):
    """Bytes as of a scan: no two are alike for long, and none begins a marker. A shorter one is the front of a longer."""
    if length < MEDIA:
        return scan(MEDIA)[:length]
    state, made = 2024, bytearray(length)
    for place in range(length):
        state = (state * 1_664_525 + 1_013_904_223) & 0xFFFFFFFF
        made[place] = min(state >> 24, 0xFE)
    return bytes(made)


def segment(marker, body):
    return b"\xff" + marker + struct.pack(">H", min(len(body) + 2, 0xFFFF)) + body


def jpeg(*parts):
    """A JPEG stream of these parts, and of its Exif segment where one is None (Exif 2.32, 4.7.2)."""
    exif = segment(b"\xe1", b"Exif\0\0" + few_fields())
    return b"\xff\xd8" + b"".join(exif if it is None else it for it in parts) + b"\xff\xd9"


def chunk(name, payload):
    return name + struct.pack("<I", len(payload)) + payload + b"\0" * (len(payload) % 2)


def webp():
    """A WebP file with the Exif chunk behind an image of 5 MB (WebP Container Specification)."""
    return chunk(b"RIFF", b"WEBP" + chunk(b"VP8 ", scan(SCAN)) + chunk(b"EXIF", few_fields()))


def box(name, body):
    return struct.pack(">I", len(body) + 8) + name + body


def heif(media_first):
    """A HEIF file whose media of 20 MB begin with the Exif item (ISO/IEC 14496-12:2015, 8.11; 23008-12:2017, A.2.1)."""
    item = b"\0\0\0\x06Exif\0\0" + few_fields()
    media, kind = box(b"mdat", item + scan(MEDIA)), box(b"ftyp", b"mif1\0\0\0\0mif1")
    place = len(kind) + 8 + (0 if media_first else 77)
    items = b"\0\0\0\0\0\x01" + box(b"infe", b"\x02\0\0\0\0\x01\0\0Exif\0")
    where = b"\0\0\0\0\x44\0\0\x01\0\x01\0\0\0\x01" + struct.pack(">II", place, len(item))
    meta = box(b"meta", b"\0\0\0\0" + box(b"iinf", items) + box(b"iloc", where))
    return kind + (media + meta if media_first else meta + media)


def in_order(place):
    """Each tag once, the lowest first, but for the pointers."""
    return place + (place >= EXIF) + (place + 1 >= GPS)


def scattered(place):
    """Each tag once, in no order: an odd factor sends each number of 15 bits to another one."""
    return place * 40503 & 0x7FFF


def equal(_place):
    return 7


def numbers(count, tag_at):
    """One directory of so many numbers of 16 bits."""
    rows = (struct.pack(">HHIHH", tag_at(place), SHORT, 1, place, 0) for place in range(count))
    return HEAD + struct.pack(">H", count) + b"".join(rows) + b"\0" * 4


def texts(count):
    """One directory of so many texts of eleven letters, which stand behind it."""
    values = len(HEAD) + 12 * count + 6
    rows = (struct.pack(">HHII", place, ASCII, 12, values + 12 * place) for place in range(count))
    return HEAD + struct.pack(">H", count) + b"".join(rows) + b"\0" * 4 + b"ten letters\0" * count


CASES = [
    ("jpeg-24-fields", 5000, lambda: jpeg(None, FRAME, scan(2000))),
    ("jpeg-5mb-behind-segments", 20, lambda: jpeg(*[segment(b"\xe2", scan(65533))] * 80, None)),
    ("jpeg-5mb-behind-scan", 10, lambda: jpeg(FRAME, scan(SCAN), None)),
    ("tiff-5mb", 20, lambda: few_fields() + scan(SCAN)),
    ("webp-5mb-exif-last", 1000, webp),
    ("heif-20mb-meta-first", 1000, lambda: heif(False)),
    ("heif-20mb-media-first", 5, lambda: heif(True)),
    ("numbers-in-order-1000", 200, lambda: numbers(1000, in_order)),
    ("numbers-in-order-10000", 20, lambda: numbers(10_000, in_order)),
    ("numbers-in-order-60000", 3, lambda: numbers(60_000, in_order)),
    ("numbers-scattered-1000", 200, lambda: numbers(1000, scattered)),
    ("numbers-scattered-10000", 20, lambda: numbers(10_000, scattered)),
    ("numbers-scattered-60000", 3, lambda: numbers(60_000, scattered)),
    ("numbers-equal-10000", 20, lambda: numbers(10_000, equal)),
    ("texts-10000", 20, lambda: texts(10_000)),
]
