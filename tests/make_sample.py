"""Makes the picture that README shows: python3 make_sample.py docs/sample.jpg.

It is put together by hand from the same standards as the files of make_files.py: a grey picture of 32 by 8
with what a camera says of it, in Exif 2.32's tags, and a thumbnail.
"""

import sys

from make_files import ASCII, BYTE, PICTURE, RATIONAL, SCAN, SHORT, UNDEFINED, jpeg, tiff

CAMERA = [
    (0x10F, ASCII, b"Example\0"),
    (0x110, ASCII, b"Pinhole 2\0"),
    (0x112, SHORT, [6]),
]

TAKEN = [
    (0x829A, RATIONAL, [(1, 200)]),
    (0x829D, RATIONAL, [(28, 10)]),
    (0x9000, UNDEFINED, b"0232"),
    (0x9003, ASCII, b"2024:05:01 12:30:00\0"),
    (0x9011, ASCII, b"+10:00\0"),
    (0x9291, ASCII, b"25\0"),
    (0xA002, SHORT, [32]),
    (0xA003, SHORT, [8]),
]

PLACE = [
    (0, BYTE, b"\x02\x03\0\0"),
    (1, ASCII, b"S\0"),
    (2, RATIONAL, [(33, 1), (51, 1), (3590, 100)]),
    (3, ASCII, b"E\0"),
    (4, RATIONAL, [(151, 1), (12, 1), (40, 1)]),
]

THUMBNAIL = b"\xff\xd8" + PICTURE + SCAN + b"\xff\xd9"


def sample():
    """The picture."""
    return jpeg(tiff(CAMERA, TAKEN, PLACE, THUMBNAIL))


if __name__ == "__main__":
    with open(sys.argv[1], "wb") as out:
        out.write(sample())
