"""Read, edit and remove the Exif data of TIFF, JPEG, HEIF and WebP files.

PNG and JPEG XL files are read, scrubbed and searched for locations; raw files are only read.

    >>> import mexaldor
    >>> mexaldor.read("holiday.jpg")["summary"]["orientation"]
    6
    >>> turned = mexaldor.set(open("holiday.jpg", "rb").read(), "Orientation=1")
    >>> clean = mexaldor.scrub("holiday.jpg")

The calls share no state and release the interpreter lock. What the library does is proved; this
package, which calls it, is tested.
"""

from __future__ import annotations

import ctypes
import ctypes.util
import enum
import json
import os
import pathlib
from typing import Any, Dict, Union

__all__ = ["Refused", "Status", "check", "erase_gps", "erase_locations", "read", "scrub", "set"]
__version__ = "0.1.0"

Source = Union[str, "os.PathLike[str]", bytes, bytearray, memoryview]


class Status(enum.IntEnum):
    """The result of a call of the library."""

    OK = 0
    FAULTS = 1
    INVALID_FORMAT = 2
    NOT_FOUND = 3
    BLANK_VALUE = 4
    TOO_BIG = 5
    NOT_SUPPORTED = 6
    UNEXPECTED_VALUE = 7
    OUT_OF_MEMORY = 8
    FIELD_NOT_FOUND = 16
    UNKNOWN_TYPE = 17
    VALUE_TOO_LONG = 18
    NAMES_OFFSETS = 19
    SHARED_BYTES = 20
    PICTURE_DATA = 22
    INVALID_HEADER = 23
    NO_DIRECTORY = 24
    FULL_DIRECTORY = 25
    NO_ASSIGNMENT = 32
    NOT_OF_ITS_TYPE = 33
    SECOND_EXIF = 34
    NO_DATE = 35
    OUT_OF_RANGE = 36
    NO_THUMBNAIL = 38
    LOCATION_FOUND = 39
    LOCATION_POSSIBLE = 40
    UNSTABLE = 41


class Refused(Exception):
    """A call was refused and nothing has changed. `status` gives the reason."""

    def __init__(self, status: Status, text: str) -> None:
        super().__init__(text)
        self.status = status


class _Answer(ctypes.Structure):
    _fields_ = [("status", ctypes.c_uint32), ("length", ctypes.c_size_t)]


def _library() -> ctypes.CDLL:
    """The shared library: from MEXALDOR_LIBRARY, from this package, or from the system."""
    beside = pathlib.Path(__file__).with_name("libmexaldor.so.0")
    path = os.environ.get("MEXALDOR_LIBRARY")
    if path is None:
        path = str(beside) if beside.exists() else ctypes.util.find_library("mexaldor")
    if path is None:
        raise ImportError("libmexaldor.so.0 was not found: set MEXALDOR_LIBRARY to its path")
    library = ctypes.CDLL(path)
    some, size = ctypes.c_void_p, ctypes.c_size_t
    library.mexaldor_read.argtypes = [some, size, ctypes.c_bool, ctypes.c_uint64, some, size]
    library.mexaldor_read.restype = _Answer
    library.mexaldor_scrub.argtypes = [some, size, some, size]
    library.mexaldor_scrub.restype = _Answer
    library.mexaldor_check.argtypes = [some, size, some, size]
    library.mexaldor_check.restype = _Answer
    library.mexaldor_erase_locations.argtypes = [some, size, ctypes.c_bool]
    library.mexaldor_erase_locations.restype = ctypes.c_uint32
    library.mexaldor_erase_gps.argtypes = [some, size]
    library.mexaldor_erase_gps.restype = ctypes.c_uint32
    library.mexaldor_set.argtypes = [some, size, some, size]
    library.mexaldor_set.restype = ctypes.c_uint32
    library.mexaldor_error.argtypes = [ctypes.c_uint32, some, size]
    library.mexaldor_error.restype = size
    return library


_mexaldor = _library()


def _bytes(source: Source) -> bytes:
    """The bytes of the file, or the given bytes."""
    if isinstance(source, (bytes, bytearray, memoryview)):
        return bytes(source)
    return pathlib.Path(source).read_bytes()


def _refused(status: int) -> Refused:
    room = ctypes.create_string_buffer(_mexaldor.mexaldor_error(status, None, 0))
    _mexaldor.mexaldor_error(status, room, len(room))
    return Refused(Status(status), room.raw.decode("ascii"))


def read(source: Source, *, strict: bool = False, limit: int = 0) -> Dict[str, Any]:
    """Read the Exif data of a file, as a dictionary described by docs/exif.schema.json.

    `source` is a path or the bytes of a file. Faults in directories and values are skipped and
    listed under "faults"; with `strict`, the first fault raises `Refused`. A picture without Exif
    data has a format, an empty "summary" and no "fields". `limit` is the most directory entries to
    read, for untrusted files, below 2**64; 0 means 1,000,000. `Refused` is raised if the file
    cannot be read.
    """
    if not 0 <= limit < 2**64:
        raise ValueError("limit must be at least 0 and below 2**64")
    data = _bytes(source)
    room = ctypes.create_string_buffer(max(4096, len(data) // 4))
    while True:
        answer = _mexaldor.mexaldor_read(data, len(data), not strict, limit, room, len(room))
        if answer.length <= len(room):
            break
        room = ctypes.create_string_buffer(answer.length)
    # without memory there is no object
    told = json.loads(room.raw[: answer.length]) if answer.length else {}
    if answer.status in (Status.OK, Status.FAULTS, Status.NOT_FOUND):
        return told
    refused = _refused(answer.status)
    raise Refused(refused.status, told.get("error", str(refused)))


def check(source: Source) -> Dict[str, Any]:
    """Check what a file holds beside the picture, as a dictionary described by
    docs/check.schema.json.

    "location" is "yes" if a part of the file holds a location, "unknown" if one may, else "no".
    "parts" has each part of the file, from its first byte to its last.
    """
    data = _bytes(source)
    room = ctypes.create_string_buffer(4096)
    while True:
        answer = _mexaldor.mexaldor_check(data, len(data), room, len(room))
        if answer.length <= len(room):
            break
        room = ctypes.create_string_buffer(answer.length)
    if answer.status not in (Status.OK, Status.LOCATION_FOUND, Status.LOCATION_POSSIBLE):
        raise _refused(answer.status)
    return json.loads(room.raw[: answer.length])


def erase_locations(source: Source, force_blank: bool = False) -> "tuple[bytes, bool]":
    """Return a copy of a file, of the same length, with its locations erased, and whether a part
    stays that may hold one: `check` says which.

    Erased are the GPS data of Exif, and the properties and datasets of XMP and IPTC that name a
    location. No other byte changes. XMP packets and IPTC data that can't be read stay, or are
    overwritten if `force_blank` is true.
    """
    room, length = _room(_bytes(source))
    status = _mexaldor.mexaldor_erase_locations(room, length, force_blank)
    if status not in (Status.OK, Status.LOCATION_POSSIBLE):
        raise _refused(status)
    return room.raw[:length], status == Status.LOCATION_POSSIBLE


def scrub(source: Source) -> bytes:
    """Return a copy of a file without its metadata.

    JPEG, WebP, PNG and JPEG XL files lose all metadata; the colour profile and what decoders need
    stay. In HEIF and TIFF files what is not the picture becomes zeros or empty data where it is;
    raw files are refused. Parts that may hold metadata and stay are listed by `check`. A JPEG stream that ends
    before its picture does is copied as far as it goes.
    """
    data = _bytes(source)
    room = ctypes.create_string_buffer(len(data) + 1)
    answer = _mexaldor.mexaldor_scrub(data, len(data), room, len(room))
    if answer.status > Status.FAULTS:
        raise _refused(answer.status)
    return room.raw[: answer.length]


def erase_gps(source: Source) -> bytes:
    """Return a copy of a file, of the same length, with the GPS data of Exif erased.

    Erased are the GPS directories that the directories of the Exif data point to, with their
    values. Locations in XMP, in maker notes and in data that nothing points to stay.
    """
    room, length = _room(_bytes(source))
    status = _mexaldor.mexaldor_erase_gps(room, length)
    if status != Status.OK:
        raise _refused(status)
    return room.raw[:length]


def set(source: Source, assignment: str) -> bytes:
    """Return a copy of a file, of the same length, with one field of the main image set.

    The assignment is TAG=VALUE: "Orientation=6", "DateTime=2024-05-01T12:30:00".
    """
    room, length = _room(_bytes(source))
    word = assignment.encode()
    status = _mexaldor.mexaldor_set(room, length, word, len(word))
    if status != Status.OK:
        raise _refused(status)
    return room.raw[:length]


def _room(data: bytes) -> "tuple[ctypes.Array[ctypes.c_char], int]":
    """A buffer with these bytes, which a call may change."""
    room = ctypes.create_string_buffer(max(1, len(data)))
    room[: len(data)] = data
    return room, len(data)
